//! A sheet laid out for the tuned search: what changes when two lots come to share a class can be looked up by the pair, without a walk over terms.
use crate::classes::bit;
use crate::terms::{self, LOTS, Term};

/// A set of conditions, which count from 0.
pub type Conditions = [u64; 4];

/// What the terms over a pair of lots say.
pub struct Pair {
    /// The conditions that have a "same" term over the pair.
    pub same: Conditions,
    /// The "apart" terms over the pair: the place, from 1, of the first in `Layout::aparts`; 0 where there is none.
    pub aparts: u16,
}

pub struct Layout {
    /// The lots of the "same" terms, condition after condition, and where each condition begins.
    pub sames: Vec<(u8, u8)>,
    pub begins: [u16; 257],
    pub pairs: Vec<Pair>,
    /// The condition of each "apart" term, and the place of the next one over the same pair.
    pub aparts: Vec<(u8, u16)>,
    /// For each lot the lots that some term pairs it with, but for lot 0.
    pub partners: [u128; LOTS],
    /// For two lots the place of their pair, from 1; 0 where no term pairs them. The second isn't lot 0, which has a row and no column. A row has a power
    /// of two, so that no multiplication is needed.
    places: Vec<u16>,
    shift: u32,
    /// For each condition its "apart" terms over two lots.
    pub left: [u16; 256],
    /// The conditions that a "same" term over one lot passes over, and those with a term, but no "apart" term over two lots: one with no term is withdrawn, and
    /// is never taken.
    pub passed: Conditions,
    pub ready: Conditions,
}

pub fn insert(set: &mut Conditions, condition: u8) {
    set[usize::from(condition >> 6)] |= 1 << (condition & 63);
}

pub fn remove(set: &mut Conditions, condition: u8) {
    set[usize::from(condition >> 6)] &= !(1 << (condition & 63));
}

impl Layout {
    pub fn of(sheet: &[u8]) -> Layout {
        let (lots, conditions, count) = terms::header(sheet);
        let shift = lots.next_power_of_two().trailing_zeros();
        let mut layout = Layout {
            sames: Vec::with_capacity(count),
            begins: [0; 257],
            pairs: Vec::with_capacity(count),
            aparts: Vec::with_capacity(count),
            partners: [0; LOTS],
            places: vec![0; (lots + 1) << shift],
            shift,
            left: [0; 256],
            passed: [0; 4],
            ready: [0; 4],
        };
        for c in 0..conditions {
            let mut withdrawn = true;
            for term in terms::chain(sheet, c) {
                layout.add(c as u8, term);
                withdrawn = false;
            }
            layout.begins[c + 1] = layout.sames.len() as u16;
            if layout.left[c] == 0 && !withdrawn {
                insert(&mut layout.ready, c as u8);
            }
        }
        layout
    }

    fn add(&mut self, condition: u8, term: Term) {
        if term.same {
            self.sames.push((term.a, term.b));
        }
        if term.a == term.b {
            if term.same {
                insert(&mut self.passed, condition);
            }
            return;
        }
        let place = self.place(term.a, term.b);
        let pair = &mut self.pairs[place];
        if term.same {
            insert(&mut pair.same, condition);
        } else {
            self.aparts.push((condition, pair.aparts));
            pair.aparts = self.aparts.len() as u16;
            self.left[usize::from(condition)] += 1;
        }
    }

    /// The place of a pair, from 0, which is made where it isn't there.
    fn place(&mut self, a: u8, b: u8) -> usize {
        let (a, b) = (a.min(b), a.max(b));
        let there = self.cell(a, b);
        if self.places[there] == 0 {
            self.pairs.push(Pair { same: [0; 4], aparts: 0 });
            self.places[there] = self.pairs.len() as u16;
            if a > 0 {
                let back = self.cell(b, a);
                self.places[back] = self.pairs.len() as u16;
            }
            self.partners[usize::from(a)] |= bit(b);
            self.partners[usize::from(b)] |= bit(a);
        }
        usize::from(self.places[there]) - 1
    }

    fn cell(&self, a: u8, b: u8) -> usize {
        (usize::from(a) << self.shift) + usize::from(b) - 1
    }

    /// The pair of two partners, the second not lot 0.
    #[inline]
    pub fn pair(&self, a: u8, b: u8) -> &Pair {
        &self.pairs[usize::from(self.places[self.cell(a, b)]) - 1]
    }
}
