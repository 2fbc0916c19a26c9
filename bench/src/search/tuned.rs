//! A tuned search with the same nodes: nothing is scanned again. A join looks up the terms between the two classes alone, by pairs of lots; the conditions that
//! may be taken are sets of bits, whose lowest is the one taken; a mark is a bit; the apart branch goes on after the split's term; what a branch changed is
//! changed back. It doesn't check the sheet.
use crate::classes::{Classes, Join, lots_of};
use crate::records;
use crate::search::layout::{Conditions, Layout, insert, remove};
use crate::search::{End, answer, write_grouping};
use lihumbay::raw::Numbers;

/// A split on the path: its record and its term, which branch it is in, and what is needed to undo the same branch.
struct Split {
    record: usize,
    term: usize,
    condition: u8,
    apart: bool,
    trail: usize,
    passed: Conditions,
    join: Join,
}

/// What is known at a node, which the search under a limit knows too, but for the path.
pub(super) struct Search<'a> {
    pub(super) layout: Layout,
    pub(super) classes: Classes,
    /// The conditions with a "same" term whose lots share a class.
    pub(super) passed: Conditions,
    /// The conditions all of whose "apart" terms share a class, the number of those that don't, and the conditions of those that came to share one, in order.
    ready: Conditions,
    left: [u16; 256],
    pub(super) trail: Vec<u8>,
    path: Vec<Split>,
    pub(super) records: &'a mut [[u8; 8]],
    pub(super) count: usize,
}

impl<'a> Search<'a> {
    /// With no decision, for records to be written.
    #[inline]
    pub(super) fn of(sheet: &[u8], records: &'a mut [[u8; 8]]) -> Search<'a> {
        let layout = Layout::of(sheet);
        let (passed, ready, left) = (layout.passed, layout.ready, layout.left);
        let (trail, path) = (Vec::with_capacity(layout.aparts.len()), Vec::with_capacity(64));
        Search { layout, classes: Classes::new(), passed, ready, left, trail, path, records, count: 0 }
    }

    /// The condition taken: the lowest without a term that is true or open and "apart".
    #[inline]
    pub(super) fn taken(&self) -> Option<u8> {
        for i in 0..4 {
            let free = self.ready[i] & !self.passed[i];
            if free != 0 {
                return Some((64 * i) as u8 + free.trailing_zeros() as u8);
            }
        }
        None
    }

    /// The first open term from a term on. In the taken condition no "apart" term is open and no "same" term is true, so that one which isn't marked is open.
    #[inline]
    pub(super) fn first_open(&self, condition: u8, from: usize) -> Option<usize> {
        let end = usize::from(self.layout.begins[usize::from(condition) + 1]);
        let rest = self.layout.sames.get(from..end)?;
        let open = if self.classes.zero_marked() { self.not_marked::<true>(rest) } else { self.not_marked::<false>(rest) };
        Some(from + open?)
    }

    /// The place of the first term that isn't marked, where lot 0's class may have marks or has none.
    #[inline]
    fn not_marked<const ZERO: bool>(&self, sames: &[(u8, u8)]) -> Option<usize> {
        sames.iter().position(|&(a, b)| !self.classes.marked::<ZERO>(self.classes.of(a), self.classes.of(b)))
    }

    /// Two lots, the second not lot 0, come to share a class: so do the terms over them.
    #[inline]
    fn share(&mut self, a: u8, b: u8) {
        let pair = self.layout.pair(a, b);
        for (passed, same) in self.passed.iter_mut().zip(pair.same) {
            *passed |= same;
        }
        let mut at = pair.aparts;
        while at != 0 {
            let (condition, next) = self.layout.aparts[usize::from(at) - 1];
            let left = &mut self.left[usize::from(condition)];
            *left -= 1;
            if *left == 0 {
                insert(&mut self.ready, condition);
            }
            self.trail.push(condition);
            at = next;
        }
    }

    /// Joins the smaller class to the larger. Where that is lot 0's, lot 0 is among its lots without being in a set.
    #[inline]
    pub(super) fn join(&mut self, a: u8, b: u8) -> Join {
        let (x, y) = (self.classes.of(a), self.classes.of(b));
        let (from, into) = self.classes.by_size(x, y);
        let (own, others) = (self.classes.members(from), self.classes.members(into));
        for lot in lots_of(own) {
            for other in lots_of(self.layout.partners[usize::from(lot)] & others) {
                self.share(lot, other);
            }
        }
        if into == 0 {
            lots_of(self.layout.partners[0] & own).for_each(|lot| self.share(0, lot));
        }
        self.classes.join(from, into)
    }

    /// Undoes the same branch of a split.
    #[inline]
    pub(super) fn undo(&mut self, join: Join, passed: Conditions, trail: usize) {
        self.passed = passed;
        while self.trail.len() > trail {
            let Some(condition) = self.trail.pop() else { return };
            remove(&mut self.ready, condition);
            self.left[usize::from(condition)] += 1;
        }
        self.classes.undo(join);
    }

    /// Back to the nearest split still in its same branch, which goes over to its apart branch: the condition and the term where that goes on.
    fn turn(&mut self) -> Option<(u8, usize)> {
        while let Some(split) = self.path.last_mut() {
            let (a, b) = self.layout.sames[split.term];
            if split.apart {
                // The pair was open, so both its marks were new.
                self.classes.undo_apart(a, b, (true, true));
                self.path.pop();
                continue;
            }
            split.apart = true;
            let after = (split.condition, split.term + 1);
            if self.count < self.records.len() {
                records::set_next(&mut self.records[split.record], self.count + 1);
            }
            let (join, passed, trail) = (split.join, split.passed, split.trail);
            self.undo(join, passed, trail);
            self.classes.set_apart(a, b);
            return Some(after);
        }
        None
    }

    fn split(&mut self, condition: u8, term: usize) {
        let (a, b) = self.layout.sames[term];
        self.records[self.count] = records::split(usize::from(a), usize::from(b));
        let (record, trail, passed) = (self.count, self.trail.len(), self.passed);
        let join = self.join(a, b);
        self.path.push(Split { record, term, condition, apart: false, trail, passed, join });
        self.count += 1;
    }

    fn run(&mut self) -> End {
        let mut resumed = None;
        loop {
            if self.count == self.records.len() {
                return End::Full;
            }
            let taken = || self.taken().map(|c| (c, usize::from(self.layout.begins[usize::from(c)])));
            let Some((condition, from)) = resumed.take().or_else(taken) else {
                self.records[self.count] = records::met();
                self.count += 1;
                return End::Met;
            };
            if let Some(term) = self.first_open(condition, from) {
                self.split(condition, term);
                continue;
            }
            self.records[self.count] = records::ground(usize::from(condition) + 1);
            self.count += 1;
            resumed = self.turn();
            if resumed.is_none() {
                return End::Cannot;
            }
        }
    }
}

pub fn search(sheet: &[u8], grouping: &mut [u8], store: &mut [u8]) -> Numbers {
    let mut search = Search::of(sheet, records::of_store(store));
    let end = search.run();
    if end == End::Met {
        write_grouping(sheet, grouping, &search.classes);
    }
    let count = search.count;
    answer(end, search.records, count)
}
