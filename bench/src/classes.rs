//! Classes and marks that are changed in place and changed back: members and marks as sets of bits. Of the lots 0 to 128 a set has 1 to 128, so that 128
//! bits are enough: lot 0 is in the class that is named 0, since what it is joined with always goes over into that one, and a pair of a lot and lot 0 is a
//! mark of that class alone.
use crate::terms::LOTS;

pub struct Classes {
    /// The class of each lot, named by one of its lots, and by 0 where that is in it. There is an entry for each value of a byte, so that no index needs a
    /// check of its bounds.
    class: [u8; 256],
    /// The lots of each class, but for lot 0.
    members: [u128; LOTS],
    /// For each class the lots that a pair sets apart from one of its own, but for lot 0.
    apart: [u128; LOTS],
    sizes: [u16; LOTS],
}

/// A join, as needed to undo it: the class that went up in the other, and that one's marks before.
#[derive(Clone, Copy, Default)]
pub struct Join {
    pub from: u8,
    pub into: u8,
    marks: u128,
}

fn index(lot: u8) -> usize {
    usize::from(lot)
}

/// The set of each lot, which is empty for lot 0. A table is quicker than a shift of 128 bits.
const BITS: [u128; 256] = {
    let mut bits = [0; 256];
    let mut lot = 1;
    while lot < LOTS {
        bits[lot] = 1 << (lot - 1);
        lot += 1;
    }
    bits
};

#[inline]
pub fn bit(lot: u8) -> u128 {
    BITS[usize::from(lot)]
}

/// The lots of a set, rising.
pub fn lots_of(mut set: u128) -> impl Iterator<Item = u8> {
    std::iter::from_fn(move || {
        if set == 0 {
            return None;
        }
        let lot = set.trailing_zeros() as u8 + 1;
        set &= set - 1;
        Some(lot)
    })
}

/// Each lot in a class of its own. Lot 0's has a size above that of all others, so that it is always the larger.
const START: Classes = {
    let mut classes = Classes { class: [0; 256], members: [0; LOTS], apart: [0; LOTS], sizes: [1; LOTS] };
    let mut lot = 0;
    while lot < LOTS {
        classes.class[lot] = lot as u8;
        classes.members[lot] = BITS[lot];
        lot += 1;
    }
    classes.sizes[0] = LOTS as u16;
    classes
};

impl Classes {
    pub fn new() -> Classes {
        START
    }

    #[inline]
    pub fn of(&self, lot: u8) -> u8 {
        self.class[index(lot)]
    }

    #[inline]
    pub fn members(&self, class: u8) -> u128 {
        self.members[index(class)]
    }

    /// Whether lot 0's class has a mark.
    #[inline]
    pub fn zero_marked(&self) -> bool {
        self.apart[0] != 0
    }

    /// Whether two classes are marked apart. Lot 0's has its marks with itself, and the others may lack them: it is the first of two by number. That is spared
    /// where it has no mark.
    #[inline]
    pub fn marked<const ZERO: bool>(&self, x: u8, y: u8) -> bool {
        let (x, y) = if ZERO { (x.min(y), x.max(y)) } else { (x, y) };
        self.apart[index(x)] & self.members[index(y)] != 0
    }

    /// The smaller of two classes, then the larger, which is lot 0's where that is one of them.
    #[inline]
    pub fn by_size(&self, x: u8, y: u8) -> (u8, u8) {
        if self.sizes[index(x)] < self.sizes[index(y)] { (x, y) } else { (y, x) }
    }

    /// The lots of one class go over into another. Marks name lots and not classes, so those of third classes stay as they are.
    #[inline]
    pub fn join(&mut self, from: u8, into: u8) -> Join {
        let join = Join { from, into, marks: self.apart[index(into)] };
        for lot in lots_of(self.members[index(from)]) {
            self.class[index(lot)] = into;
        }
        self.members[index(into)] |= self.members[index(from)];
        self.apart[index(into)] |= self.apart[index(from)];
        self.sizes[index(into)] += self.sizes[index(from)];
        join
    }

    #[inline]
    pub fn undo(&mut self, join: Join) {
        for lot in lots_of(self.members[index(join.from)]) {
            self.class[index(lot)] = join.from;
        }
        self.members[index(join.into)] &= !self.members[index(join.from)];
        self.apart[index(join.into)] = join.marks;
        self.sizes[index(join.into)] -= self.sizes[index(join.from)];
    }

    /// Sets a pair apart; whether each of its two marks is new.
    #[inline]
    pub fn set_apart(&mut self, a: u8, b: u8) -> (bool, bool) {
        let (x, y) = (index(self.of(a)), index(self.of(b)));
        let first = self.apart[x] & bit(b) == 0;
        self.apart[x] |= bit(b);
        let second = self.apart[y] & bit(a) == 0;
        self.apart[y] |= bit(a);
        (first, second)
    }

    /// Takes back the marks of a pair that were new.
    #[inline]
    pub fn undo_apart(&mut self, a: u8, b: u8, (first, second): (bool, bool)) {
        let (x, y) = (index(self.of(a)), index(self.of(b)));
        if second {
            self.apart[y] &= !bit(a);
        }
        if first {
            self.apart[x] &= !bit(b);
        }
    }

    /// The smallest lot of a lot's class.
    pub fn smallest(&self, lot: u8) -> u8 {
        match self.of(lot) {
            0 => 0,
            class => self.members(class).trailing_zeros() as u8 + 1,
        }
    }
}
