//! The classes that count under a limit, as sets of bits that a split changes and changes back: the smallest lot of each class, and for each of these the ones
//! that are marked apart from it. Of the lots 0 to 128 a set has 1 to 128: lot 0 is the smallest of its class always, and the lower of each pair that it is in.
use crate::classes::{bit, lots_of};
use crate::terms::LOTS;

pub struct Window {
    limit: u32,
    /// The smallest lot of each class but lot 0's.
    smallest: u128,
    /// For the smallest lot of a class those of the classes that are marked apart from it, and some that were smallest lots before a join. Lot 0 is in none.
    marked: [u128; LOTS],
}

/// A join, as needed to undo it: the smallest lots of both classes, the marks of the smaller before, and whether lot 0's class is marked apart from it only now.
#[derive(Clone, Copy)]
pub struct Joined {
    into: u8,
    from: u8,
    before: u128,
    zero: bool,
}

/// What a limit makes of a node that takes no condition.
pub enum Seen {
    /// No more classes are left than the limit admits.
    Few,
    /// The first pair that isn't marked apart.
    Pair(u8, u8),
    Clique,
}

fn index(lot: u8) -> usize {
    usize::from(lot)
}

/// The lots above a lot.
fn above(lot: u8) -> u128 {
    u128::MAX.checked_shl(u32::from(lot)).unwrap_or(0)
}

impl Window {
    /// Each of the lots 0 to `lots` in a class of its own.
    pub fn new(lots: usize, limit: u32) -> Window {
        Window { limit, smallest: !above(lots as u8), marked: [0; LOTS] }
    }

    /// The classes of two smallest lots, which differ, become one. They may be marked apart.
    #[inline]
    pub fn join(&mut self, x: u8, y: u8) -> Joined {
        let (into, from) = (x.min(y), x.max(y));
        let before = self.marked[index(into)];
        let new = self.marked[index(from)] & !before & !bit(into);
        for other in lots_of(new) {
            self.marked[index(other)] |= bit(into);
        }
        self.marked[index(into)] |= new;
        let zero = self.marked[0] & bit(from) != 0 && self.marked[0] & bit(into) == 0;
        if zero {
            self.marked[0] |= bit(into);
        }
        self.smallest &= !bit(from);
        Joined { into, from, before, zero }
    }

    #[inline]
    pub fn undo(&mut self, joined: Joined) {
        let Joined { into, from, before, zero } = joined;
        self.smallest |= bit(from);
        if zero {
            self.marked[0] &= !bit(into);
        }
        for other in lots_of(self.marked[index(from)] & !before & !bit(into)) {
            self.marked[index(other)] &= !bit(into);
        }
        self.marked[index(into)] = before;
    }

    /// Marks the classes of two smallest lots apart; whether that is new. A class isn't marked apart from itself.
    #[inline]
    pub fn set_apart(&mut self, x: u8, y: u8) -> bool {
        let (low, high) = (x.min(y), x.max(y));
        if low == high || self.marked[index(low)] & bit(high) != 0 {
            return false;
        }
        self.marked[index(low)] |= bit(high);
        self.marked[index(high)] |= bit(low);
        true
    }

    /// Takes back a mark that was new.
    #[inline]
    pub fn undo_apart(&mut self, x: u8, y: u8) {
        self.marked[index(x)] &= !bit(y);
        self.marked[index(y)] &= !bit(x);
    }

    /// The node, where each class below the one of lot `from` is known to be marked apart from all that count.
    #[inline]
    pub fn seen(&self, from: u8) -> Seen {
        if self.smallest.count_ones() < self.limit {
            return Seen::Few;
        }
        let more = (0..self.limit).fold(self.smallest, |rest, _| rest & rest.wrapping_sub(1));
        let counted = self.smallest & !more;
        let zero = (from == 0).then_some(0);
        for x in zero.into_iter().chain(lots_of(counted & above(from.saturating_sub(1)))) {
            let open = counted & above(x) & !self.marked[index(x)];
            if open != 0 {
                return Seen::Pair(x, open.trailing_zeros() as u8 + 1);
            }
        }
        Seen::Clique
    }
}

#[cfg(test)]
mod tests {
    use super::*;

    fn pair(seen: Seen) -> Option<(u8, u8)> {
        if let Seen::Pair(x, y) = seen { Some((x, y)) } else { None }
    }

    #[test]
    fn pairs_come_by_the_lower_and_then_by_the_higher_lot() {
        let mut window = Window::new(128, 2);
        for expected in [(0, 1), (0, 2), (1, 2)] {
            assert_eq!(pair(window.seen(0)), Some(expected));
            assert!(window.set_apart(expected.0, expected.1) && !window.set_apart(expected.1, expected.0));
        }
        assert!(matches!(window.seen(0), Seen::Clique));
        window.undo_apart(1, 2);
        assert_eq!(pair(window.seen(1)), Some((1, 2)));
        assert!(matches!(Window::new(128, 129).seen(0), Seen::Few) && matches!(Window::new(0, 1).seen(0), Seen::Few));
        assert_eq!(pair(Window::new(128, 128).seen(0)), Some((0, 1)));
    }

    #[test]
    fn a_join_gives_the_smaller_class_the_marks_of_the_other_and_is_undone() {
        let mut window = Window::new(5, 3);
        for (x, y) in [(0, 3), (2, 3), (4, 3), (1, 2)] {
            assert!(window.set_apart(x, y));
        }
        let (smallest, marked) = (window.smallest, window.marked);
        let first = window.join(3, 1);
        // The classes are 0, 1 3, 2, 4 and 5, of which the first four count.
        assert_eq!(pair(window.seen(0)), Some((0, 2)));
        assert!(!window.set_apart(0, 1) && !window.set_apart(4, 1) && !window.set_apart(2, 1));
        let second = window.join(4, 0);
        assert!(!window.set_apart(0, 1));
        window.undo(second);
        window.undo(first);
        assert!(window.smallest == smallest && window.marked == marked);
    }
}
