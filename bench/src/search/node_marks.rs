//! Two ways for a plain search to have the marks of its nodes in a table. A class is known by its smallest lot.
use crate::marks::{ClassOf, Marks};

/// The marks of a path. The search says what the path decides and takes back.
pub trait NodeMarks {
    /// For a sheet of so many lots, with no decision.
    fn new(lots: usize) -> Self;
    /// Whether two classes are marked apart, at a node that is looked at.
    fn between(&self, x: u8, y: u8) -> bool;
    /// A node is looked at from now on, or no more.
    fn look(&mut self, classes: &ClassOf, looks: bool);
    /// Two classes become one, known by the smaller. The number is for taking that back.
    fn join(&mut self, x: u8, y: u8) -> usize;
    fn undo_join(&mut self, number: usize);
    /// Two lots, of classes that aren't marked, are set apart.
    fn set_apart(&mut self, classes: &ClassOf, a: u8, b: u8);
    fn undo_apart(&mut self, classes: &ClassOf, a: u8, b: u8);
}

/// Document 01 word for word: the pairs set apart, and a table that is set from them and cleared at each node.
pub struct Stamped {
    apart: Vec<(u8, u8)>,
    marks: Marks,
}

impl NodeMarks for Stamped {
    fn new(_: usize) -> Stamped {
        Stamped { apart: Vec::new(), marks: Marks::new() }
    }

    #[inline]
    fn between(&self, x: u8, y: u8) -> bool {
        self.marks.between(x, y)
    }

    #[inline]
    fn look(&mut self, classes: &ClassOf, looks: bool) {
        self.marks.stamp(classes, self.apart.iter().copied(), looks);
    }

    fn join(&mut self, _: u8, _: u8) -> usize {
        0
    }

    fn undo_join(&mut self, _: usize) {}

    #[inline]
    fn set_apart(&mut self, _: &ClassOf, a: u8, b: u8) {
        self.apart.push((a, b));
    }

    #[inline]
    fn undo_apart(&mut self, _: &ClassOf, _: u8, _: u8) {
        self.apart.pop();
    }
}

/// A table that is kept along the path: a pair set apart marks its classes, a join gives the smaller class the marks of the other, and both are undone in place. A
/// node costs nothing for its marks.
pub struct Undone {
    lots: u8,
    marks: Marks,
    /// The marks that joins added, in order.
    added: Vec<(u8, u8)>,
}

impl NodeMarks for Undone {
    fn new(lots: usize) -> Undone {
        Undone { lots: lots as u8, marks: Marks::new(), added: Vec::new() }
    }

    #[inline]
    fn between(&self, x: u8, y: u8) -> bool {
        self.marks.between(x, y)
    }

    fn look(&mut self, _: &ClassOf, _: bool) {}

    #[inline]
    fn join(&mut self, x: u8, y: u8) -> usize {
        let (small, large) = (x.min(y), x.max(y));
        let before = self.added.len();
        if !self.marks.any(large) {
            return before;
        }
        for z in 0..=self.lots {
            if self.marks.between(large, z) && !self.marks.between(small, z) {
                self.marks.set(small, z, true);
                self.added.push((small, z));
            }
        }
        before
    }

    #[inline]
    fn undo_join(&mut self, number: usize) {
        for (x, z) in self.added.drain(number..) {
            self.marks.set(x, z, false);
        }
    }

    #[inline]
    fn set_apart(&mut self, classes: &ClassOf, a: u8, b: u8) {
        self.marks.stamp(classes, [(a, b)].into_iter(), true);
    }

    #[inline]
    fn undo_apart(&mut self, classes: &ClassOf, a: u8, b: u8) {
        self.marks.stamp(classes, [(a, b)].into_iter(), false);
    }
}
