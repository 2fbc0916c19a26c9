//! The classes that the splits above a record make.
use crate::limits::ZERO_LOT;
use crate::walk::{Above, Branch};

/// The classes of lots 0 to `lots` where the lots of each split in its same branch are together: each a rising list, in the order of their smallest lots. A
/// split that names a lot above `lots` is passed over.
pub(crate) fn under(path: &[Above], lots: u16) -> Vec<Vec<usize>> {
    let mut trees = Trees::of(lots);
    for split in path.iter().filter(|split| split.branch == Branch::Same && split.a.max(split.b) <= lots) {
        trees.join(split.a.into(), split.b.into());
    }
    trees.classes()
}

/// For each lot itself, or a smaller lot of its class. The root of a class is its smallest lot.
struct Trees(Vec<usize>);

impl Trees {
    fn of(lots: u16) -> Self {
        Trees((ZERO_LOT..=lots).map(usize::from).collect())
    }

    fn root(&self, mut lot: usize) -> usize {
        while self.0[lot] != lot {
            lot = self.0[lot];
        }
        lot
    }

    fn join(&mut self, a: usize, b: usize) {
        let (a, b) = (self.root(a), self.root(b));
        self.0[a.max(b)] = a.min(b);
    }

    fn classes(&self) -> Vec<Vec<usize>> {
        let mut classes = vec![Vec::new(); self.0.len()];
        (0..self.0.len()).for_each(|lot| classes[self.root(lot)].push(lot));
        classes.retain(|class| !class.is_empty());
        classes
    }
}

#[cfg(test)]
mod tests {
    use super::*;

    fn above(a: u16, b: u16, branch: Branch) -> Above {
        Above { number: 1, a, b, branch }
    }

    #[test]
    fn lots_of_the_same_branches_are_together() {
        let path = [above(4, 2, Branch::Same), above(1, 3, Branch::Apart), above(4, 5, Branch::Same), above(2, 2, Branch::Same)];
        assert_eq!(under(&path, 5), [vec![0], vec![1], vec![2, 4, 5], vec![3]]);
        assert_eq!(under(&[], 2), [[0], [1], [2]]);
        assert_eq!(under(&[], 0), [[0]]);
    }

    #[test]
    fn lot_0_may_be_the_smallest_of_a_class() {
        let path = [above(3, 2, Branch::Same), above(2, 0, Branch::Same), above(5, 3, Branch::Same), above(5, 0, Branch::Same)];
        assert_eq!(under(&path, 5), [vec![0, 2, 3, 5], vec![1], vec![4]]);
    }

    #[test]
    fn a_lot_that_is_not_there_joins_nothing() {
        assert_eq!(under(&[above(1, 3, Branch::Same), above(65_535, 0, Branch::Same)], 2), [[0], [1], [2]]);
    }
}
