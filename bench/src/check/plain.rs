//! The checker of document 01 word for word, and document 02's under a limit: for each ground and each clique the classes and the marks are made from the path.
//! It doesn't check the sheet.
use crate::check::{Path, Split, walk};
use crate::marks::{self, ClassOf, Marks};
use crate::terms::{self, Term};
use lihumbay::raw::Numbers;

struct Plain {
    lots: usize,
    conditions: Vec<Vec<Term>>,
    /// The splits, and whether each is in its same branch.
    splits: Vec<(Split, bool)>,
    /// The marks of the record that is looked at; none between two records.
    marks: Marks,
}

fn apart(splits: &[(Split, bool)]) -> impl Iterator<Item = (u8, u8)> {
    splits.iter().filter(|(_, same)| !same).map(|(split, _)| (split.a, split.b))
}

/// Whether more classes are left than a limit admits, and the first of them by their smallest lots, one more than the limit, are all marked apart.
fn all_apart(classes: &ClassOf, marks: &Marks, lots: usize, limit: usize) -> bool {
    let smallest: Vec<u8> = (0..=lots as u8).filter(|&lot| classes[usize::from(lot)] == lot).collect();
    let Some(counted) = smallest.get(..=limit) else { return false };
    counted.iter().enumerate().all(|(i, &x)| counted[i + 1..].iter().all(|&y| marks.between(x, y)))
}

impl Plain {
    /// The smallest lot of each lot's class.
    fn classes(&self) -> ClassOf {
        let mut classes = marks::separate();
        for (split, _) in self.splits.iter().filter(|(_, same)| *same) {
            let (x, y) = (classes[usize::from(split.a)], classes[usize::from(split.b)]);
            if x != y {
                marks::join(&mut classes, x, y);
            }
        }
        classes
    }
}

impl Path for Plain {
    fn depth(&self) -> usize {
        self.splits.len()
    }

    fn push(&mut self, split: Split) {
        self.splits.push((split, true));
    }

    fn refutes(&mut self, condition: usize) -> bool {
        if self.conditions[condition].is_empty() {
            return false;
        }
        let classes = self.classes();
        self.marks.stamp(&classes, apart(&self.splits), true);
        let refuted = self.conditions[condition].iter().all(|term| {
            let (x, y) = (classes[usize::from(term.a)], classes[usize::from(term.b)]);
            if term.same { x != y && self.marks.between(x, y) } else { x == y }
        });
        self.marks.stamp(&classes, apart(&self.splits), false);
        refuted
    }

    fn is_clique(&mut self, limit: usize) -> bool {
        let classes = self.classes();
        self.marks.stamp(&classes, apart(&self.splits), true);
        let is_clique = all_apart(&classes, &self.marks, self.lots, limit);
        self.marks.stamp(&classes, apart(&self.splits), false);
        is_clique
    }

    fn turn(&mut self) -> Option<Split> {
        while let Some((split, same)) = self.splits.pop() {
            if same {
                self.splits.push((split, false));
                return Some(split);
            }
        }
        None
    }
}

fn path_of(sheet: &[u8]) -> Plain {
    let (lots, conditions, _) = terms::header(sheet);
    let conditions = (0..conditions).map(|c| terms::chain(sheet, c).collect()).collect();
    Plain { lots, conditions, splits: Vec::new(), marks: Marks::new() }
}

pub fn check(sheet: &[u8], list: &[u8]) -> Numbers {
    walk(&mut path_of(sheet), sheet, None, list)
}

pub fn check_limited(sheet: &[u8], limit: u32, list: &[u8]) -> Numbers {
    walk(&mut path_of(sheet), sheet, Some(limit), list)
}
