//! The tree that a list of records makes.
use crate::classes;
use crate::record::Record;
use crate::records::{RecordError, Records};

/// The two branches of a split, in the order in which they are tried.
#[derive(Clone, Copy, Debug, PartialEq, Eq, Hash)]
pub enum Branch {
    /// The split's lots are taken to be the same.
    Same,
    /// They are taken to be apart.
    Apart,
}

/// A split that a record stands directly under, and the branch in which it does.
#[derive(Clone, Copy, Debug, PartialEq, Eq, Hash)]
pub struct Above {
    /// The number of the split's record.
    pub number: u32,
    /// The split's first lot.
    pub a: u16,
    /// Its second lot.
    pub b: u16,
    /// The branch.
    pub branch: Branch,
}

/// A record and its place in the tree. The first record stands under nothing; nor does a record left over after the last branch.
#[derive(Clone, Copy, Debug, PartialEq, Eq, Hash)]
pub struct Step {
    /// The record's number, from 1.
    pub number: u32,
    /// The record.
    pub record: Record,
    /// The number of splits above the record.
    pub depth: usize,
    /// The nearest of them.
    pub above: Option<Above>,
}

/// The iterator of [`RecordList::walk`](crate::RecordList::walk). Branches follow from the order of the records alone; a split's next isn't looked at. Between
/// two steps it tells which splits stand above the record that it gave last, and which classes they make.
///
/// ```
/// use lihumbay::{Branch, Sheet, Verdict};
/// let sheet = "same 1 2\napart 1 2".parse::<Sheet>()?.to_bytes();
/// let Verdict::Cannot { refutation } = lihumbay::search(&sheet)? else { panic!() };
/// let steps = refutation.walk().collect::<Result<Vec<_>, _>>()?;
/// assert_eq!(steps.iter().map(|step| step.depth).collect::<Vec<_>>(), [0, 1, 1]);
/// assert_eq!(steps[2].above.map(|above| above.branch), Some(Branch::Apart));
/// # Ok::<(), Box<dyn std::error::Error>>(())
/// ```
#[derive(Clone, Debug)]
pub struct Walk<'a> {
    records: Records<'a>,
    /// The splits above the record given last, with the branch in which it stands.
    path: Vec<Above>,
    /// That record, unless it can't be read.
    given: Option<(u32, Record)>,
}

impl<'a> Walk<'a> {
    pub(crate) fn new(records: Records<'a>) -> Self {
        Walk { records, path: Vec::new(), given: None }
    }

    /// The splits above the record that was given last, each with the branch in which that record stands, from the first record on.
    pub fn path(&self) -> &[Above] {
        &self.path
    }

    /// The classes of lots 0 to `lots` at the record that was given last: lots are together where splits above it, in their same branches, connect them. Each
    /// class is a rising list of lots, and they are in the order of their smallest lots, so that lot 0's is the first. At a clique the first of them, one more
    /// than the limit, are those that are apart pairwise.
    ///
    /// ```
    /// use lihumbay::{Record, Sheet, Verdict};
    /// let sheet: Sheet = "same 2 3\napart 1 2".parse()?;
    /// let Verdict::Cannot { refutation } = lihumbay::search_limited(&sheet.to_bytes(), 1)? else { panic!() };
    /// let mut walk = refutation.walk();
    /// assert!(walk.any(|step| step.is_ok_and(|step| step.record == Record::Clique)));
    /// assert_eq!(walk.classes(sheet.lots()), [[0, 1], [2, 3]]);
    /// # Ok::<(), Box<dyn std::error::Error>>(())
    /// ```
    pub fn classes(&self, lots: u16) -> Vec<Vec<usize>> {
        classes::under(&self.path, lots)
    }

    /// Goes to where the record after this one stands.
    fn pass(&mut self, number: u32, record: Record) {
        if let Record::Split { a, b, .. } = record {
            self.path.push(Above { number, a, b, branch: Branch::Same });
            return;
        }
        while let Some(split) = self.path.last_mut() {
            if split.branch == Branch::Same {
                split.branch = Branch::Apart;
                return;
            }
            self.path.pop();
        }
    }
}

impl Iterator for Walk<'_> {
    type Item = Result<Step, RecordError>;

    fn next(&mut self) -> Option<Self::Item> {
        if let Some((number, record)) = self.given.take() {
            self.pass(number, record);
        }
        let read = self.records.next()?;
        self.given = read.ok();
        Some(read.map(|(number, record)| Step { number, record, depth: self.path.len(), above: self.path.last().copied() }))
    }
}
