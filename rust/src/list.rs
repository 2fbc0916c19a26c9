//! Lists of records: a refutation, or the nodes of a search that ended met.
use crate::limits::RECORD_LENGTH;
use crate::record::Record;
use crate::records::{RecordError, Records};
use crate::walk::Walk;
use std::borrow::Cow;

/// The bytes of a list of records, from a search or from any hand.
///
/// ```
/// use lihumbay::{Record, RecordList};
/// let list = RecordList::from([2, 0, 1, 0, 0, 0, 0, 0, 77, 0, 0, 0, 0, 0, 0, 0].as_slice());
/// let mut records = list.records();
/// assert_eq!(records.next(), Some(Ok((1, Record::Ground { condition: 1 }))));
/// assert_eq!(records.next().unwrap().unwrap_err().to_string(), "record 2 is of no known kind");
/// assert_eq!(records.next(), None);
/// ```
#[derive(Clone, Debug, PartialEq, Eq, Hash)]
pub struct RecordList<'a>(Cow<'a, [u8]>);

impl RecordList<'_> {
    /// The bytes, as [`check`](crate::check) takes them.
    pub fn as_bytes(&self) -> &[u8] {
        &self.0
    }

    /// The number of whole records.
    pub fn count(&self) -> usize {
        self.0.len() / RECORD_LENGTH
    }

    /// The records with their numbers, from 1.
    pub fn records(&self) -> Records<'_> {
        Records::new(&self.0)
    }

    /// The records with their places in the tree that they make.
    pub fn walk(&self) -> Walk<'_> {
        Walk::new(self.records())
    }

    /// The same list with bytes of its own.
    pub fn into_owned(self) -> RecordList<'static> {
        RecordList(Cow::Owned(self.0.into_owned()))
    }
}

impl<'a> From<&'a [u8]> for RecordList<'a> {
    fn from(bytes: &'a [u8]) -> Self {
        RecordList(Cow::Borrowed(bytes))
    }
}

impl From<Vec<u8>> for RecordList<'_> {
    fn from(bytes: Vec<u8>) -> Self {
        RecordList(Cow::Owned(bytes))
    }
}

impl<'a> IntoIterator for &'a RecordList<'_> {
    type Item = Result<(u32, Record), RecordError>;
    type IntoIter = Records<'a>;

    fn into_iter(self) -> Records<'a> {
        self.records()
    }
}

#[cfg(test)]
mod tests {
    use super::*;

    #[test]
    fn whole_records_are_counted() {
        assert_eq!(RecordList::from(vec![9; 2 * RECORD_LENGTH + 1]).count(), 2);
        assert_eq!(RecordList::from(vec![9; RECORD_LENGTH - 1]).count(), 0);
    }
}
