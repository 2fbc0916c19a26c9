//! The records that bytes have, one after the other.
use crate::limits::RECORD_LENGTH;
use crate::record::Record;
use std::error::Error;
use std::fmt;

/// A record that can't be read.
#[derive(Clone, Copy, Debug, PartialEq, Eq, Hash)]
pub enum RecordError {
    /// The record with this number has an unknown kind, or a byte that should be 0 and isn't.
    Unknown(u32),
    /// The bytes end inside the record with this number.
    Short(u32),
}

/// The iterator of [`RecordList::records`](crate::RecordList::records). After a record that can't be read it goes on with the next one.
#[derive(Clone, Debug)]
pub struct Records<'a> {
    rest: &'a [u8],
    number: u32,
}

impl<'a> Records<'a> {
    /// The records of these bytes.
    pub(crate) fn new(bytes: &'a [u8]) -> Self {
        Records { rest: bytes, number: 0 }
    }
}

impl Iterator for Records<'_> {
    type Item = Result<(u32, Record), RecordError>;

    fn next(&mut self) -> Option<Self::Item> {
        if self.rest.is_empty() {
            return None;
        }
        self.number = self.number.saturating_add(1);
        let Some((bytes, rest)) = self.rest.split_first_chunk::<RECORD_LENGTH>() else {
            self.rest = &[];
            return Some(Err(RecordError::Short(self.number)));
        };
        self.rest = rest;
        Some(Record::from_bytes(*bytes).map(|record| (self.number, record)).ok_or(RecordError::Unknown(self.number)))
    }
}

impl std::iter::FusedIterator for Records<'_> {}

impl fmt::Display for RecordError {
    fn fmt(&self, f: &mut fmt::Formatter) -> fmt::Result {
        match self {
            RecordError::Unknown(number) => write!(f, "record {number} is of no known kind"),
            RecordError::Short(number) => write!(f, "record {number} is cut short"),
        }
    }
}

impl Error for RecordError {}

#[cfg(test)]
mod tests {
    use super::*;

    #[test]
    fn reading_goes_on_after_an_unknown_record_and_ends_with_a_short_one() {
        let mut bytes = vec![9; RECORD_LENGTH];
        bytes.extend(Record::Met.to_bytes().unwrap());
        bytes.push(1);
        let read: Vec<_> = Records::new(&bytes).collect();
        assert_eq!(read, [Err(RecordError::Unknown(1)), Ok((2, Record::Met)), Err(RecordError::Short(3))]);
    }
}
