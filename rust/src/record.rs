//! One record of a store or a list, and its bytes.
use crate::limits::RECORD_LENGTH;
use std::fmt;

/// A node of a search, or of a refutation from any hand.
#[derive(Clone, Copy, Debug, PartialEq, Eq, Hash)]
#[non_exhaustive]
pub enum Record {
    /// Two lots are tried the same, in the records that follow, and then apart. Either may be lot 0.
    Split {
        /// The first lot.
        a: u16,
        /// The second lot.
        b: u16,
        /// The record where the apart branch begins; 0 where that was never visited.
        next: u32,
    },
    /// Every term of a condition is false.
    Ground {
        /// The condition's number.
        condition: u16,
    },
    /// Every condition is met, under a limit by no more classes than it admits.
    Met,
    /// Under a limit: more classes are left than it admits, and those with the smallest lots, one more than the limit, are marked apart pairwise.
    Clique,
}

const SPLIT: u8 = 1;
const GROUND: u8 = 2;
const MET: u8 = 3;
const CLIQUE: u8 = 4;

impl Record {
    /// The record that the bytes have; none where the kind is no record's, or a byte that has to be 0 isn't.
    pub fn from_bytes(bytes: [u8; RECORD_LENGTH]) -> Option<Record> {
        let [kind, spare, a, a_high, b, b_high, next, next_high] = bytes;
        let (first, second, next) =
            (u16::from_le_bytes([a, a_high]), u16::from_le_bytes([b, b_high]), u16::from_le_bytes([next, next_high]));
        match (kind, spare, second, next) {
            (SPLIT, 0, b, next) => Some(Record::Split { a: first, b, next: u32::from(next) }),
            (GROUND, 0, 0, 0) => Some(Record::Ground { condition: first }),
            (MET, 0, 0, 0) if first == 0 => Some(Record::Met),
            (CLIQUE, 0, 0, 0) if first == 0 => Some(Record::Clique),
            _ => None,
        }
    }

    /// The record's bytes; none where `next` is too large for them.
    pub fn to_bytes(self) -> Option<[u8; RECORD_LENGTH]> {
        let (kind, first, second, next) = match self {
            Record::Split { a, b, next } => (SPLIT, a, b, u16::try_from(next).ok()?),
            Record::Ground { condition } => (GROUND, condition, 0, 0),
            Record::Met => (MET, 0, 0, 0),
            Record::Clique => (CLIQUE, 0, 0, 0),
        };
        let ([a, a_high], [b, b_high], [next, next_high]) = (first.to_le_bytes(), second.to_le_bytes(), next.to_le_bytes());
        Some([kind, 0, a, a_high, b, b_high, next, next_high])
    }
}

impl fmt::Display for Record {
    fn fmt(&self, f: &mut fmt::Formatter) -> fmt::Result {
        match self {
            Record::Split { a, b, .. } => write!(f, "split {a} {b}"),
            Record::Ground { condition } => write!(f, "ground {condition}"),
            Record::Met => write!(f, "met"),
            Record::Clique => write!(f, "clique"),
        }
    }
}

#[cfg(test)]
mod tests {
    use super::*;

    #[test]
    fn bytes_and_records_are_one_to_one() {
        let splits = [(1, 300, 65_535), (0, 3, 2), (3, 0, 2), (0, 0, 0)].map(|(a, b, next)| Record::Split { a, b, next });
        let records = splits.into_iter().chain([Record::Ground { condition: 256 }, Record::Met, Record::Clique]);
        for record in records {
            assert_eq!(record.to_bytes().and_then(Record::from_bytes), Some(record));
        }
    }

    #[test]
    fn other_bytes_are_no_record() {
        let others = [[0; 8], [5, 0, 0, 0, 0, 0, 0, 0], [1, 1, 0, 0, 0, 0, 0, 0], [2, 0, 1, 0, 1, 0, 0, 0], [2, 0, 1, 0, 0, 0, 0, 1]];
        assert!(others.into_iter().all(|bytes| Record::from_bytes(bytes).is_none()));
        for kind in [MET, CLIQUE] {
            assert!((1..RECORD_LENGTH).all(|at| {
                let mut bytes = [kind, 0, 0, 0, 0, 0, 0, 0];
                bytes[at] = 1;
                Record::from_bytes(bytes).is_none()
            }));
        }
    }

    #[test]
    fn a_next_too_large_has_no_bytes() {
        assert_eq!(Record::Split { a: 1, b: 2, next: 65_536 }.to_bytes(), None);
    }
}
