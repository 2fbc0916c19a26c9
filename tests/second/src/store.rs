//! The records of the node store, as bytes.
use crate::limits::*;

/// "kind, spare 0 (one byte each), first, second, next (two bytes each)"
#[derive(Clone, Copy, Debug, PartialEq, Eq)]
pub struct Record {
    pub kind: u8,
    pub spare: u8,
    pub first: u16,
    pub second: u16,
    pub next: u16,
}

impl Record {
    pub fn to_bytes(self) -> [u8; NODE_LENGTH] {
        let (first, second, next) = (self.first.to_le_bytes(), self.second.to_le_bytes(), self.next.to_le_bytes());
        [self.kind, self.spare, first[0], first[1], second[0], second[1], next[0], next[1]]
    }

    pub fn from_bytes(bytes: &[u8]) -> Record {
        let pair = |at: usize| u16::from_le_bytes([bytes[at], bytes[at + 1]]);
        Record { kind: bytes[0], spare: bytes[1], first: pair(2), second: pair(4), next: pair(6) }
    }
}

/// "Kind 1 split: lots a and b."
pub fn split(a: usize, b: usize, next: usize) -> Record {
    record(SPLIT, a, b, next)
}

/// "Kind 2 ground: the condition, then 0."
pub fn ground(condition: usize) -> Record {
    record(GROUND, condition, 0, 0)
}

/// "Kind 3 met: 0, 0."
pub fn met() -> Record {
    record(MET, 0, 0, 0)
}

/// Document 02: "the node is a crowd: kind 4, other fields 0"
pub fn clique() -> Record {
    record(CLIQUE, 0, 0, 0)
}

fn record(kind: u8, first: usize, second: usize, next: usize) -> Record {
    let two_bytes = |number: usize| u16::try_from(number).expect("a number of two bytes");
    Record { kind, spare: 0, first: two_bytes(first), second: two_bytes(second), next: two_bytes(next) }
}

/// The bytes of a list of records, one after the other.
pub fn list_bytes(records: &[Record]) -> Vec<u8> {
    records.iter().flat_map(|record| record.to_bytes()).collect()
}
