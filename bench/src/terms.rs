//! The terms of a sheet's bytes, without checks: for sheets that a reader accepts.

pub fn number(bytes: &[u8], at: usize) -> usize {
    usize::from(u16::from_le_bytes([bytes[at], bytes[at + 1]]))
}

/// The counts of the header: lots, conditions, terms.
pub fn header(sheet: &[u8]) -> (usize, usize, usize) {
    (number(sheet, 0), number(sheet, 2), number(sheet, 4))
}

/// The heads of a sheet, and its term records.
pub fn heads_and_records(sheet: &[u8]) -> (&[[u8; 2]], &[[u8; 8]]) {
    let (front, records) = sheet.split_at(6 + 2 * number(sheet, 2));
    (front[6..].as_chunks().0, records.as_chunks().0)
}

/// Lots 0 to 128: an array by lot has so many entries.
pub const LOTS: usize = 129;

/// A term over lots by their numbers, of which 0 is one.
#[derive(Clone, Copy, PartialEq, Eq)]
pub struct Term {
    pub same: bool,
    pub a: u8,
    pub b: u8,
}

/// The chain of a condition, which counts from 0, walked from its head.
pub fn chain(sheet: &[u8], condition: usize) -> impl Iterator<Item = Term> {
    let records = 6 + 2 * number(sheet, 2);
    let mut at = number(sheet, 6 + 2 * condition);
    std::iter::from_fn(move || {
        let record: &[u8; 8] = sheet[records..].as_chunks().0.get(at.checked_sub(1)?)?;
        at = number(record, 6);
        Some(Term { same: record[0] == 1, a: record[2], b: record[4] })
    })
}
