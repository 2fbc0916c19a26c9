//! The limits and lengths of documents 01 and 02, each in one place.

/// The most lots of a sheet, [`ZERO_LOT`] not counted.
pub const MOST_LOTS: usize = 128;
/// Lot 0, which every sheet has beside those that it counts. Its number is 0 in every assignment, and a grouping has no byte for it.
pub const ZERO_LOT: u16 = 0;
/// The lowest lot that a term or a split may name.
pub const LOWEST_LOT: u16 = ZERO_LOT;
/// The most conditions of a sheet.
pub const MOST_CONDITIONS: usize = 256;
/// The most terms of a sheet, over all conditions, and the most term records, vacant ones included.
pub const MOST_TERMS: usize = 1024;
/// The most records that a store or a list can have.
pub const MOST_RECORDS: usize = 65_535;
/// The largest limit on the number of classes: there are no more, lot 0's and one for each other lot. The smallest limit is 1.
pub const MOST_LIMIT: u32 = MOST_LOTS as u32 + 1;

/// The bytes of a record in a store or a list.
pub const RECORD_LENGTH: usize = 8;
/// The bytes of a sheet's three counts.
pub const HEADER_LENGTH: usize = 6;
/// The bytes of a condition's head.
pub const HEAD_LENGTH: usize = 2;
/// The bytes of a term's record.
pub const TERM_LENGTH: usize = 8;
/// The bytes of the longest sheet.
pub const MOST_SHEET_LENGTH: usize = sheet_length(MOST_CONDITIONS, MOST_TERMS);

/// The stack that a thread needs to call [`search_into`](crate::search_into): a search takes up to 0.9 MB, the rest is the thread's own.
pub const SEARCH_STACK: usize = 1 << 20;
/// The stack that a thread needs to call [`search_limited_into`](crate::search_limited_into): a limited search takes up to 6.8 MB, the rest is the thread's
/// own.
pub const LIMITED_SEARCH_STACK: usize = 8 << 20;

/// The length of a sheet with so many conditions and terms.
pub const fn sheet_length(conditions: usize, terms: usize) -> usize {
    HEADER_LENGTH + HEAD_LENGTH * conditions + TERM_LENGTH * terms
}

// A sheet's counts, heads and nexts have two bytes each.
const _: () = {
    assert!(MOST_LOTS < 1 << 16);
    assert!(MOST_CONDITIONS < 1 << 16);
    assert!(MOST_TERMS < 1 << 16);
};
