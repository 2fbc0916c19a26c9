//! The counters of unmet conditions that are compared.
mod plain;
pub mod tuned;

use crate::evaluate::{Evaluate, checked};
use crate::read;
use lihumbay::raw::Numbers;

fn plain_checked(sheet: &[u8], grouping: &[u8]) -> Numbers {
    checked(read::plain::read, plain::count_unmet, sheet, grouping)
}

fn tuned_checked(sheet: &[u8], grouping: &[u8]) -> Numbers {
    checked(read::tuned::read, tuned::count_unmet, sheet, grouping)
}

/// The counters by name; the first is the product's.
pub const ALL: [(&str, Evaluate); 5] = [
    ("product", lihumbay::raw::count_unmet),
    ("plain", plain::count_unmet),
    ("plain, checked", plain_checked),
    ("tuned", tuned::count_unmet),
    ("tuned, checked", tuned_checked),
];

/// Those that check sheet and grouping; the others are for sheets that a reader accepts, and groupings with a byte for each lot.
pub const CHECKED: [(&str, Evaluate); 3] = [ALL[0], ALL[2], ALL[4]];
