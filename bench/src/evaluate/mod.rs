//! The evaluators that are compared.
pub mod plain;
pub mod tuned;

use crate::read::{self, Read};
use crate::records::refused;
use lihumbay::raw::Numbers;

pub type Evaluate = fn(&[u8], &[u8]) -> Numbers;

/// An evaluator, or a counter of unmet conditions, behind a reader and check 8: like the product it refuses what isn't a sheet, and a grouping without a byte
/// for each lot.
pub fn checked(read: Read, evaluate: Evaluate, sheet: &[u8], grouping: &[u8]) -> Numbers {
    let reading = read(sheet);
    if reading.check != 0 {
        return reading;
    }
    if grouping.len() < reading.first as usize {
        return refused(8, reading.first as usize);
    }
    evaluate(sheet, grouping)
}

fn plain_checked(sheet: &[u8], grouping: &[u8]) -> Numbers {
    checked(read::plain::read, plain::evaluate, sheet, grouping)
}

fn tuned_checked(sheet: &[u8], grouping: &[u8]) -> Numbers {
    checked(read::tuned::read, tuned::evaluate, sheet, grouping)
}

/// The evaluators by name; the first is the product's.
pub const ALL: [(&str, Evaluate); 5] = [
    ("product", lihumbay::raw::evaluate),
    ("plain", plain::evaluate),
    ("plain, checked", plain_checked),
    ("tuned", tuned::evaluate),
    ("tuned, checked", tuned_checked),
];

/// Those that check sheet and grouping; the others are for sheets that a reader accepts, and groupings with a byte for each lot.
pub const CHECKED: [(&str, Evaluate); 3] = [ALL[0], ALL[2], ALL[4]];
