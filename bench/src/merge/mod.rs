//! The mergers that are compared.
mod plain;
mod tuned;

use crate::read::{self, Read};
use lihumbay::raw::Numbers;

pub type Merge = fn(&[u8], &[u8], &mut [u8]) -> Numbers;

/// What a merger answers where a reader refuses one of the sheets: the refusal of the first that is refused, and which one that is.
pub fn refusal(read: Read, sheets: [&[u8]; 2]) -> Option<Numbers> {
    let readings = sheets.into_iter().map(read).zip(1..);
    readings.map(|(reading, sheet)| Numbers { second: sheet, ..reading }).find(|reading| reading.check != 0)
}

/// A merger behind a reader: like the product it refuses what isn't a sheet.
fn plain_checked(first: &[u8], second: &[u8], out: &mut [u8]) -> Numbers {
    refusal(read::plain::read, [first, second]).unwrap_or_else(|| plain::merge(first, second, out))
}

fn tuned_checked(first: &[u8], second: &[u8], out: &mut [u8]) -> Numbers {
    refusal(read::tuned::read, [first, second]).unwrap_or_else(|| tuned::merge(first, second, out))
}

/// The mergers by name; the first is the product's.
pub const ALL: [(&str, Merge); 5] = [
    ("product", lihumbay::raw::merge),
    ("plain", plain::merge),
    ("plain, checked", plain_checked),
    ("tuned", tuned::merge),
    ("tuned, checked", tuned_checked),
];

/// Those that check the sheets; the others are for sheets that a reader accepts.
pub const CHECKED: [(&str, Merge); 3] = [ALL[0], ALL[2], ALL[4]];
