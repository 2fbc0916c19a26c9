//! The reassigners that are compared: a lot of a grouping gets another number, and the running count of unmet conditions goes along.
mod plain;
mod tuned;

use crate::read::{self, Read};
use crate::records::refused;
use lihumbay::raw::Numbers;

/// What a sheet and a grouping are given beside: the running count, the lot, and its new number.
#[derive(Clone, Copy, Debug)]
pub struct Reassignment {
    pub count: u32,
    pub lot: u32,
    pub value: u8,
}

impl Reassignment {
    /// For services that don't reassign.
    pub const NONE: Reassignment = Reassignment { count: 0, lot: 0, value: 0 };
}

pub type Reassign = fn(&[u8], &mut [u8], Reassignment) -> Numbers;

fn product(sheet: &[u8], grouping: &mut [u8], by: Reassignment) -> Numbers {
    lihumbay::raw::reassign(sheet, grouping, by.count, by.lot, by.value)
}

/// The byte is written, and the product counts over all conditions. There is no running count.
fn counting_anew(sheet: &[u8], grouping: &mut [u8], by: Reassignment) -> Numbers {
    grouping[by.lot as usize - 1] = by.value;
    lihumbay::raw::count_unmet(sheet, grouping)
}

/// Check 21: the lot is 0 or none of the sheet's.
fn is_no_lot(lots: usize, lot: u32) -> bool {
    lot == 0 || lot as usize > lots
}

/// Check 22: the running count is above the number of conditions, or below those unmet before.
fn cannot_be(conditions: usize, unmet_before: u32, count: u32) -> bool {
    count as usize > conditions || count < unmet_before
}

/// A reassigner behind a reader and check 8.
fn checked(read: Read, reassign: Reassign, sheet: &[u8], grouping: &mut [u8], by: Reassignment) -> Numbers {
    let reading = read(sheet);
    if reading.check != 0 {
        return reading;
    }
    if grouping.len() < reading.first as usize {
        return refused(8, reading.first as usize);
    }
    reassign(sheet, grouping, by)
}

fn plain_checked(sheet: &[u8], grouping: &mut [u8], by: Reassignment) -> Numbers {
    checked(read::plain::read, plain::reassign, sheet, grouping, by)
}

fn tuned_checked(sheet: &[u8], grouping: &mut [u8], by: Reassignment) -> Numbers {
    checked(read::tuned::read, tuned::reassign, sheet, grouping, by)
}

/// The reassigners by name; the first is the product's.
pub const ALL: [(&str, Reassign); 6] = [
    ("product", product),
    ("counting anew", counting_anew),
    ("plain", plain::reassign),
    ("plain, checked", plain_checked),
    ("tuned", tuned::reassign),
    ("tuned, checked", tuned_checked),
];

/// Those that have checks 21 and 22: counting anew is for a lot of the sheet and for a running count that is right.
pub const WITH_COUNT: [(&str, Reassign); 5] = [ALL[0], ALL[2], ALL[3], ALL[4], ALL[5]];

/// Those that check sheet and grouping too; the others are for sheets that a reader accepts, and groupings with a byte for each lot.
pub const CHECKED: [(&str, Reassign); 3] = [ALL[0], ALL[3], ALL[5]];
