//! The searches that are compared.
mod layout;
mod node_marks;
pub mod plain;
pub mod tuned;
pub mod tuned_limited;

use crate::classes::Classes;
use crate::records::{answered, refused};
use crate::terms;
use lihumbay::raw::Numbers;

/// How a search ended.
#[derive(Clone, Copy, PartialEq, Eq)]
pub enum End {
    Met,
    Cannot,
    Full,
}

/// The answer of a search that wrote `count` records; a full store is zeroed.
pub fn answer(end: End, records: &mut [[u8; 8]], count: usize) -> Numbers {
    match end {
        End::Met => answered(1, count as u32, 0),
        End::Cannot => answered(2, count as u32, 0),
        End::Full => {
            records.fill([0; 8]);
            refused(9, records.len())
        }
    }
}

/// The smallest lot of each lot's class.
fn write_grouping(sheet: &[u8], grouping: &mut [u8], classes: &Classes) {
    let (lots, _, _) = terms::header(sheet);
    for (lot, byte) in (1..).zip(&mut grouping[..lots]) {
        *byte = classes.smallest(lot);
    }
}

pub type Search = fn(&[u8], &mut [u8], &mut [u8]) -> Numbers;

/// A search that is given a limit behind the sheet.
pub type Limited = fn(&[u8], u32, &mut [u8], &mut [u8]) -> Numbers;

/// The tuned search behind the tuned reader: like the product it refuses what isn't a sheet.
fn tuned_checked(sheet: &[u8], grouping: &mut [u8], store: &mut [u8]) -> Numbers {
    let reading = crate::read::tuned::read(sheet);
    if reading.check != 0 {
        return reading;
    }
    if grouping.len() < reading.first as usize {
        return refused(8, reading.first as usize);
    }
    tuned::search(sheet, grouping, store)
}

/// The tuned search under a limit behind the tuned reader and check 20.
fn tuned_limited_checked(sheet: &[u8], limit: u32, grouping: &mut [u8], store: &mut [u8]) -> Numbers {
    let reading = crate::read::tuned::read(sheet);
    if reading.check != 0 {
        return reading;
    }
    if !(1..=129).contains(&limit) {
        return refused(20, limit as usize);
    }
    if grouping.len() < reading.first as usize {
        return refused(8, reading.first as usize);
    }
    tuned_limited::search(sheet, limit, grouping, store)
}

/// The searches by name; the first is the product's.
pub const ALL: [(&str, Search); 5] = [
    ("product", lihumbay::raw::search),
    ("plain", plain::search),
    ("plain, undone", plain::search_undone),
    ("tuned", tuned::search),
    ("tuned, checked", tuned_checked),
];

/// The searches under a limit.
pub const LIMITED: [(&str, Limited); 5] = [
    ("product", lihumbay::raw::search_limited),
    ("plain", plain::search_limited),
    ("plain, undone", plain::search_limited_undone),
    ("tuned", tuned_limited::search),
    ("tuned, checked", tuned_limited_checked),
];
