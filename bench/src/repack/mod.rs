//! The repackers that are compared.
pub mod plain;
mod tuned;

use lihumbay::raw::Numbers;

pub type Repack = fn(&[u8], &mut [u8]) -> Numbers;

/// The tuned repacker behind the tuned reader: like the product it refuses what isn't a sheet.
fn tuned_checked(sheet: &[u8], out: &mut [u8]) -> Numbers {
    let reading = crate::read::tuned::read(sheet);
    if reading.check != 0 { reading } else { tuned::repack(sheet, out) }
}

/// The repackers by name; the first is the product's.
pub const ALL: [(&str, Repack); 4] =
    [("product", lihumbay::raw::repack), ("plain", plain::repack), ("tuned", tuned::repack), ("tuned, checked", tuned_checked)];

/// Those that check the sheet; the others are for sheets that a reader accepts.
pub const CHECKED: [(&str, Repack); 2] = [ALL[0], ALL[3]];
