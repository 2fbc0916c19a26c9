//! The readers that are compared.
pub mod plain;
pub mod tuned;

use lihumbay::raw::Numbers;

pub type Read = fn(&[u8]) -> Numbers;

/// The readers by name; the first is the product's.
pub const ALL: [(&str, Read); 3] = [("product", lihumbay::raw::read), ("plain", plain::read), ("tuned", tuned::read)];
