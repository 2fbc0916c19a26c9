//! A plain merger: it reads the chains of both sheets into a vector of terms for each condition, looks for each condition that has terms among those that stand
//! already, one after the other, and writes these out. It doesn't check the sheets.
use crate::records::{answered, refused};
use crate::repack::plain::{packed_length, write};
use crate::terms::{self, Term};
use lihumbay::raw::Numbers;

pub fn merge(first: &[u8], second: &[u8], out: &mut [u8]) -> Numbers {
    let mut merged: Vec<Vec<Term>> = Vec::new();
    for sheet in [first, second] {
        let (_, conditions, _) = terms::header(sheet);
        for condition in (0..conditions).map(|c| terms::chain(sheet, c).collect::<Vec<Term>>()) {
            if condition.is_empty() || !merged.contains(&condition) {
                merged.push(condition);
            }
        }
    }
    if merged.len() > 256 {
        return refused(18, 2);
    }
    if merged.iter().map(Vec::len).sum::<usize>() > 1024 {
        return refused(18, 3);
    }
    let length = packed_length(&merged);
    if out.len() < length {
        return refused(19, length);
    }
    write(terms::header(first).0.max(terms::header(second).0), &merged, out);
    answered(length as u32, 0, 0)
}
