//! A plain repacker: it reads the chains into vectors of terms and writes these out, one after the other. It doesn't check the sheet.
use crate::records::{answered, refused};
use crate::terms::{self, Term};
use lihumbay::raw::Numbers;

fn put(out: &mut [u8], at: usize, value: usize) {
    out[at..at + 2].copy_from_slice(&(value as u16).to_le_bytes());
}

/// A record: sign, spare, the lots and the next.
fn put_record(out: &mut [u8], at: usize, term: &Term, next: usize) {
    put(out, at, if term.same { 1 } else { 2 });
    put(out, at + 2, usize::from(term.a));
    put(out, at + 4, usize::from(term.b));
    put(out, at + 6, next);
}

fn count(conditions: &[Vec<Term>]) -> usize {
    conditions.iter().map(Vec::len).sum()
}

/// The bytes of the packed sheet.
pub fn packed_length(conditions: &[Vec<Term>]) -> usize {
    6 + 2 * conditions.len() + 8 * count(conditions)
}

/// Writes the packed sheet to an output that is long enough.
pub fn write(lots: usize, conditions: &[Vec<Term>], out: &mut [u8]) {
    for (i, number) in [lots, conditions.len(), count(conditions)].into_iter().enumerate() {
        put(out, 2 * i, number);
    }
    let records = 6 + 2 * conditions.len();
    let mut written = 0;
    for (c, condition) in conditions.iter().enumerate() {
        put(out, 6 + 2 * c, if condition.is_empty() { 0 } else { written + 1 });
        for (i, term) in condition.iter().enumerate() {
            let last = i + 1 == condition.len();
            put_record(out, records + 8 * written, term, if last { 0 } else { written + 2 });
            written += 1;
        }
    }
}

pub fn repack(sheet: &[u8], out: &mut [u8]) -> Numbers {
    let (lots, conditions, _) = terms::header(sheet);
    let conditions: Vec<Vec<Term>> = (0..conditions).map(|c| terms::chain(sheet, c).collect()).collect();
    let length = packed_length(&conditions);
    if out.len() < length {
        return refused(16, length);
    }
    write(lots, &conditions, out);
    answered(length as u32, 0, 0)
}
