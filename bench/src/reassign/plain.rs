//! A plain reassigner: it looks for the lot in each condition, and gives the conditions that name it their value by the plain evaluator, before and with the
//! new number. It checks lot and running count, and not the sheet.
use super::{Reassignment, cannot_be, is_no_lot};
use crate::evaluate::plain::is_met;
use crate::records::{answered, refused};
use crate::terms;
use lihumbay::raw::Numbers;

fn names(sheet: &[u8], condition: usize, lot: u8) -> bool {
    terms::chain(sheet, condition).any(|term| term.a == lot || term.b == lot)
}

pub fn reassign(sheet: &[u8], grouping: &mut [u8], Reassignment { count, lot, value }: Reassignment) -> Numbers {
    let (lots, conditions, _) = terms::header(sheet);
    if is_no_lot(lots, lot) {
        return refused(21, lot as usize);
    }
    let at = lot as usize - 1;
    let mut new = [0; 128];
    new[..lots].copy_from_slice(&grouping[..lots]);
    new[at] = value;
    let (mut before, mut after) = (0, 0);
    for condition in (0..conditions).filter(|&c| names(sheet, c, lot as u8)) {
        before += u32::from(!is_met(sheet, grouping, condition));
        after += u32::from(!is_met(sheet, &new, condition));
    }
    if cannot_be(conditions, before, count) {
        return refused(22, count as usize);
    }
    grouping[at] = value;
    answered(count - before + after, 0, 0)
}
