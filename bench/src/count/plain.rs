//! A plain counter of unmet conditions: it gives every term of every condition its truth. It doesn't check the sheet.
use crate::evaluate::plain::is_met;
use crate::records::answered;
use crate::terms;
use lihumbay::raw::Numbers;

pub fn count_unmet(sheet: &[u8], grouping: &[u8]) -> Numbers {
    let (_, conditions, _) = terms::header(sheet);
    let unmet = (0..conditions).filter(|&c| !is_met(sheet, grouping, c)).count();
    answered(unmet as u32, 0, 0)
}
