//! A tuned counter of unmet conditions: the tuned evaluator's walk along each chain, which ends at the first true term. It doesn't check the sheet.
use crate::evaluate::tuned::{is_unmet, number_lots};
use crate::records::answered;
use crate::terms;
use lihumbay::raw::Numbers;

pub fn count_unmet(sheet: &[u8], grouping: &[u8]) -> Numbers {
    let mut numbers = [0; 256];
    number_lots(&mut numbers, grouping);
    let (heads, records) = terms::heads_and_records(sheet);
    answered(heads.iter().filter(|head| is_unmet(records, &numbers, head)).count() as u32, 0, 0)
}
