//! A plain evaluator: it gives every term of a condition its truth, also behind a true one, and goes on to the first condition that isn't met. It doesn't check
//! the sheet.
use crate::records::answered;
use crate::terms::{self, Term};
use lihumbay::raw::Numbers;

/// A lot's number. Lot 0 has no byte, whatever the grouping, and the number 0; its place is found missing as any would be that is past the end, by one test.
fn number(grouping: &[u8], lot: u8) -> u8 {
    grouping.get(usize::from(lot).wrapping_sub(1)).copied().unwrap_or(0)
}

fn is_true(grouping: &[u8], term: Term) -> bool {
    let together = number(grouping, term.a) == number(grouping, term.b);
    together == term.same
}

/// Whether some term is true, or there is none. No term ends the walk. A call for each condition would cost a third of the walk where conditions are short.
#[inline(always)]
pub fn is_met(sheet: &[u8], grouping: &[u8], condition: usize) -> bool {
    let truths = terms::chain(sheet, condition).map(|term| is_true(grouping, term));
    truths.reduce(|some, truth| some | truth).unwrap_or(true)
}

pub fn evaluate(sheet: &[u8], grouping: &[u8]) -> Numbers {
    let (_, conditions, _) = terms::header(sheet);
    let unmet = (0..conditions).find(|&c| !is_met(sheet, grouping, c));
    answered(unmet.map_or(0, |c| c as u32 + 1), 0, 0)
}
