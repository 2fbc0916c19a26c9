//! The evaluator of groupings, and check 8.
use crate::answer::{Answer, Refusal, refuse};
use crate::limits::ZERO_LOT;
use crate::reader::accept;
use crate::sheet::{Lot, Sheet, Sign, Term, is_withdrawn};

/// "It answers 0 if all conditions are met, else the lowest condition that isn't."
pub fn evaluate(bytes: &[u8], grouping: &[u8]) -> Result<Answer, Refusal> {
    let sheet = accept(bytes)?;
    long_enough(&sheet, grouping)?;
    for (i, condition) in sheet.conditions.iter().enumerate() {
        if !is_met(condition, grouping) {
            return Ok(Answer::NotMet { condition: i + 1 });
        }
    }
    Ok(Answer::AllMet)
}

/// 8: grouping "shorter than n", place n. Document 02: "The grouping still has n bytes, for lots 1 to n."
pub fn long_enough(sheet: &Sheet, grouping: &[u8]) -> Result<(), Refusal> {
    if grouping.len() < sheet.lots {
        return refuse(8, sheet.lots);
    }
    Ok(())
}

/// "A condition is met when some term is true". Document 02, of a withdrawn condition: "every numbering meets it".
pub fn is_met(condition: &[Term], grouping: &[u8]) -> bool {
    is_withdrawn(condition) || condition.iter().any(|term| is_true(term, grouping))
}

/// ""same a b" is true when the two numbers are equal, "apart a b" when they differ"
fn is_true(term: &Term, grouping: &[u8]) -> bool {
    let (a, b) = (number(term.a, grouping), number(term.b, grouping));
    match term.sign {
        Sign::Same => a == b,
        Sign::Apart => a != b,
    }
}

/// "lot i having byte i − 1 as its number". Document 02, of lot 0: "its number is 0 in every numbering and in the judge".
fn number(lot: Lot, grouping: &[u8]) -> u8 {
    match lot {
        ZERO_LOT => 0,
        _ => grouping[lot - 1],
    }
}
