//! The reassignment of one lot, and checks 21 and 22: document 02's job 8.
use crate::answer::{Answer, Refusal, refuse};
use crate::count::unmet;
use crate::evaluator::long_enough;
use crate::limits::ZERO_LOT;
use crate::reader::accept;
use crate::sheet::{Lot, Sheet, Term};

/// "A move takes the sheet, the grouping, the kept count, a lot and its new byte, and weighs only the conditions naming that lot: the new count is the kept
/// one, less those unmet before, plus those unmet after. It writes that one byte." 21 and 22: "both after 8, nothing written". Both numbers are compared in all
/// their 32 bits, as they were given.
pub fn reassign(bytes: &[u8], grouping: &mut [u8], count: u32, lot: u32, value: u8) -> Result<Answer, Refusal> {
    let sheet = accept(bytes)?;
    long_enough(&sheet, grouping)?;
    let (count, lot) = (count as usize, lot as usize);
    has_a_byte(&sheet, lot)?;
    let naming = naming(&sheet, lot);
    let before = unmet(&naming, grouping);
    can_be_the_count(&sheet, before, count)?;
    grouping[lot - 1] = value;
    let after = unmet(&naming, grouping);
    Ok(Answer::Unmet { count: count - before + after })
}

/// 21: "lot 0 or above n, place the lot".
fn has_a_byte(sheet: &Sheet, lot: Lot) -> Result<(), Refusal> {
    if lot == ZERO_LOT || lot > sheet.lots {
        return refuse(21, lot);
    }
    Ok(())
}

/// 22: "kept count above m or below the unmet ones named, place the kept count". The ones named are those that are unmet before.
fn can_be_the_count(sheet: &Sheet, before: usize, count: usize) -> Result<(), Refusal> {
    if count > sheet.conditions.len() || count < before {
        return refuse(22, count);
    }
    Ok(())
}

/// "the conditions naming that lot": each once, however many of its terms have the lot, in either field or in both. A withdrawn condition names none.
pub fn naming(sheet: &Sheet, lot: Lot) -> Vec<Vec<Term>> {
    let names = |condition: &&Vec<Term>| condition.iter().any(|term| term.a == lot || term.b == lot);
    sheet.conditions.iter().filter(names).cloned().collect()
}
