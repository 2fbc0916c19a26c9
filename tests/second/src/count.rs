//! The count of the conditions that a grouping doesn't meet: document 02's job 8.
use crate::answer::{Answer, Refusal};
use crate::evaluator::{is_met, long_enough};
use crate::reader::accept;
use crate::sheet::Term;

/// "the count of unmet conditions": "A counting service, with the judge's inputs and checks, gives the first one."
pub fn count_unmet(bytes: &[u8], grouping: &[u8]) -> Result<Answer, Refusal> {
    let sheet = accept(bytes)?;
    long_enough(&sheet, grouping)?;
    Ok(Answer::Unmet { count: unmet(&sheet.conditions, grouping) })
}

/// How many of these conditions the grouping doesn't meet.
pub fn unmet(conditions: &[Vec<Term>], grouping: &[u8]) -> usize {
    conditions.iter().filter(|condition| !is_met(condition, grouping)).count()
}
