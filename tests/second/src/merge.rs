//! Two sheets merged into one, and checks 18 and 19: document 02's jobs 4 and 6.
use crate::answer::{Answer, Refusal, refuse};
use crate::limits::{MOST_CONDITIONS, MOST_TERMS};
use crate::reader::accept;
use crate::sheet::{Sheet, Term, is_withdrawn};
use crate::writer::sheet_bytes;

/// Why two sheets are not merged.
#[derive(Clone, Copy, Debug, PartialEq, Eq)]
pub struct MergeRefusal {
    pub refusal: Refusal,
    /// "a refusal from reading says which it was": 1 or 2. 0 where both sheets were accepted.
    pub sheet: usize,
}

/// Which conditions may be left out where they repeat an earlier one.
pub type MayLeaveOut = fn(&[Term]) -> bool;

/// Job 6: "only conditions with terms can be left out as repeats"
pub fn merge(first: &[u8], second: &[u8], out: &mut [u8]) -> Result<Answer, MergeRefusal> {
    merge_where(|condition| !is_withdrawn(condition), first, second, out)
}

/// The merge with any rule of what may be left out; in job 4's own every condition may. "The first sheet is checked before the second, and a refusal from
/// reading says which it was." 18 and 19: "both after the two readings".
pub fn merge_where(may_leave_out: MayLeaveOut, first: &[u8], second: &[u8], out: &mut [u8]) -> Result<Answer, MergeRefusal> {
    let first = accept(first).map_err(|refusal| MergeRefusal { refusal, sheet: 1 })?;
    let second = accept(second).map_err(|refusal| MergeRefusal { refusal, sheet: 2 })?;
    // "lots are the larger n"
    let lots = first.lots.max(second.lots);
    let conditions = merged_conditions(may_leave_out, &first, &second);
    write(lots, &conditions, out).map_err(|refusal| MergeRefusal { refusal, sheet: 0 })
}

/// The merged sheet into the output. Job 1: "Output past the packed length is untouched, by later sheet writers too; each answers the length it wrote."
fn write(lots: usize, conditions: &[Vec<Term>], out: &mut [u8]) -> Result<Answer, Refusal> {
    within_most(conditions)?;
    // "The result is packed."
    let canonical = sheet_bytes(lots, conditions);
    // "19, output too short (place the length needed)", "nothing written"
    let length = canonical.len();
    if out.len() < length {
        return refuse(19, length);
    }
    out[..length].copy_from_slice(&canonical);
    Ok(Answer::Written { length })
}

/// "the conditions of the first come in order, then those of the second; one with the same terms in the same order as an earlier one is left out". The earlier
/// one may be of either sheet. Two withdrawn conditions have the same terms, none, but job 6 says: "keeping a struck place comes first".
fn merged_conditions(may_leave_out: MayLeaveOut, first: &Sheet, second: &Sheet) -> Vec<Vec<Term>> {
    let mut merged: Vec<Vec<Term>> = Vec::new();
    for condition in first.conditions.iter().chain(&second.conditions) {
        if !(may_leave_out(condition) && merged.contains(condition)) {
            merged.push(condition.clone());
        }
    }
    merged
}

/// "18, merged m, then k, above its most (place 2 or 3)". Both are those of the packed result: it has no condition that is left out, and no vacant record.
fn within_most(conditions: &[Vec<Term>]) -> Result<(), Refusal> {
    if conditions.len() > MOST_CONDITIONS {
        return refuse(18, 2);
    }
    if conditions.iter().map(Vec::len).sum::<usize>() > MOST_TERMS {
        return refuse(18, 3);
    }
    Ok(())
}

/// The four numbers that the header describes: a refusal has its sheet in the third.
pub fn merge_numbers(answer: &Result<Answer, MergeRefusal>) -> [u32; 4] {
    let mut numbers = crate::answer::numbers(&answer.map_err(|refused| refused.refusal));
    if let Err(refused) = answer {
        numbers[2] = u32::try_from(refused.sheet).expect("there are two sheets");
    }
    numbers
}
