//! What two sheets hold together, and document 02's sentence on withdrawn conditions in a merge: where the answer is another than by the rule of request 4, by
//! which any condition may be left out as a repeat, and which it is there. All that it speaks of is counted in the two sheets, and taken from no merge.
use crate::merged::{compare_merge, merged};
use second::limits::{HEAD_LENGTH, HEADER_LENGTH, MOST_CONDITIONS, MOST_TERMS, TERM_LENGTH};
use second::merge::{merge_numbers, merge_where};
use second::reader::accept;
use second::sheet::{Sign, Term, is_withdrawn};
use std::collections::BTreeSet;

/// What two accepted sheets hold together.
#[derive(Clone, Copy, Debug)]
pub struct Together {
    /// The withdrawn conditions of the first sheet, and of the second.
    pub withdrawn: [usize; 2],
    /// The conditions with terms, each counted once however often it comes, and the terms of these.
    different: usize,
    terms: usize,
}

impl Together {
    /// None where a sheet is refused.
    pub fn of(first: &[u8], second: &[u8]) -> Option<Together> {
        let sheets = [accept(first).ok()?, accept(second).ok()?];
        let withdrawn = |conditions: &[Vec<Term>]| conditions.iter().filter(|condition| is_withdrawn(condition)).count();
        let fields = |term: &Term| (term.sign == Sign::Same, term.a, term.b);
        let with_terms = sheets.iter().flat_map(|sheet| &sheet.conditions).filter(|condition| !is_withdrawn(condition));
        let different: BTreeSet<Vec<_>> = with_terms.map(|condition| condition.iter().map(fields).collect()).collect();
        Some(Together {
            withdrawn: [0, 1].map(|sheet: usize| withdrawn(&sheets[sheet].conditions)),
            different: different.len(),
            terms: different.iter().map(Vec::len).sum(),
        })
    }

    pub fn all_withdrawn(&self) -> usize {
        self.withdrawn.iter().sum()
    }

    /// Where 18 refuses the two: each withdrawn condition stays.
    pub fn place_of_18(&self) -> Option<u32> {
        self.refused_at(self.all_withdrawn())
    }

    /// Where 18 refuses a merged sheet with so many withdrawn conditions: "merged m, then k, above its most (place 2 or 3)".
    fn refused_at(&self, withdrawn: usize) -> Option<u32> {
        match () {
            _ if self.different + withdrawn > MOST_CONDITIONS => Some(2),
            _ if self.terms > MOST_TERMS => Some(3),
            _ => None,
        }
    }

    /// "An answer changes exactly where two accepted sheets together hold two or more struck conditions and 18 did not already refuse them at the place it
    /// gives now". By request 4's rule one of the withdrawn conditions stays.
    pub fn answer_changes(&self) -> bool {
        let (one_stays, all_stay) = (self.refused_at(1), self.place_of_18());
        let already_refused = one_stays.is_some() && one_stays == all_stay;
        self.all_withdrawn() >= 2 && !already_refused
    }

    /// Where it changes, to what: "the ones that now pass 256 conditions are refused by 18, and the others by 19 where the output is now too short".
    pub fn changed_answer(&self, room: usize) -> [u32; 4] {
        let conditions = self.different + self.all_withdrawn();
        let length = HEADER_LENGTH + HEAD_LENGTH * conditions + TERM_LENGTH * self.terms;
        match () {
            _ if conditions > MOST_CONDITIONS => [18, 2, 0, 0],
            _ if room < length => [19, length as u32, 0, 0],
            _ => [0, length as u32, 0, 0],
        }
    }
}

/// The four numbers by the rule of request 4, and the archive's.
#[derive(Clone, Copy, Debug, PartialEq, Eq, PartialOrd, Ord)]
pub struct ByBothRules {
    pub request_4: [u32; 4],
    pub archive: [u32; 4],
}

/// The archive's merge is the second implementation's; numbers and bytes are other than by the rule of request 4 exactly where the sentence says, and the
/// numbers are there what it says. Else what differs.
pub fn compare_rules(first: &[u8], second: &[u8], before: &[u8]) -> Result<ByBothRules, String> {
    compare_merge(first, second, before)?;
    let archive = merged(first, second, before);
    let mut out = before.to_vec();
    let request_4 = merge_numbers(&merge_where(|_| true, first, second, &mut out));
    let answers = ByBothRules { request_4, archive: archive.answer };
    let changed = Together::of(first, second).filter(Together::answer_changes).map(|together| together.changed_answer(before.len()));
    match changed {
        None if request_4 != archive.answer || out != archive.out => Err(format!("the answer changes, but is not to: {answers:?}")),
        Some(_) if request_4 == archive.answer => Err(format!("the answer is to change, but does not: {answers:?}")),
        Some(expected) if archive.answer != expected => Err(format!("the answer is to be {expected:?}: {answers:?}")),
        _ => Ok(answers),
    }
}
