//! Document 02's job 6: withdrawn conditions in a merge, each by hand, and beside it the rule of job 4, by which any condition may be left out as a repeat.
mod merging;

use merging::{C, C_WITHDRAWN, FILL, different, merged, merges_to, refused};
use second::merge;
use second::merge::{merge_numbers, merge_where};
use second::sheet::Term;
use second::writer::{apart, same, sheet_bytes, sheet_bytes_among};
use std::slice::from_ref;

const P: &[Term] = &[same(1, 2)];
const Q: &[Term] = &[apart(1, 2)];
const R: &[Term] = &[same(1, 2), apart(1, 2)];
const NONE: &[Term] = &[];

#[test]
fn withdrawn_conditions_stay() {
    // One alone keeps its place, whichever sheet has it.
    merges_to(2, &[P, NONE, Q], &[], &[P, NONE, Q]);
    merges_to(2, &[P], &[NONE, Q], &[P, NONE, Q]);
    // So does a later one: across the sheets and within either.
    merges_to(2, &[NONE, P], &[NONE, Q], &[NONE, P, NONE, Q]);
    merges_to(2, &[NONE, P, NONE, Q], &[], &[NONE, P, NONE, Q]);
    merges_to(2, &[], &[NONE, P, NONE, Q], &[NONE, P, NONE, Q]);
    merges_to(2, &[P], &[NONE, NONE, Q], &[P, NONE, NONE, Q]);
    merges_to(2, &[NONE, NONE], &[NONE], &[NONE, NONE, NONE]);
}

#[test]
fn conditions_with_terms_are_left_out_beside_them() {
    merges_to(2, &[P, NONE, P, Q], &[NONE, Q, NONE, P, R, NONE], &[P, NONE, Q, NONE, NONE, R, NONE]);
    merges_to(2, &[NONE, P, P], &[P, NONE, P], &[NONE, P, NONE]);
    // The second sheet has nothing else but repeats, behind a withdrawn condition or before it.
    merges_to(2, &[P, Q], &[NONE, P, Q], &[P, Q, NONE]);
    merges_to(2, &[P, Q], &[P, Q, NONE], &[P, Q, NONE]);
    // The beginning of a condition is no repeat of it.
    merges_to(2, &[R, NONE], &[P, NONE], &[R, NONE, P, NONE]);
}

/// Two withdrawn conditions at every two places of the first sheet and one at every place of the second: the beginning, the middle and the end.
#[test]
fn withdrawn_conditions_stay_at_every_place() {
    let with = |conditions: &[&'static [Term]], at: usize| [&conditions[..at], &[NONE], &conditions[at..]].concat();
    for (one, other, at) in (0..=2).flat_map(|one| (0..=3).flat_map(move |other| (0..=3).map(move |at| (one, other, at)))) {
        let (first, second) = (with(&with(&[P, Q], one), other), with(&[Q, R, P], at));
        // Of the second sheet P and Q are repeats.
        let left = second.iter().copied().filter(|&condition| condition == NONE || condition == R);
        merges_to(2, &first, &second, &first.iter().copied().chain(left).collect::<Vec<_>>());
    }
}

#[test]
fn withdrawn_conditions_are_counted() {
    // 253 conditions with terms and two withdrawn ones; the second sheet has a withdrawn one, a repeat and more conditions.
    let (all, none) = (different(256), [vec![]]);
    let first = [&none, &all[..253], &none].concat();
    let second = |last: usize| [&none, &all[7..8], &all[253..last]].concat();
    let expected = [first.as_slice(), &none].concat();
    assert_eq!(merged(&sheet_bytes(128, &first), &sheet_bytes(128, &second(253))), sheet_bytes(128, &expected));
    refused(&sheet_bytes(128, &first), &sheet_bytes(128, &second(254)), 5000, 18, 2, 0);
    refused(&sheet_bytes(128, &second(254)), &sheet_bytes(128, &first), 5000, 18, 2, 0);
    // No other conditions at all: 256 withdrawn ones in one sheet or in both, and one more.
    let withdrawn = |count: usize| vec![&[][..]; count];
    for count in [0, 1, 128, 255, 256] {
        merges_to(0, &withdrawn(count), &withdrawn(256 - count), &withdrawn(256));
    }
    for count in [1, 2, 128, 255, 256] {
        let [first, second] = [count, 257 - count].map(|count| sheet_bytes(0, &vec![vec![]; count]));
        [0, 518, 520, 5000].iter().for_each(|&room| refused(&first, &second, room, 18, 2, 0));
    }
}

#[test]
fn merged_m_is_looked_at_before_k() {
    // 1,024 terms in one condition, one in another: k is 1,025. With 254 withdrawn conditions m is 256, with 255 it is 257.
    let long = sheet_bytes(3, &[vec![same(1, 2); 1024]]);
    let short = |withdrawn: usize| sheet_bytes(3, &[vec![vec![]; withdrawn], vec![vec![same(1, 3)]]].concat());
    for room in [0, 8718, 20_000] {
        refused(&long, &short(0), room, 18, 3, 0);
        refused(&long, &short(254), room, 18, 3, 0);
        refused(&short(254), &long, room, 18, 3, 0);
        refused(&long, &short(255), room, 18, 2, 0);
        refused(&short(255), &long, room, 18, 2, 0);
    }
}

#[test]
fn vacant_records_of_withdrawn_conditions_are_dropped() {
    let expected = [3, 0, 2, 0, 1, 0, 0, 0, 1, 0, 2, 0, 1, 0, 2, 0, 0, 0];
    assert_eq!(merged(&C_WITHDRAWN, &[0; 6]), expected);
    assert_eq!(merged(&[0; 6], &C_WITHDRAWN), expected);
    // C's condition 2 is a repeat; a condition with terms and a withdrawn one are none of each other.
    let c = [vec![same(1, 2), same(1, 3)], vec![apart(1, 2)]];
    assert_eq!(merged(&C, &C_WITHDRAWN), sheet_bytes(3, &[c[0].clone(), c[1].clone(), vec![]]));
    assert_eq!(merged(&C_WITHDRAWN, &C), sheet_bytes(3, &[vec![], c[1].clone(), c[0].clone()]));
}

#[test]
fn a_sheet_merged_with_itself_has_its_withdrawn_conditions_once_more() {
    let expected = [3, 0, 3, 0, 1, 0, 0, 0, 1, 0, 0, 0, 2, 0, 1, 0, 2, 0, 0, 0];
    assert_eq!(merged(&C_WITHDRAWN, &C_WITHDRAWN), expected);
    // The length needed counts both heads.
    (0..20).for_each(|room| refused(&C_WITHDRAWN, &C_WITHDRAWN, room, 19, 20, 0));
    merges_to(2, &[NONE, P, NONE, Q, P], &[NONE, P, NONE, Q, P], &[NONE, P, NONE, Q, NONE, NONE]);
    // With the empty sheet only a repeat with terms goes.
    merges_to(2, &[NONE, P, NONE, Q, P], &[], &[NONE, P, NONE, Q]);
    merges_to(2, &[], &[NONE, P, NONE, Q, P], &[NONE, P, NONE, Q]);
}

/// Any condition may be left out: of all that are withdrawn the earliest stays.
#[test]
fn by_the_rule_of_job_4_withdrawn_conditions_repeat_each_other() {
    let sheet = |conditions: &[&[Term]]| sheet_bytes(2, &conditions.iter().map(|terms| terms.to_vec()).collect::<Vec<_>>());
    let merges_to = |first: &[&[Term]], second: &[&[Term]], expected: &[&[Term]]| {
        let expected = sheet(expected);
        let mut out = vec![FILL; expected.len()];
        assert_eq!(merge_numbers(&merge_where(|_| true, &sheet(first), &sheet(second), &mut out)), [0, expected.len() as u32, 0, 0]);
        assert_eq!(out, expected);
    };
    merges_to(&[P, NONE, Q], &[], &[P, NONE, Q]);
    merges_to(&[NONE, P], &[NONE, Q], &[NONE, P, Q]);
    merges_to(&[NONE, P, NONE, Q], &[], &[NONE, P, Q]);
    merges_to(&[P], &[NONE, NONE, Q], &[P, NONE, Q]);
    merges_to(&[NONE, NONE], &[NONE], &[NONE]);
}

/// The four numbers by the rule of job 4, "one with the same terms in the same order as an earlier one is left out", and by that of job 6. Where the numbers
/// are the same, so is every byte of the output.
fn answered(first: &[Vec<Term>], second: &[Vec<Term>], room: usize, by_job_4: [u32; 4], by_job_6: [u32; 4]) {
    let (first, second) = (sheet_bytes(128, first), sheet_bytes(128, second));
    let (mut out_4, mut out_6) = (vec![FILL; room], vec![FILL; room]);
    assert_eq!(merge_numbers(&merge_where(|_| true, &first, &second, &mut out_4)), by_job_4);
    assert_eq!(merge_numbers(&merge(&first, &second, &mut out_6)), by_job_6);
    assert!(by_job_4 != by_job_6 || out_4 == out_6);
}

/// "An answer changes exactly where two accepted sheets together hold two or more struck conditions and 18 did not already refuse them at the place it gives
/// now".
#[test]
fn where_an_answer_changes() {
    let (all, none) = (different(257), [vec![]]);
    // Fewer than two withdrawn conditions: 6 + 2 * 2 + 8 * 2 bytes, and 2 more for the withdrawn one.
    answered(&all[..2], &all[1..2], 100, [0, 26, 0, 0], [0, 26, 0, 0]);
    answered(&[&none, &all[..2]].concat(), &all[1..2], 28, [0, 28, 0, 0], [0, 28, 0, 0]);
    answered(&all[..2], &[&all[..2], &none].concat(), 27, [19, 28, 0, 0], [19, 28, 0, 0]);
    // Two, in one sheet or one in each: written, too short for one more head, too short for either.
    for (first, second) in [(none.to_vec(), [&all[..2], &none].concat()), ([&none, &all[..2], &none].concat(), vec![])] {
        answered(&first, &second, 30, [0, 28, 0, 0], [0, 30, 0, 0]);
        answered(&first, &second, 29, [0, 28, 0, 0], [19, 30, 0, 0]);
        answered(&first, &second, 28, [0, 28, 0, 0], [19, 30, 0, 0]);
        answered(&first, &second, 27, [19, 28, 0, 0], [19, 30, 0, 0]);
    }
    // 255 conditions with terms and two withdrawn ones, 256 by the one rule and 257 by the other; with 256 and two they are too many by both.
    let length = 6 + 2 * 256 + 8 * 255;
    answered(&all[..255], &[vec![], vec![]], length, [0, length as u32, 0, 0], [18, 2, 0, 0]);
    answered(&all[..255], &[vec![], vec![]], 0, [19, length as u32, 0, 0], [18, 2, 0, 0]);
    answered(&all[..256], &[vec![], vec![]], length, [18, 2, 0, 0], [18, 2, 0, 0]);
}

/// As before, where k is above its most.
#[test]
fn where_an_answer_changes_beside_too_many_terms() {
    let (long, short) = (vec![same(1, 2); 1024], vec![same(1, 3)]);
    let second = |withdrawn: usize| [vec![vec![]; withdrawn], vec![short.clone()]].concat();
    for withdrawn in [2, 100, 254] {
        answered(from_ref(&long), &second(withdrawn), 20_000, [18, 3, 0, 0], [18, 3, 0, 0]);
    }
    answered(from_ref(&long), &second(255), 20_000, [18, 3, 0, 0], [18, 2, 0, 0]);
    answered(&[long, vec![]], &second(254), 20_000, [18, 3, 0, 0], [18, 2, 0, 0]);
}

/// A sheet that is refused gives the same answer by both rules, whatever is withdrawn in either.
#[test]
fn where_a_sheet_is_refused_no_answer_changes() {
    let withdrawn = sheet_bytes_among(128, &vec![vec![]; 9], &[], 1);
    let faulty = [&withdrawn[..24], &[1, 1], &withdrawn[26..]].concat();
    for (first, second, expected) in [(&withdrawn, &faulty, [5, 1, 2, 0]), (&faulty, &withdrawn, [5, 1, 1, 0])] {
        for room in [0, 24, 42, 100] {
            let mut out = vec![FILL; room];
            assert_eq!(merge_numbers(&merge_where(|_| true, first, second, &mut out)), expected);
            assert_eq!(merge_numbers(&merge(first, second, &mut out)), expected);
            assert_eq!(out, vec![FILL; room]);
        }
    }
}
