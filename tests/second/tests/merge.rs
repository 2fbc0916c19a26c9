//! Document 02's job 4: two sheets merged, and checks 18 and 19, each by hand.
mod merging;

use merging::{C, C_WITHDRAWN, FILL, different, merged, merges_to, refused};
use second::answer::Answer;
use second::merge::merge_numbers;
use second::sheet::Term;
use second::writer::{apart, same, sheet_bytes, sheet_bytes_among, sheet_bytes_in};
use second::{evaluate, merge, repack};

/// Two lots, (same 2 1): fewer lots than C.
const E: [u8; 16] = [2, 0, 1, 0, 1, 0, 1, 0, 1, 0, 2, 0, 1, 0, 0, 0];

#[test]
fn the_conditions_of_the_first_come_before_those_of_the_second() {
    // Three lots, three conditions, four records, and the three heads; then the records, of which C's come first or after E's.
    let (c_start, e_start) = ([3, 0, 3, 0, 4, 0, 1, 0, 3, 0, 4, 0], [3, 0, 3, 0, 4, 0, 1, 0, 2, 0, 4, 0]);
    let c_first = [1, 0, 1, 0, 2, 0, 2, 0, 1, 0, 1, 0, 3, 0, 0, 0, 2, 0, 1, 0, 2, 0, 0, 0];
    let c_after = [1, 0, 1, 0, 2, 0, 3, 0, 1, 0, 1, 0, 3, 0, 0, 0, 2, 0, 1, 0, 2, 0, 0, 0];
    let e = [1, 0, 2, 0, 1, 0, 0, 0];
    assert_eq!(merged(&C, &E), [c_start.as_slice(), &c_first, &e].concat());
    assert_eq!(merged(&E, &C), [e_start.as_slice(), &e, &c_after].concat());
}

#[test]
fn lots_are_the_larger_n() {
    for (first, second, larger) in [(0, 0, 0), (5, 3, 5), (3, 5, 5), (4, 4, 4), (128, 0, 128), (0, 128, 128)] {
        assert_eq!(merged(&[first, 0, 0, 0, 0, 0], &[second, 0, 0, 0, 0, 0]), [larger, 0, 0, 0, 0, 0]);
    }
    let conditions = [vec![apart(1, 2)]];
    for (first, second) in [(2, 7), (7, 2)] {
        assert_eq!(merged(&sheet_bytes(first, &conditions), &sheet_bytes(second, &conditions)), sheet_bytes(7, &conditions));
    }
}

#[test]
fn a_repeat_of_an_earlier_condition_is_left_out() {
    let (p, q, r): (&[Term], &[Term], &[Term]) = (&[same(1, 2), apart(2, 3)], &[apart(1, 3)], &[same(3, 3)]);
    // Across the two sheets: the earlier one's place counts.
    merges_to(3, &[p, q], &[q, r, p], &[p, q, r]);
    merges_to(3, &[p, q], &[p, q], &[p, q]);
    // Within the first, within the second, and both.
    merges_to(3, &[p, p, q, p], &[r], &[p, q, r]);
    merges_to(3, &[r], &[p, q, p, q], &[r, p, q]);
    merges_to(3, &[q, q], &[r, q, r], &[q, r]);
    merges_to(3, &[p, p], &[], &[p]);
    merges_to(3, &[], &[p, p], &[p]);
}

#[test]
fn conditions_that_are_no_repeat_are_kept() {
    let (one, two) = (same(1, 2), apart(2, 3));
    let others: [&[Term]; 8] = [
        // The same terms in another order, some of them, more of them.
        &[two, one],
        &[one],
        &[two],
        &[one, two, one],
        &[one, one, two],
        // One term with its lots turned, or with the other sign.
        &[same(2, 1), two],
        &[apart(1, 2), two],
        &[one, apart(3, 2)],
    ];
    let it: &[Term] = &[one, two];
    merges_to(3, &[it], &others, &[&[it], others.as_slice()].concat());
    for other in others {
        merges_to(3, &[it], &[other], &[it, other]);
        merges_to(3, &[it, other], &[], &[it, other]);
    }
}

#[test]
fn the_result_is_packed() {
    let first = [vec![same(1, 2), same(1, 3)], vec![apart(1, 2)]];
    let second = [vec![same(2, 3)], vec![same(1, 2), same(1, 3)], vec![apart(3, 2), apart(1, 1)]];
    let expected = sheet_bytes(3, &[first[0].clone(), first[1].clone(), second[0].clone(), second[2].clone()]);
    for order in [[1, 2, 3], [3, 1, 2], [2, 3, 1], [3, 2, 1]] {
        let turned = sheet_bytes_in(3, &first, &order);
        // Seven records, of which two are vacant: they are dropped.
        let vacant = sheet_bytes_among(3, &second, &[7, 4, 1, 6, 3], 7);
        assert_eq!(merged(&turned, &vacant), expected, "{order:?}");
    }
    // A packed sheet without a repeat, merged with the empty one or with itself, changes no byte; nor does repacking the merged sheet.
    for (one, other) in [(&C, [0; 6].as_slice()), (&C, &C)] {
        assert_eq!((merged(one, other), merged(other, one)), (C.to_vec(), C.to_vec()));
    }
    let mut again = vec![FILL; expected.len()];
    assert_eq!(repack(&expected, &mut again), Ok(Answer::Written { length: expected.len() }));
    assert_eq!(again, expected);
}

#[test]
fn merged_m_above_its_most() {
    let all = different(257);
    for parted in [0, 1, 100, 128, 256] {
        let (first, second) = (sheet_bytes(128, &all[..parted]), sheet_bytes(128, &all[parted..256]));
        assert_eq!(merged(&first, &second), sheet_bytes(128, &all[..256]));
    }
    // A condition that is left out is not counted: of the second sheet's 256 two are new.
    let (first, second) = (sheet_bytes(128, &all[..254]), sheet_bytes(128, &[&all[254..256], &all[255..256], &all[..253]].concat()));
    assert_eq!(merged(&first, &second), sheet_bytes(128, &all[..256]));
    for parted in [1, 100, 128, 256] {
        let (first, second) = (sheet_bytes(128, &all[..parted]), sheet_bytes(128, &all[parted..]));
        for room in [0, 2575, 2576, 5000] {
            refused(&first, &second, room, 18, 2, 0);
            refused(&second, &first, room, 18, 2, 0);
        }
    }
}

#[test]
fn merged_k_above_its_most() {
    let long = |count: usize, last: Term| sheet_bytes(3, &[[vec![same(1, 2); count - 1], vec![last]].concat()]);
    for (first, second) in [(1023, 1), (1, 1023), (512, 512)] {
        let bytes = merged(&long(first, same(1, 3)), &long(second, same(2, 3)));
        assert_eq!((bytes.len(), &bytes[..6]), (6 + 4 + 8192, [3, 0, 2, 0, 0, 4].as_slice()));
    }
    for (first, second) in [(1024, 1), (1, 1024), (513, 512), (1024, 1024)] {
        for room in [0, 8210, 20_000] {
            refused(&long(first, same(1, 3)), &long(second, same(2, 3)), room, 18, 3, 0);
        }
    }
    // A repeat's terms are not counted, and vacant records are not.
    assert_eq!(merged(&long(1024, same(1, 3)), &long(1024, same(1, 3))), long(1024, same(1, 3)));
    let one_of_1024 = sheet_bytes_among(3, &[vec![same(2, 3)]], &[1000], 1024);
    assert_eq!(merged(&one_of_1024, &long(1023, same(1, 3)))[..6], [3, 0, 2, 0, 0, 4]);
    refused(&one_of_1024, &long(1024, same(1, 3)), 20_000, 18, 3, 0);
}

#[test]
fn merged_m_is_looked_at_before_k() {
    let first = sheet_bytes(128, &different(256));
    let second = |terms: usize| sheet_bytes(128, &[vec![same(1, 3); terms]]);
    // 1,024 terms would do, 1,025 would not: m is 257 in both.
    for terms in [768, 769] {
        refused(&first, &second(terms), 20_000, 18, 2, 0);
    }
    let fewer = sheet_bytes(128, &different(255));
    refused(&fewer, &second(770), 20_000, 18, 3, 0);
    assert_eq!(merged(&fewer, &second(769))[..6], [128, 0, 0, 1, 0, 4]);
}

#[test]
fn output_too_short() {
    // The length needed is the packed one of the merged sheet: 6 + 2 * 3 + 8 * 4, and 6 + 2 * 2 + 8 * 3 where the second repeats the first.
    (0..44).for_each(|room| refused(&C, &E, room, 19, 44, 0));
    (0..34).for_each(|room| refused(&C, &C, room, 19, 34, 0));
    refused(&[0; 6], &[0; 6], 5, 19, 6, 0);
    let vacant = sheet_bytes_among(2, &[vec![same(2, 1)]], &[5], 9);
    (0..44).for_each(|room| refused(&C, &vacant, room, 19, 44, 0));
    let mut out = [FILL; 44];
    assert_eq!(merge_numbers(&merge(&C, &vacant, &mut out)), [0, 44, 0, 0]);
    assert_eq!(out.as_slice(), merged(&C, &E));
    assert_eq!(merge_numbers(&merge(&C, &E, &mut out[..43])), [19, 44, 0, 0]);
    assert_eq!(out.as_slice(), merged(&C, &E));
}

#[test]
fn a_refusal_from_reading_says_which_sheet() {
    let changed = |at: usize, value: u8| [&C[..at], &[value], &C[at + 1..]].concat();
    let vacant_reached = [&C[..10], [0; 8].as_slice(), &C[18..]].concat();
    let faulty = [
        (C[..5].to_vec(), 1, 0),
        (changed(0, 129), 2, 1),
        (changed(3, 2), 2, 2),
        (changed(5, 5), 2, 3),
        (C[..33].to_vec(), 3, 0),
        (changed(8, 4), 4, 2),
        (changed(10, 3), 5, 1),
        (changed(16, 1), 6, 1),
        (changed(8, 0), 7, 3),
        (vacant_reached, 17, 1),
    ];
    let full = sheet_bytes(128, &different(256));
    for (bytes, check, place) in &faulty {
        for room in [0, 44, 5000] {
            // The other sheet is in order, also one that leaves no room for a condition more: 18 and 19 come after the two readings.
            for other in [C.as_slice(), &full] {
                refused(bytes, other, room, *check, *place, 1);
                refused(other, bytes, room, *check, *place, 2);
            }
            // Neither is in order: the first is read first, whatever the check that refuses the second.
            for (other, _, _) in &faulty {
                refused(bytes, other, room, *check, *place, 1);
            }
        }
    }
    assert_eq!(merge_numbers(&merge(&changed(8, 4), &C[..5], &mut [])), [4, 2, 1, 0]);
    assert_eq!(merge_numbers(&merge(&C, &changed(8, 0), &mut [])), [7, 3, 2, 0]);
}

#[test]
fn an_assignment_meets_it_exactly_when_it_meets_both() {
    let sheets = [
        C.to_vec(),
        E.to_vec(),
        C_WITHDRAWN.to_vec(),
        vec![0; 6],
        sheet_bytes(4, &[vec![], vec![same(1, 4), apart(2, 3)], vec![apart(4, 3)], vec![]]),
        sheet_bytes(3, &[vec![apart(3, 3)]]),
    ];
    let met = |sheet: &[u8], grouping: &[u8]| evaluate(sheet, grouping) == Ok(Answer::AllMet);
    for (first, second) in sheets.iter().flat_map(|first| sheets.iter().map(move |second| (first, second))) {
        let both = merged(first, second);
        for number in 0..256 {
            let grouping = [number % 4, number / 4 % 4, number / 16 % 4, number / 64].map(|value| value as u8);
            assert_eq!(met(&both, &grouping), met(first, &grouping) && met(second, &grouping), "{first:?} {second:?} {grouping:?}");
        }
    }
}
