//! Checks 1 to 9 of document 01's table and 17 of document 02, each by hand, and the order in which they run.
use second::answer::{Answer, numbers};
use second::writer::{apart, same, sheet_bytes};
use second::{Refusal, evaluate, read, search};

/// Two lots, two conditions, three records: heads at bytes 6 and 8, records at 10, 18 and 26.
fn sheet() -> Vec<u8> {
    sheet_bytes(2, &[vec![same(1, 2), apart(2, 2)], vec![apart(1, 2)]])
}

fn with(changes: &[(usize, u8)]) -> Vec<u8> {
    let mut bytes = sheet();
    for &(at, value) in changes {
        bytes[at] = value;
    }
    bytes
}

fn refused(bytes: &[u8], check: u32, place: usize) {
    assert_eq!(read(bytes), Err(Refusal { check, place }));
}

#[test]
fn accepted() {
    assert_eq!(numbers(&read(&sheet())), [0, 2, 2, 3]);
}

#[test]
fn header() {
    refused(&[], 1, 0);
    refused(&[255; 5], 1, 0);
    refused(&[255; 6], 2, 1);
    refused(&[128, 0, 1, 1, 1, 4], 2, 2);
    refused(&[128, 0, 0, 1, 1, 4], 2, 3);
    refused(&[128, 0, 0, 1, 0, 4], 3, 0);
    refused(&[0, 1, 0, 0, 0, 0], 2, 1);
}

#[test]
fn length() {
    let bytes = sheet();
    refused(&bytes[..bytes.len() - 1], 3, 0);
    refused(&[bytes, vec![0]].concat(), 3, 0);
}

#[test]
fn heads() {
    refused(&with(&[(6, 4)]), 4, 1);
    refused(&with(&[(9, 1)]), 4, 2);
    refused(&with(&[(6, 4), (8, 4), (10, 0)]), 4, 1);
}

#[test]
fn records() {
    let faults = [(10, 0), (10, 3), (11, 1), (12, 3), (13, 1), (14, 3), (15, 1), (16, 4), (17, 1)];
    for (at, value) in faults {
        refused(&with(&[(at, value)]), 5, 1);
        refused(&with(&[(at + 16, value)]), 5, 3);
        refused(&with(&[(at + 8, value), (at + 16, value)]), 5, 2);
    }
}

#[test]
fn a_record_reached_again() {
    refused(&with(&[(16, 1)]), 6, 1);
    refused(&with(&[(24, 1)]), 6, 1);
    refused(&with(&[(24, 3)]), 6, 3);
    refused(&with(&[(8, 2)]), 6, 2);
    refused(&with(&[(8, 1), (32, 3)]), 6, 1);
}

#[test]
fn a_record_never_reached() {
    refused(&with(&[(8, 0)]), 7, 3);
    refused(&with(&[(6, 0)]), 7, 1);
    refused(&with(&[(6, 2), (16, 1)]), 7, 1);
}

/// The sheet with these heads, and with these records blanked.
fn blanked(heads: [u8; 2], records: &[usize]) -> Vec<u8> {
    let mut bytes = with(&[(6, heads[0]), (8, heads[1])]);
    records.iter().for_each(|record| bytes[2 + 8 * record..10 + 8 * record].fill(0));
    bytes
}

#[test]
fn vacant_records_are_passed_over_and_counted() {
    assert_eq!(numbers(&read(&blanked([1, 0], &[3]))), [0, 2, 2, 3]);
    assert_eq!(numbers(&read(&blanked([0, 3], &[1, 2]))), [0, 2, 2, 3]);
    assert_eq!(numbers(&read(&blanked([0, 0], &[1, 2, 3]))), [0, 2, 2, 3]);
    let no_conditions = [&[0, 0, 0, 0, 2, 0], [0; 16].as_slice()].concat();
    assert_eq!(numbers(&read(&no_conditions)), [0, 0, 0, 2]);
    // k counts them in checks 3, 4 and 5 too.
    refused(&no_conditions[..14], 3, 0);
    let last_is_vacant = |head: u8, next: u8| [&[1, 0, 1, 0, 3, 0, head, 0, 1, 0, 1, 0, 1, 0, next, 0], [0; 16].as_slice()].concat();
    assert_eq!(numbers(&read(&last_is_vacant(1, 0))), [0, 1, 1, 3]);
    refused(&last_is_vacant(4, 0), 4, 1);
    refused(&last_is_vacant(1, 4), 5, 1);
    refused(&last_is_vacant(1, 3), 17, 3);
}

#[test]
fn a_vacant_record_is_zero_in_all_eight_bytes() {
    let with_one = |at: usize, value: u8| {
        let mut bytes = blanked([1, 0], &[3]);
        bytes[at] = value;
        bytes
    };
    (27..34).for_each(|at| refused(&with_one(at, 1), 5, 3));
    [3, 4, 255].iter().for_each(|&sign| refused(&with_one(26, sign), 5, 3));
    // With a sign that there is, it is a term on lot 0, twice: in range, and no chain reaches it.
    [1, 2].iter().for_each(|&sign| refused(&with_one(26, sign), 7, 3));
}

#[test]
fn a_zero_head_whose_records_are_left() {
    refused(&blanked([0, 3], &[]), 7, 1);
    refused(&blanked([0, 3], &[1]), 7, 2);
    refused(&blanked([0, 0], &[1, 2]), 7, 3);
}

#[test]
fn a_chain_into_a_vacant_record() {
    refused(&blanked([1, 3], &[3]), 17, 3);
    refused(&blanked([1, 3], &[2]), 17, 2);
    refused(&blanked([1, 3], &[1, 3]), 17, 1);
    // The walk goes by condition, and 17 comes before 6 at one record, not before 6 at an earlier one.
    let mut reached_again_first = blanked([1, 3], &[3]);
    reached_again_first[24] = 1;
    refused(&reached_again_first, 6, 1);
    let mut vacant_first = blanked([1, 2], &[3]);
    vacant_first[24] = 3;
    refused(&vacant_first, 17, 3);
    // 17 comes before 7, and after 5.
    refused(&blanked([0, 3], &[3]), 17, 3);
    let mut malformed = blanked([1, 3], &[2]);
    malformed[26] = 3;
    refused(&malformed, 5, 3);
}

#[test]
fn grouping_too_short() {
    let eight = Err(Refusal { check: 8, place: 2 });
    assert_eq!(search(&sheet(), &mut [9], &mut []), eight);
    assert_eq!(evaluate(&sheet(), &[9]), eight);
    assert_eq!(evaluate(&with(&[(8, 0)]), &[]), Err(Refusal { check: 7, place: 3 }));
}

#[test]
fn store_full() {
    assert_eq!(search(&sheet(), &mut [9; 2], &mut [9; 7]), Err(Refusal { check: 9, place: 0 }));
}

#[test]
fn evaluator() {
    assert_eq!(evaluate(&sheet(), &[0, 255]), Ok(Answer::NotMet { condition: 1 }));
    assert_eq!(evaluate(&sheet(), &[255, 255, 0]), Ok(Answer::NotMet { condition: 2 }));
    assert_eq!(evaluate(&sheet_bytes(0, &[vec![]]), &[]), Ok(Answer::AllMet));
    assert_eq!(evaluate(&sheet_bytes(1, &[vec![], vec![apart(1, 1)]]), &[7]), Ok(Answer::NotMet { condition: 2 }));
}
