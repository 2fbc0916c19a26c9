//! Document 02's jobs 1 and 2: canonical bytes and check 16, each by hand.
use second::answer::{Answer, numbers};
use second::sheet::Term;
use second::writer::{apart, same, sheet_bytes, sheet_bytes_among, sheet_bytes_in};
use second::{Refusal, read, repack};

const FILL: u8 = 0xA7;

/// The canonical bytes, in an output that has room for five more; those stay as they were.
fn canonical(sheet: &[u8]) -> Vec<u8> {
    let mut out = vec![FILL; sheet.len() + 5];
    let Ok(Answer::Written { length }) = repack(sheet, &mut out) else { panic!("a sheet that is accepted, and room for it") };
    assert!(out[length..].iter().all(|&byte| byte == FILL));
    out.truncate(length);
    out
}

/// The sheet is refused so with this much room, and no byte is written.
fn refused(sheet: &[u8], room: usize, check: u32, place: usize) {
    let mut out = vec![FILL; room];
    assert_eq!(repack(sheet, &mut out), Err(Refusal { check, place }), "room for {room} bytes");
    assert!(out.iter().all(|&byte| byte == FILL));
}

/// Document 01's sheet C, in its bytes: canonical already.
const C: [u8; 34] = [3, 0, 2, 0, 3, 0, 1, 0, 3, 0, 1, 0, 1, 0, 2, 0, 2, 0, 1, 0, 1, 0, 3, 0, 0, 0, 2, 0, 1, 0, 2, 0, 0, 0];

fn sheet_c() -> Vec<Vec<Term>> {
    vec![vec![same(1, 2), same(1, 3)], vec![apart(1, 2)]]
}

#[test]
fn a_canonical_sheet_changes_no_byte() {
    assert_eq!(canonical(&C), C);
    assert_eq!(canonical(&[0; 6]), [0; 6]);
    let terms = |lot: usize| vec![same(lot, lot), apart(lot, 1), same(1, lot)];
    let conditions: Vec<Vec<Term>> = (1..=20).map(terms).collect();
    assert_eq!(canonical(&sheet_bytes(20, &conditions)), sheet_bytes(20, &conditions));
}

#[test]
fn records_stand_in_the_order_of_conditions_and_chains() {
    // Condition 2's record comes first in the file, condition 1's chain goes backwards.
    let turned = [3, 0, 2, 0, 3, 0, 3, 0, 1, 0, 2, 0, 1, 0, 2, 0, 0, 0, 1, 0, 1, 0, 3, 0, 0, 0, 1, 0, 1, 0, 2, 0, 2, 0];
    assert_eq!(read(&turned), read(&C));
    assert_eq!(canonical(&turned), C);
}

#[test]
fn every_order_of_the_records_gives_the_same_bytes() {
    for order in [[1, 2, 3], [1, 3, 2], [2, 1, 3], [2, 3, 1], [3, 1, 2], [3, 2, 1]] {
        assert_eq!(canonical(&sheet_bytes_in(3, &sheet_c(), &order)), C, "{order:?}");
    }
}

#[test]
fn a_head_of_zero_stays_in_its_place() {
    let sheet = [2, 0, 4, 0, 2, 0, 0, 0, 2, 0, 0, 0, 1, 0, 1, 0, 1, 0, 2, 0, 0, 0, 2, 0, 2, 0, 2, 0, 0, 0];
    let expected = [2, 0, 4, 0, 2, 0, 0, 0, 1, 0, 0, 0, 2, 0, 2, 0, 2, 0, 2, 0, 0, 0, 1, 0, 1, 0, 2, 0, 0, 0];
    assert_eq!(canonical(&sheet), expected);
}

/// Sheet C with condition 1 withdrawn: its two records are vacant.
const C_WITHDRAWN: [u8; 34] = [3, 0, 2, 0, 3, 0, 0, 0, 3, 0, 0, 0, 0, 0, 0, 0, 0, 0, 0, 0, 0, 0, 0, 0, 0, 0, 2, 0, 1, 0, 2, 0, 0, 0];

#[test]
fn vacant_records_are_dropped() {
    let expected = [3, 0, 2, 0, 1, 0, 0, 0, 1, 0, 2, 0, 1, 0, 2, 0, 0, 0];
    assert_eq!(canonical(&C_WITHDRAWN), expected);
    assert_eq!(canonical(&expected), expected);
    let no_conditions = [&[5, 0, 0, 0, 2, 0], [0; 16].as_slice()].concat();
    assert_eq!(canonical(&no_conditions), [5, 0, 0, 0, 0, 0]);
    // 16's place is the packed length, and an output of that length is enough.
    (0..18).for_each(|room| refused(&C_WITHDRAWN, room, 16, 18));
    let mut out = [FILL; 18];
    assert_eq!(numbers(&repack(&C_WITHDRAWN, &mut out)), [0, 18, 0, 0]);
    assert_eq!(out, expected);
}

#[test]
fn vacant_records_between_the_others_change_no_canonical_byte() {
    for order in [[1, 2, 3], [2, 4, 6], [6, 4, 5], [4, 1, 6]] {
        assert_eq!(canonical(&sheet_bytes_among(3, &sheet_c(), &order, 6)), C, "{order:?}");
    }
}

#[test]
fn withdrawn_places_tell_sheets_apart() {
    let placed = |at: usize| {
        let mut conditions = sheet_c();
        conditions.insert(at, vec![]);
        canonical(&sheet_bytes(3, &conditions))
    };
    assert!(placed(0) != placed(1) && placed(1) != placed(2) && placed(0) != placed(2));
}

#[test]
fn record_numbers_above_255_have_two_bytes() {
    let backwards: Vec<usize> = (1..=1024).rev().collect();
    let bytes = canonical(&sheet_bytes_in(2, &[vec![same(1, 2); 1024]], &backwards));
    let next = |record: usize| usize::from(bytes[8 * record + 6]) + 256 * usize::from(bytes[8 * record + 7]);
    assert_eq!(bytes[6..8], [1, 0]);
    (1..=1023).for_each(|record| assert_eq!(next(record), record + 1));
    assert_eq!(next(1024), 0);
}

#[test]
fn sheets_that_differ_have_different_bytes() {
    let others = [
        (4, sheet_c()),
        (3, vec![vec![same(1, 3), same(1, 2)], vec![apart(1, 2)]]),
        (3, vec![vec![same(1, 2), same(3, 1)], vec![apart(1, 2)]]),
        (3, vec![vec![same(1, 2), apart(1, 3)], vec![apart(1, 2)]]),
        (3, vec![vec![apart(1, 2)], vec![same(1, 2), same(1, 3)]]),
        (3, vec![vec![same(1, 2)], vec![same(1, 3), apart(1, 2)]]),
        (3, vec![vec![same(1, 2), same(1, 3), apart(1, 2)]]),
        (3, vec![vec![same(1, 2), same(1, 3)], vec![apart(1, 2)], vec![]]),
        (3, vec![vec![], vec![same(1, 2), same(1, 3)], vec![apart(1, 2)]]),
        (3, vec![vec![same(1, 2), same(1, 3)], vec![apart(1, 2), apart(1, 2)]]),
    ];
    let mut all: Vec<Vec<u8>> = others.iter().map(|(lots, conditions)| canonical(&sheet_bytes(*lots, conditions))).collect();
    all.push(C.to_vec());
    all.sort();
    all.dedup();
    assert_eq!(all.len(), others.len() + 1);
}

#[test]
fn output_too_short() {
    (0..34).for_each(|room| refused(&C, room, 16, 34));
    refused(&[0; 6], 5, 16, 6);
    let mut out = [FILL; 36];
    assert_eq!(numbers(&repack(&C, &mut out[..34])), [0, 34, 0, 0]);
    assert_eq!((&out[..34], &out[34..]), (C.as_slice(), [FILL; 2].as_slice()));
}

#[test]
fn checks_of_the_sheet_come_first() {
    for room in [0, 33, 34, 50] {
        refused(&C[..5], room, 1, 0);
        refused(&C[..33], room, 3, 0);
        let changed = |at: usize, value: u8| [&C[..at], &[value], &C[at + 1..]].concat();
        refused(&changed(0, 129), room, 2, 1);
        refused(&changed(8, 4), room, 4, 2);
        refused(&changed(10, 3), room, 5, 1);
        refused(&changed(16, 1), room, 6, 1);
        refused(&changed(8, 0), room, 7, 3);
        refused(&[&C_WITHDRAWN[..6], &[1], &C_WITHDRAWN[7..]].concat(), room, 17, 1);
    }
}
