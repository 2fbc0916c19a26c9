//! Document 02's job 8: the reassignment of one lot, and checks 21 and 22, each by hand.
use second::answer::numbers;
use second::limits::{MOST_CONDITIONS, MOST_LOTS, MOST_TERMS};
use second::sheet::Term;
use second::writer::{apart, same, sheet_bytes, sheet_bytes_among};
use second::{count_unmet, reassign};

/// A running count, a lot, and the lot's new byte.
type Reassignment = (u32, u32, u8);

/// The lot gets this byte, with this running count after it, and no other byte changes; what the grouping is then. The running count is right before and after.
fn counted(sheet: &[u8], grouping: &[u8], (count, lot, value): Reassignment, expected: u32) -> Vec<u8> {
    assert_eq!(numbers(&count_unmet(sheet, grouping)), [0, count, 0, 0], "{grouping:?}");
    let after = reassigned(sheet, grouping, (count, lot, value), expected);
    assert_eq!(numbers(&count_unmet(sheet, &after)), [0, expected, 0, 0], "{after:?}");
    after
}

/// As `counted`, with a running count that may be wrong.
fn reassigned(sheet: &[u8], grouping: &[u8], (count, lot, value): Reassignment, expected: u32) -> Vec<u8> {
    let mut after = grouping.to_vec();
    let answer = numbers(&reassign(sheet, &mut after, count, lot, value));
    assert_eq!(answer, [0, expected, 0, 0], "count {count}, lot {lot}, value {value}, {grouping:?}");
    let at = lot as usize - 1;
    assert_eq!(after, [&grouping[..at], &[value], &grouping[at + 1..]].concat(), "count {count}, lot {lot}, value {value}");
    after
}

/// It is refused so, and nothing is written.
fn refused(sheet: &[u8], grouping: &[u8], (count, lot, value): Reassignment, check: u32, place: u32) {
    let mut after = grouping.to_vec();
    let answer = numbers(&reassign(sheet, &mut after, count, lot, value));
    assert_eq!(answer, [check, place, 0, 0], "count {count}, lot {lot}, value {value}, {grouping:?}");
    assert_eq!(after, grouping, "count {count}, lot {lot}, value {value}");
}

/// Document 01's sheet C: (same 1 2 or same 1 3) and (apart 1 2).
fn sheet_c() -> Vec<u8> {
    sheet_bytes(3, &[vec![same(1, 2), same(1, 3)], vec![apart(1, 2)]])
}

#[test]
fn a_list_of_reassignments_on_sheet_c() {
    let sheet = sheet_c();
    let mut grouping = vec![7, 8, 9];
    for (step, expected) in [((1, 3, 7), 0), ((0, 2, 7), 1), ((1, 1, 0), 1), ((1, 3, 0), 0), ((0, 3, 255), 1), ((1, 2, 0), 1)] {
        grouping = counted(&sheet, &grouping, step, expected);
    }
    assert_eq!(grouping, [0, 0, 255]);
}

/// "It writes that one byte", also where it is the old one, and none past n.
#[test]
fn bytes_that_are_written() {
    let sheet = sheet_c();
    for more in [[].as_slice(), &[7], &[0, 255, 3]] {
        let grouping = [&[1, 2, 1], more].concat();
        counted(&sheet, &grouping, (0, 1, 1), 0);
        counted(&sheet, &grouping, (0, 2, 1), 1);
        counted(&sheet, &grouping, (0, 3, 255), 1);
        counted(&sheet, &grouping, (0, 3, 0), 1);
    }
}

/// "weighs only the conditions naming that lot": with a wrong running count, the others stay in it as they were.
#[test]
fn conditions_that_don_t_name_the_lot() {
    let sheet = sheet_bytes(4, &[vec![same(1, 2)], vec![same(3, 4)], vec![apart(3, 3)], vec![], vec![same(0, 2)]]);
    let grouping = [0, 5, 6, 7];
    counted(&sheet, &grouping, (4, 1, 5), 3);
    counted(&sheet, &grouping, (4, 2, 0), 2);
    // Lot 1: one is unmet before, none after.
    for (count, expected) in [(1, 0), (2, 1), (3, 2), (5, 4)] {
        reassigned(&sheet, &grouping, (count, 1, 5), expected);
    }
    refused(&sheet, &grouping, (0, 1, 5), 22, 0);
    // Lot 3: "apart 3 3" is unmet before and after, and "same 3 4" before.
    for (count, expected) in [(2, 1), (3, 2), (5, 4)] {
        reassigned(&sheet, &grouping, (count, 3, 7), expected);
    }
    refused(&sheet, &grouping, (1, 3, 7), 22, 1);
    // A lot that nobody names: nothing is weighed.
    let sheet = sheet_bytes(5, &[vec![same(1, 2)], vec![apart(3, 3)]]);
    for count in 0..=2 {
        reassigned(&sheet, &[1, 2, 3, 4, 5], (count, 5, 1), count);
    }
}

/// A running count that is wrong and passes 22 gives what the equation gives, be it above m.
#[test]
fn counts_above_m() {
    let sheet = sheet_bytes(2, &[vec![same(1, 2)], vec![same(2, 1)], vec![]]);
    reassigned(&sheet, &[4, 4], (3, 1, 5), 5);
    reassigned(&sheet, &[4, 4], (2, 1, 5), 4);
    reassigned(&sheet, &[4, 5], (3, 1, 5), 1);
    refused(&sheet, &[4, 5], (5, 1, 5), 22, 5);
    let sheet = sheet_bytes(2, &vec![vec![same(1, 2)]; MOST_CONDITIONS]);
    reassigned(&sheet, &[4, 4], (256, 2, 5), 512);
    reassigned(&sheet, &[4, 5], (256, 2, 4), 0);
    refused(&sheet, &[4, 5], (255, 2, 4), 22, 255);
}

/// A condition that names the lot counts once, be it in the first field, the second, both, or several terms.
#[test]
fn conditions_count_once() {
    let condition = vec![apart(1, 1), same(2, 1), same(1, 2), same(3, 1), apart(1, 1)];
    for conditions in
        [vec![condition.clone()], vec![condition.clone(), vec![]], vec![condition[1..2].to_vec()], vec![condition[2..3].to_vec()]]
    {
        let sheet = sheet_bytes(3, &conditions);
        counted(&sheet, &[1, 2, 9], (1, 1, 2), 0);
        counted(&sheet, &[1, 1, 9], (0, 1, 2), 1);
        counted(&sheet, &[1, 2, 9], (1, 1, 7), 1);
    }
    // The lot stands in the last of 1,024 terms, or in the first, or in all of them.
    for at in [0..1, MOST_TERMS - 1..MOST_TERMS, 0..MOST_TERMS] {
        let condition = (0..MOST_TERMS).map(|term| if at.contains(&term) { same(3, 2) } else { same(1, 2) }).collect();
        counted(&sheet_bytes(3, &[condition]), &[1, 2, 3], (1, 3, 2), 0);
    }
}

/// A term that is true and doesn't name the lot meets a condition that does.
#[test]
fn other_terms_of_a_condition() {
    let sheet = sheet_bytes(3, &[vec![same(1, 2), apart(2, 3)], vec![apart(2, 3), same(1, 2)], vec![apart(1, 2)]]);
    counted(&sheet, &[1, 1, 2], (1, 1, 5), 0);
    counted(&sheet, &[1, 1, 1], (1, 1, 5), 2);
    counted(&sheet, &[5, 1, 1], (2, 3, 5), 0);
}

#[test]
fn lot_0_in_terms() {
    let sheet = sheet_bytes(2, &[vec![same(0, 1)], vec![apart(0, 0)], vec![apart(2, 0)]]);
    counted(&sheet, &[3, 0], (3, 1, 0), 2);
    counted(&sheet, &[3, 0], (3, 2, 1), 2);
    counted(&sheet, &[0, 9], (1, 1, 255), 2);
    counted(&sheet, &[0, 9], (1, 2, 0), 2);
    // "apart 0 0" names lot 0 alone: it isn't weighed with any lot.
    reassigned(&sheet, &[0, 9], (0, 1, 0), 0);
    refused(&sheet, &[0, 9], (1, 0, 0), 21, 0);
}

/// Withdrawn conditions name no lot, vacant records neither; m counts the former.
#[test]
fn withdrawn_conditions() {
    let sheet = sheet_bytes_among(2, &[vec![], vec![same(1, 2)], vec![]], &[3], 4);
    counted(&sheet, &[1, 2], (1, 1, 2), 0);
    reassigned(&sheet, &[1, 2], (3, 1, 2), 2);
    refused(&sheet, &[1, 2], (4, 1, 2), 22, 4);
    let sheet = sheet_bytes(1, &vec![vec![]; MOST_CONDITIONS]);
    reassigned(&sheet, &[1], (256, 1, 2), 256);
    refused(&sheet, &[1], (257, 1, 2), 22, 257);
}

/// "21, lot 0 or above n, place the lot"
#[test]
fn lots_that_are_refused() {
    let sheet = sheet_c();
    for lot in [0, 4, 128, 129, 255, 256, 257, 258, 259, 65_535, 65_536, 65_537, 1 << 31, (1 << 31) + 1, u32::MAX] {
        // Bytes past n are no lot's. 21 comes before 22.
        for grouping in [[1, 2, 1].as_slice(), &[1, 2, 1, 9, 9]] {
            for count in [0, 3, u32::MAX] {
                refused(&sheet, grouping, (count, lot, 1), 21, lot);
            }
        }
    }
    let none: [Vec<Term>; 1] = [vec![same(0, 0)]];
    for lot in [0, 1, 256, 65_536, u32::MAX] {
        refused(&sheet_bytes(0, &none), &[], (0, lot, 1), 21, lot);
        refused(&sheet_bytes(0, &none), &[5, 6], (0, lot, 1), 21, lot);
    }
    let most = sheet_bytes(MOST_LOTS, &[vec![same(1, 128)]]);
    counted(&most, &[3; MOST_LOTS], (0, 128, 1), 1);
    counted(&most, &[3; MOST_LOTS], (0, 127, 1), 0);
    refused(&most, &[3; MOST_LOTS + 1], (0, 129, 1), 21, 129);
}

/// "22, kept count above m or below the unmet ones named, place the kept count"
#[test]
fn counts_that_are_refused() {
    let sheet = sheet_c();
    for count in [3, 256, 257, 258, 65_536, 65_537, 65_538, 1 << 31, u32::MAX] {
        refused(&sheet, &[1, 2, 1], (count, 1, 1), 22, count);
        refused(&sheet, &[7, 8, 9, 10], (count, 3, 7), 22, count);
    }
    refused(&sheet, &[7, 8, 9], (0, 3, 7), 22, 0);
    refused(&sheet, &[7, 7, 9], (0, 1, 8), 22, 0);
    // Lot 3 isn't in the one that is unmet: 0 is wrong, and passes.
    reassigned(&sheet, &[7, 7, 9], (0, 3, 7), 0);
    // What is unmet after doesn't matter to 22, and neither does the value.
    refused(&sheet, &[7, 8, 9], (0, 3, 9), 22, 0);
    let no_conditions = sheet_bytes(1, &[]);
    counted(&no_conditions, &[4], (0, 1, 5), 0);
    refused(&no_conditions, &[4], (1, 1, 5), 22, 1);
    refused(&no_conditions, &[4], (65_536, 1, 5), 22, 65_536);
}

/// "both after 8", and 8 after a refusal from reading.
#[test]
fn the_order_of_checks() {
    let sheet = sheet_c();
    for step in [(9, 0, 1), (9, 1, 1), (0, 257, 1), (0, 1, 1)] {
        refused(&sheet, &[7, 8], step, 8, 3);
        refused(&sheet, &[], step, 8, 3);
        refused(&sheet[..5], &[], step, 1, 0);
        refused(&sheet[..33], &[7, 8], step, 3, 0);
        refused(&[&sheet[..18], &[0; 8], &sheet[26..]].concat(), &[7, 8, 9], step, 17, 2);
    }
}
