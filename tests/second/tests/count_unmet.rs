//! Document 02's job 8: the count of unmet conditions, by hand.
use second::answer::numbers;
use second::limits::{MOST_CONDITIONS, MOST_LOTS, MOST_TERMS};
use second::sheet::Term;
use second::writer::{apart, same, sheet_bytes, sheet_bytes_among};
use second::{Refusal, count_unmet, evaluate};

/// The grouping leaves so many of the conditions unmet; bytes past n change nothing, and the evaluator finds one exactly where there are some.
fn counted(lots: usize, conditions: &[Vec<Term>], grouping: &[u8], expected: u32) {
    let sheet = sheet_bytes(lots, conditions);
    for more in [[].as_slice(), &[0], &[255, 7]] {
        let grouping = [grouping, more].concat();
        assert_eq!(numbers(&count_unmet(&sheet, &grouping)), [0, expected, 0, 0], "{conditions:?}, {grouping:?}");
        assert_eq!(numbers(&evaluate(&sheet, &grouping))[1] == 0, expected == 0, "{conditions:?}, {grouping:?}");
    }
}

/// Document 01's sheet C: (same 1 2 or same 1 3) and (apart 1 2).
fn sheet_c() -> Vec<Vec<Term>> {
    vec![vec![same(1, 2), same(1, 3)], vec![apart(1, 2)]]
}

#[test]
fn sheet_c_under_its_groupings() {
    counted(3, &sheet_c(), &[1, 2, 1], 0);
    counted(3, &sheet_c(), &[7, 7, 7], 1);
    counted(3, &sheet_c(), &[7, 8, 9], 1);
    counted(3, &sheet_c(), &[255, 255, 0], 1);
    counted(3, &[sheet_c(), vec![vec![same(2, 3)]]].concat(), &[7, 8, 9], 2);
    counted(3, &[sheet_c(), sheet_c()].concat(), &[7, 8, 9], 2);
}

#[test]
fn none_and_all() {
    counted(0, &[], &[], 0);
    counted(MOST_LOTS, &[], &[9; MOST_LOTS], 0);
    counted(2, &vec![vec![same(1, 2)]; MOST_CONDITIONS], &[0, 1], MOST_CONDITIONS as u32);
    counted(2, &vec![vec![same(1, 2)]; MOST_CONDITIONS], &[1, 1], 0);
    counted(2, &vec![vec![apart(2, 2)]; MOST_CONDITIONS], &[1, 1], MOST_CONDITIONS as u32);
}

/// One true term meets a condition, wherever it stands, and a condition counts once, however many terms are false.
#[test]
fn long_conditions() {
    let with_a_true_one = |place: usize| (0..MOST_TERMS).map(|at| if at == place { same(1, 2) } else { apart(1, 2) }).collect();
    for place in [0, 1, MOST_TERMS / 2, MOST_TERMS - 1] {
        counted(2, &[with_a_true_one(place)], &[4, 4], 0);
    }
    counted(2, &[vec![apart(1, 2); MOST_TERMS]], &[4, 4], 1);
}

/// "every numbering meets it"
#[test]
fn withdrawn_conditions_are_met() {
    counted(0, &[vec![]], &[], 0);
    counted(0, &vec![vec![]; MOST_CONDITIONS], &[], 0);
    counted(2, &[vec![], vec![same(1, 2)], vec![], vec![apart(1, 1)], vec![]], &[3, 4], 2);
    // Their old records are vacant, and belong to no condition.
    let sheet = sheet_bytes_among(2, &[vec![], vec![same(1, 2)]], &[2], 3);
    assert_eq!(numbers(&count_unmet(&sheet, &[3, 4])), [0, 1, 0, 0]);
}

/// "its number is 0 in every numbering and in the judge"
#[test]
fn lot_0_has_the_number_0() {
    counted(0, &[vec![same(0, 0)], vec![apart(0, 0)]], &[], 1);
    let conditions = [vec![same(0, 1)], vec![apart(2, 0)], vec![same(1, 2)]];
    counted(2, &conditions, &[0, 0], 1);
    counted(2, &conditions, &[0, 5], 1);
    counted(2, &conditions, &[5, 0], 3);
    counted(2, &conditions, &[255, 255], 1);
}

/// "with the judge's inputs and checks"
#[test]
fn refused() {
    let sheet = sheet_bytes(3, &sheet_c());
    for length in 0..3 {
        assert_eq!(count_unmet(&sheet, &vec![1; length]), Err(Refusal { check: 8, place: 3 }));
    }
    let changed = |at: usize, value: u8| [&sheet[..at], &[value], &sheet[at + 1..]].concat();
    for (sheet, check, place) in [
        (sheet[..5].to_vec(), 1, 0),
        (changed(0, 129), 2, 1),
        (sheet[..33].to_vec(), 3, 0),
        (changed(6, 4), 4, 1),
        (changed(10, 3), 5, 1),
        (changed(8, 1), 6, 1),
        (changed(8, 0), 7, 3),
        ([&sheet[..18], &[0; 8], &sheet[26..]].concat(), 17, 2),
    ] {
        // A refusal from reading comes before 8.
        for grouping in [[].as_slice(), &[1, 2, 1]] {
            assert_eq!(count_unmet(&sheet, grouping), Err(Refusal { check, place }));
        }
    }
}
