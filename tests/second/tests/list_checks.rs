//! Checks 10 to 15 of document 01's table, each by hand, and the order in which they run.
use second::answer::Answer;
use second::limits::{MOST_NODES, MOST_SPLITS_ABOVE};
use second::sheet::Term;
use second::store::{Record, ground, list_bytes, split};
use second::writer::{apart, same, sheet_bytes};
use second::{Refusal, check};

/// Sheet A.
fn conditions() -> Vec<Vec<Term>> {
    vec![vec![same(1, 2)], vec![same(2, 3)], vec![apart(1, 3)]]
}

/// The search's own refutation of sheet A.
fn list() -> Vec<Record> {
    vec![split(1, 2, 5), split(2, 3, 4), ground(3), ground(2), ground(1)]
}

fn answer(records: &[Record]) -> Result<Answer, Refusal> {
    check(&sheet_bytes(3, &conditions()), &list_bytes(records))
}

fn refused(records: &[Record], check: u32, place: usize) {
    assert_eq!(answer(records), Err(Refusal { check, place }));
}

fn with(number: usize, record: Record) -> Vec<Record> {
    let mut records = list();
    records[number - 1] = record;
    records
}

#[test]
fn passes() {
    assert_eq!(answer(&list()), Ok(Answer::Passes));
}

#[test]
fn length_of_the_list() {
    let sheet = sheet_bytes(3, &conditions());
    let ten = Err(Refusal { check: 10, place: 0 });
    assert_eq!(check(&sheet, &[]), ten);
    assert_eq!(check(&sheet, &list_bytes(&list())[..39]), ten);
    assert_eq!(check(&sheet, &vec![0; 8 * (MOST_NODES + 1)]), ten);
    assert_eq!(check(&sheet, &vec![0; 8 * MOST_NODES]), Err(Refusal { check: 11, place: 1 }));
    assert_eq!(check(&sheet[..5], &[]), Err(Refusal { check: 1, place: 0 }));
}

#[test]
fn fields_out_of_range() {
    for kind in [0, 3, 4, 255] {
        refused(&with(2, Record { kind, ..split(2, 3, 4) }), 11, 2);
        refused(&with(3, Record { kind, first: 0, ..ground(3) }), 11, 3);
    }
    refused(&with(2, Record { spare: 1, ..split(2, 3, 4) }), 11, 2);
    refused(&with(3, Record { spare: 1, ..ground(3) }), 11, 3);
    for (a, b) in [(4, 1), (1, 4), (4, 0), (0, 4), (257, 1), (1, 257), (256, 1), (1, 256)] {
        refused(&with(1, split(a, b, 5)), 11, 1);
    }
    for condition in [0, 4, 259] {
        refused(&with(4, ground(condition)), 11, 4);
    }
    refused(&with(3, Record { second: 1, ..ground(3) }), 11, 3);
    refused(&with(3, Record { next: 4, ..ground(3) }), 11, 3);
}

#[test]
fn a_term_that_is_not_false() {
    refused(&with(3, ground(2)), 12, 3);
    refused(&with(4, ground(3)), 12, 4);
    refused(&with(2, split(1, 1, 4)), 12, 3);
    refused(&[ground(1)], 12, 1);
}

#[test]
fn a_ground_that_names_a_withdrawn_condition() {
    // The search's own refutation of sheet A, with a withdrawn condition behind it, passes; a ground that names that one does not.
    let sheet = sheet_bytes(3, &[conditions(), vec![vec![]]].concat());
    assert_eq!(check(&sheet, &list_bytes(&list())), Ok(Answer::Passes));
    for number in [3, 4, 5] {
        assert_eq!(check(&sheet, &list_bytes(&with(number, ground(4)))), Err(Refusal { check: 12, place: number }));
    }
    assert_eq!(check(&sheet_bytes(0, &[vec![]]), &list_bytes(&[ground(1)])), Err(Refusal { check: 12, place: 1 }));
    // Its number is in range, and 11 looks at nothing else of it.
    assert_eq!(check(&sheet, &list_bytes(&with(4, ground(5)))), Err(Refusal { check: 11, place: 4 }));
}

#[test]
fn the_split_s_next() {
    refused(&with(2, split(2, 3, 5)), 13, 2);
    refused(&with(1, split(1, 2, 0)), 13, 1);
    // 13 comes before 14, also where the following record is missing.
    refused(&[split(1, 2, 9), split(2, 3, 4), ground(3), ground(2)], 13, 1);
}

#[test]
fn left_over_or_missing() {
    refused(&list()[..1], 14, 2);
    refused(&list()[..2], 14, 3);
    refused(&list()[..3], 14, 4);
    refused(&list()[..4], 14, 5);
    // What is left over is not looked at.
    refused(&[list(), vec![Record { kind: 9, ..ground(1) }]].concat(), 14, 6);
}

#[test]
fn pairs_decided_before_and_lots_twice() {
    // same 1 1 is decided; its apart branch asks nothing, since sharing is looked at first.
    let mut records = vec![split(1, 1, 7)];
    records.extend([split(1, 2, 6), split(2, 3, 5), ground(3), ground(2), ground(1)]);
    records.extend([split(1, 2, 11), split(2, 3, 10), ground(3), ground(2), ground(1)]);
    assert_eq!(answer(&records), Ok(Answer::Passes));
}

/// A list of `depth` splits, each in the same branch of the one before, on a sheet that no assignment meets.
fn nested(depth: usize) -> Vec<Record> {
    let mut records: Vec<Record> = (1..=depth).map(|i| split(1, 1, 2 * depth + 2 - i)).collect();
    records.extend(vec![ground(1); depth + 1]);
    records
}

#[test]
fn splits_above() {
    let sheet = sheet_bytes(1, &[vec![apart(1, 1)]]);
    assert_eq!(check(&sheet, &list_bytes(&nested(MOST_SPLITS_ABOVE))), Ok(Answer::Passes));
    let one_more = nested(MOST_SPLITS_ABOVE + 1);
    assert_eq!(check(&sheet, &list_bytes(&one_more)), Err(Refusal { check: 15, place: MOST_SPLITS_ABOVE + 1 }));
    // 11 comes before 15, and a ground under 1,024 splits is examined.
    let mut records = one_more.clone();
    records[MOST_SPLITS_ABOVE].first = 2;
    assert_eq!(check(&sheet, &list_bytes(&records)), Err(Refusal { check: 11, place: MOST_SPLITS_ABOVE + 1 }));
}

#[test]
fn splits_above_in_the_apart_branch_count() {
    let sheet = sheet_bytes(1, &[vec![apart(1, 1)]]);
    let chain = |depth: usize| -> Vec<Record> {
        let pairs = (0..depth).flat_map(|i| [split(1, 1, 2 * i + 3), ground(1)]);
        pairs.chain([ground(1)]).collect()
    };
    assert_eq!(check(&sheet, &list_bytes(&chain(1024))), Ok(Answer::Passes));
    assert_eq!(check(&sheet, &list_bytes(&chain(1025))), Err(Refusal { check: 15, place: 2049 }));
}
