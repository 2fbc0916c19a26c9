//! Every sheet of document 01's "Sheets to try"; that with a zero head as document 02 turns it.
mod searching;

use searching::{cannot, met_by};
use second::answer::Answer;
use second::sheet::Term;
use second::store::{ground, met, split};
use second::writer::{apart, same, sheet_bytes};
use second::{Refusal, read, search};

const FILL: u8 = 0xA7;

fn sheet_c() -> Vec<Vec<Term>> {
    vec![vec![same(1, 2), same(1, 3)], vec![apart(1, 2)]]
}

#[test]
fn sheet_a() {
    let conditions = [vec![same(1, 2)], vec![same(2, 3)], vec![apart(1, 3)]];
    cannot(3, &conditions, &[split(1, 2, 5), split(2, 3, 4), ground(3), ground(2), ground(1)]);
}

#[test]
fn sheet_b() {
    let conditions = [vec![same(1, 2), apart(2, 3)], vec![same(1, 3), apart(1, 2), same(2, 3)], vec![apart(1, 3)]];
    met_by(3, &conditions, &[met()], &[1, 2, 3]);
}

#[test]
fn sheet_c_in_the_paper_s_bytes() {
    let bytes = [3, 0, 2, 0, 3, 0, 1, 0, 3, 0, 1, 0, 1, 0, 2, 0, 2, 0, 1, 0, 1, 0, 3, 0, 0, 0, 2, 0, 1, 0, 2, 0, 0, 0];
    assert_eq!(sheet_bytes(3, &sheet_c()), bytes);
    assert_eq!(read(&bytes), Ok(Answer::Accepted { lots: 3, conditions: 2, terms: 3 }));
    met_by(3, &sheet_c(), &[split(1, 2, 3), ground(2), split(1, 3, 0), met()], &[1, 2, 1]);
}

#[test]
fn sheet_c_with_room_for_three() {
    let (mut grouping, mut store) = ([FILL; 4], [FILL; 31]);
    assert_eq!(search(&sheet_bytes(3, &sheet_c()), &mut grouping, &mut store), Err(Refusal { check: 9, place: 3 }));
    assert_eq!(grouping, [FILL; 4]);
    assert_eq!(store[..24], [0; 24]);
    assert_eq!(store[24..], [FILL; 7]);
}

#[test]
fn sheet_d() {
    let conditions = [
        vec![apart(1, 2), apart(2, 3), apart(3, 1)],
        vec![same(1, 2), same(2, 3)],
        vec![same(1, 2), same(3, 1)],
        vec![same(2, 3), same(3, 1)],
    ];
    cannot(3, &conditions, &[split(1, 2, 5), split(2, 3, 4), ground(1), ground(4), split(2, 3, 7), ground(3), ground(2)]);
}

#[test]
fn the_small_ones() {
    met_by(0, &[], &[met()], &[]);
    // Document 02: "The starred sheet with one zero head becomes met, 1."
    met_by(0, &[vec![]], &[met()], &[]);
    met_by(1, &[vec![same(1, 1)]], &[met()], &[1]);
    cannot(1, &[vec![apart(1, 1)]], &[ground(1)]);
}

#[test]
fn most_lots() {
    assert_eq!(read(&sheet_bytes(128, &[])), Ok(Answer::Accepted { lots: 128, conditions: 0, terms: 0 }));
    assert_eq!(read(&sheet_bytes(129, &[])), Err(Refusal { check: 2, place: 1 }));
}

#[test]
fn a_record_whose_next_is_itself() {
    let mut sheet = sheet_bytes(1, &[vec![same(1, 1)]]);
    sheet[14] = 1;
    assert_eq!(read(&sheet), Err(Refusal { check: 6, place: 1 }));
}
