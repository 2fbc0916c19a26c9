//! Document 02's job 5: lot 0 in terms, splits and groupings, each by hand.
mod searching;

use searching::{cannot, met_by};
use second::answer::{Answer, numbers};
use second::merge::merge_numbers;
use second::sheet::Term;
use second::store::{Record, ground, list_bytes, met, split};
use second::writer::{apart, same, sheet_bytes, sheet_bytes_among};
use second::{Refusal, check, evaluate, merge, read, repack, search};

const FILL: u8 = 0xA7;

#[test]
fn a_term_on_lot_0_alone() {
    // Sign 1 and nothing else: "same 0 0", with no other lot than lot 0. n doesn't count it.
    let same_0_0 = [0, 0, 1, 0, 1, 0, 1, 0, 1, 0, 0, 0, 0, 0, 0, 0];
    assert_eq!(sheet_bytes(0, &[vec![same(0, 0)]]), same_0_0);
    assert_eq!(numbers(&read(&same_0_0)), [0, 0, 1, 1]);
    met_by(0, &[vec![same(0, 0)]], &[met()], &[]);
    cannot(0, &[vec![apart(0, 0)]], &[ground(1)]);
    met_by(0, &[vec![apart(0, 0), same(0, 0)], vec![]], &[met()], &[]);
    // Eight zero bytes are vacant still.
    assert_eq!(read(&[&same_0_0[..8], [0; 8].as_slice()].concat()), Err(Refusal { check: 17, place: 1 }));
}

#[test]
fn lots_in_range_are_0_to_n() {
    for (lots, a, b) in [(0, 0, 0), (1, 0, 1), (1, 1, 0), (128, 0, 128), (128, 128, 0), (5, 0, 0)] {
        assert_eq!(numbers(&read(&sheet_bytes(lots, &[vec![apart(a, b)]]))), [0, lots as u32, 1, 1]);
    }
    for (lots, a, b) in [(0, 0, 1), (0, 1, 0), (0, 1, 1), (1, 0, 2), (1, 2, 0), (128, 0, 129), (128, 129, 0), (128, 256, 0), (128, 0, 256)]
    {
        assert_eq!(read(&sheet_bytes(lots, &[vec![same(0, 0)], vec![apart(a, b)]])), Err(Refusal { check: 5, place: 2 }));
    }
}

/// Document 01's sheets A to D with every lot's number one less: lot 0 is a lot among the others, and the smallest of them.
#[test]
fn the_sheets_of_document_01_one_lot_lower() {
    let a = [vec![same(0, 1)], vec![same(1, 2)], vec![apart(0, 2)]];
    cannot(2, &a, &[split(0, 1, 5), split(1, 2, 4), ground(3), ground(2), ground(1)]);
    let b = [vec![same(0, 1), apart(1, 2)], vec![same(0, 2), apart(0, 1), same(1, 2)], vec![apart(0, 2)]];
    met_by(2, &b, &[met()], &[1, 2]);
    let c = [vec![same(0, 1), same(0, 2)], vec![apart(0, 1)]];
    met_by(2, &c, &[split(0, 1, 3), ground(2), split(0, 2, 0), met()], &[1, 0]);
    let d = [
        vec![apart(0, 1), apart(1, 2), apart(2, 0)],
        vec![same(0, 1), same(1, 2)],
        vec![same(0, 1), same(2, 0)],
        vec![same(1, 2), same(2, 0)],
    ];
    cannot(2, &d, &[split(0, 1, 5), split(1, 2, 4), ground(1), ground(4), split(1, 2, 7), ground(3), ground(2)]);
}

#[test]
fn splits_have_the_lots_as_written() {
    cannot(1, &[vec![same(0, 1)], vec![apart(1, 0)]], &[split(0, 1, 3), ground(2), ground(1)]);
    cannot(1, &[vec![same(1, 0)], vec![apart(0, 1)]], &[split(1, 0, 3), ground(2), ground(1)]);
    met_by(3, &[vec![same(3, 0)]], &[split(3, 0, 0), met()], &[1, 2, 0]);
    met_by(3, &[vec![same(0, 3)]], &[split(0, 3, 0), met()], &[1, 2, 0]);
}

#[test]
fn a_lot_s_byte_is_0_exactly_where_it_is_with_lot_0() {
    met_by(4, &[vec![same(3, 0)], vec![same(2, 4)], vec![apart(1, 0)]], &[split(3, 0, 0), split(2, 4, 0), met()], &[1, 2, 0, 2]);
    // Joined to lot 0 through another lot, which is joined to it before or after.
    met_by(3, &[vec![same(2, 3)], vec![same(3, 0)]], &[split(2, 3, 0), split(3, 0, 0), met()], &[1, 0, 0]);
    met_by(3, &[vec![same(0, 3)], vec![same(3, 2)]], &[split(0, 3, 0), split(3, 2, 0), met()], &[1, 0, 0]);
    // No decision names lot 0: each lot is known by a lot from 1 on.
    met_by(3, &[vec![apart(0, 1)], vec![same(2, 3)]], &[split(2, 3, 0), met()], &[1, 2, 2]);
}

#[test]
fn chains_of_all_lots_down_to_lot_0() {
    let upwards: Vec<Vec<Term>> = (0..128).map(|lot| vec![same(lot, lot + 1)]).collect();
    let downwards: Vec<Vec<Term>> = upwards.iter().rev().cloned().collect();
    for conditions in [upwards, downwards] {
        let splits = conditions.iter().map(|condition| split(condition[0].a, condition[0].b, 0));
        let nodes: Vec<Record> = splits.chain([met()]).collect();
        met_by(128, &conditions, &nodes, &[0; 128]);
    }
}

/// "Two consignments are marked apart when some pair set apart has one lot in each": lot 0's class is marked by any of its lots, and by lot 0 for any of them.
#[test]
fn marks_of_lot_0_s_class() {
    // 0 1 same, then 0 2 apart: "same 1 2" is false.
    let conditions = [vec![same(0, 1)], vec![same(0, 2), same(1, 3)], vec![apart(2, 0)], vec![same(2, 1)]];
    cannot(3, &conditions, &[split(0, 1, 7), split(0, 2, 4), ground(3), split(1, 3, 6), ground(4), ground(2), ground(1)]);
    // Lots 1 and 2 apart, each of them may be with lot 0, and not both.
    let conditions = [vec![apart(1, 2)], vec![same(1, 0), same(2, 0)], vec![same(2, 0), same(1, 2)]];
    met_by(2, &conditions, &[split(1, 0, 5), split(2, 0, 4), ground(1), ground(3), split(2, 0, 0), met()], &[1, 0]);
}

#[test]
fn lot_0_has_the_number_0_in_every_grouping() {
    let conditions = [vec![same(0, 1), same(2, 0)], vec![apart(0, 2), apart(3, 0)], vec![apart(0, 0), same(0, 0)]];
    let sheet = sheet_bytes(3, &conditions);
    for (grouping, unmet) in
        [([0, 5, 0], 0), ([5, 0, 5], 0), ([5, 5, 5], 1), ([1, 1, 0], 1), ([255, 1, 0], 1), ([0, 0, 0], 2), ([9, 0, 0], 2)]
    {
        assert_eq!(numbers(&evaluate(&sheet, &grouping)), [0, unmet, 0, 0], "{grouping:?}");
        // Bytes past n are no lot's.
        for more in [0, 1, 255] {
            assert_eq!(numbers(&evaluate(&sheet, &[grouping.as_slice(), &[more]].concat())), [0, unmet, 0, 0], "{grouping:?} and {more}");
        }
    }
    for grouping in [[].as_slice(), &[0], &[7, 0], &[0, 7]] {
        assert_eq!(numbers(&evaluate(&sheet_bytes(0, &[vec![same(0, 0)]]), grouping)), [0; 4]);
        assert_eq!(numbers(&evaluate(&sheet_bytes(0, &[vec![], vec![apart(0, 0)]]), grouping)), [0, 2, 0, 0]);
    }
}

/// "The grouping still has n bytes, for lots 1 to n."
#[test]
fn the_grouping_has_no_byte_for_lot_0() {
    let sheet = sheet_bytes(2, &[vec![same(0, 0)]]);
    assert_eq!(search(&sheet, &mut [FILL], &mut [FILL; 8]), Err(Refusal { check: 8, place: 2 }));
    assert_eq!(evaluate(&sheet, &[FILL]), Err(Refusal { check: 8, place: 2 }));
    let mut grouping = [FILL; 2];
    assert_eq!(search(&sheet, &mut grouping, &mut [FILL; 8]), Ok(Answer::Met { count: 1 }));
    assert_eq!(grouping, [1, 2]);
}

/// same 0 1; same 1 2; apart 0 2.
fn sheet_a() -> Vec<u8> {
    sheet_bytes(2, &[vec![same(0, 1)], vec![same(1, 2)], vec![apart(0, 2)]])
}

#[test]
fn splits_of_a_list_name_lot_0_in_either_field() {
    let answer = |records: &[Record]| numbers(&check(&sheet_a(), &list_bytes(records)));
    let list = |first: Record, second: Record| [first, second, ground(3), ground(2), ground(1)];
    assert_eq!(answer(&list(split(0, 1, 5), split(1, 2, 4))), [0; 4]);
    assert_eq!(answer(&list(split(1, 0, 5), split(2, 1, 4))), [0; 4]);
    // 0 1 same and 0 2 same join 1 2 too; with 0 2 apart, "same 1 2" is false.
    assert_eq!(answer(&list(split(0, 1, 5), split(0, 2, 4))), [0; 4]);
    assert_eq!(answer(&list(split(0, 1, 5), split(2, 0, 4))), [0; 4]);
    // Lot 0 twice decides nothing: "apart 0 2" is open, and "same 1 2" is.
    assert_eq!(answer(&list(split(0, 1, 5), split(0, 0, 4))), [12, 3, 0, 0]);
    assert_eq!(answer(&list(split(0, 0, 5), split(1, 2, 4))), [12, 3, 0, 0]);
    assert_eq!(answer(&[split(0, 0, 3), ground(1)]), [12, 2, 0, 0]);
}

#[test]
fn fields_of_a_list_around_lot_0() {
    let answer = |record: Record| numbers(&check(&sheet_a(), &list_bytes(&[record, ground(1)])));
    for (a, b) in [(0, 3), (3, 0), (0, 256), (256, 0), (0, 65_535)] {
        assert_eq!(answer(split(a, b, 3)), [11, 1, 0, 0], "{a} {b}");
    }
    // There is no condition 0, and a ground's second is no lot.
    assert_eq!(answer(ground(0)), [11, 1, 0, 0]);
    assert_eq!(answer(Record { second: 1, ..ground(1) }), [11, 1, 0, 0]);
    // No lot but lot 0: splits on it are in range.
    let none = sheet_bytes(0, &[vec![apart(0, 0)]]);
    assert_eq!(check(&none, &list_bytes(&[split(0, 0, 3), ground(1), ground(1)])), Ok(Answer::Passes));
    assert_eq!(check(&none, &list_bytes(&[split(0, 1, 3), ground(1), ground(1)])), Err(Refusal { check: 11, place: 1 }));
    assert_eq!(check(&none, &list_bytes(&[split(1, 0, 3), ground(1), ground(1)])), Err(Refusal { check: 11, place: 1 }));
}

#[test]
fn packed_sheets_keep_terms_on_lot_0() {
    // Three records: two vacant ones, then "same 0 0", which has one byte more than they have.
    let sheet = sheet_bytes_among(0, &[vec![same(0, 0)], vec![]], &[3], 3);
    let mut out = [FILL; 19];
    assert_eq!(numbers(&repack(&sheet, &mut out)), [0, 18, 0, 0]);
    assert_eq!(out, [0, 0, 2, 0, 1, 0, 1, 0, 0, 0, 1, 0, 0, 0, 0, 0, 0, 0, FILL]);
}

#[test]
fn merged_sheets_keep_terms_on_lot_0() {
    let merged = |first: &[u8], second: &[u8]| {
        let mut out = vec![FILL; first.len() + second.len()];
        let [0, length, 0, 0] = merge_numbers(&merge(first, second, &mut out)) else { panic!("two sheets that are accepted, and room") };
        out.truncate(length as usize);
        out
    };
    // Lots in the other order, the other sign, another lot: none is a repeat of another. "same 0 1" is one of itself, and what is withdrawn
    // stays.
    let all = [vec![same(0, 1)], vec![same(1, 0)], vec![apart(0, 1)], vec![same(0, 0)], vec![same(1, 1)], vec![]];
    let again = [all[3].clone(), all[0].clone(), all[5].clone()];
    assert_eq!(merged(&sheet_bytes(1, &all), &sheet_bytes(4, &again)), sheet_bytes(4, &[&all[..], &[vec![]]].concat()));
    // No lots in one of them, or in both.
    let none = sheet_bytes(0, &[vec![same(0, 0)]]);
    assert_eq!(merged(&none, &sheet_bytes(3, &[vec![apart(0, 3)]])), sheet_bytes(3, &[vec![same(0, 0)], vec![apart(0, 3)]]));
    assert_eq!(
        merged(&none, &sheet_bytes(0, &[vec![apart(0, 0)], vec![same(0, 0)]])),
        sheet_bytes(0, &[vec![same(0, 0)], vec![apart(0, 0)]])
    );
}
