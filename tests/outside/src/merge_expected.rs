//! Conditions of two sheets, and what both merges are held to make of them.
use crate::merge_laws::merge_laws;
use crate::merged::{compare_merge, merged};
use crate::pairs::Conditions;
use crate::random::Random;
use second::limits::MOST_TERMS;
use second::sheet::Term;
use second::writer::{apart, same, sheet_bytes, sheet_bytes_among};

/// So many conditions of one term, all different, from this number on.
pub fn different(from: usize, count: usize) -> Conditions {
    (from..from + count).map(|number| vec![same(number / 128 + 1, number % 128 + 1)]).collect()
}

/// Two sheets of 128 lots, records in any order and with vacant ones where there is room, come to a sheet of 128 lots with these conditions.
pub fn come_to(first: &[Vec<Term>], second: &[Vec<Term>], expected: &[Vec<Term>], random: &mut Random) {
    let (one, other) = (scattered(first, random), scattered(second, random));
    let whole = sheet_bytes(128, expected);
    let before = random.bytes(whole.len() + 3);
    assert_eq!(compare_merge(&one, &other, &before), Ok([0, whole.len() as u32, 0, 0]));
    let after = merged(&one, &other, &before).out;
    assert_eq!((&after[..whole.len()], &after[whole.len()..]), (whole.as_slice(), &before[whole.len()..]));
    assert_eq!(compare_merge(&one, &other, &before[..whole.len() - 1]), Ok([19, whole.len() as u32, 0, 0]));
    merge_laws(&one, &other, random).expect("laws of a merge");
}

/// The conditions as a sheet of 128 lots with its records in a random order.
fn scattered(conditions: &[Vec<Term>], random: &mut Random) -> Vec<u8> {
    let terms: usize = conditions.iter().map(Vec::len).sum();
    let count = (terms + 5).min(MOST_TERMS);
    let mut places: Vec<usize> = (1..=count).collect();
    random.shuffle(&mut places);
    sheet_bytes_among(128, conditions, &places[..terms], count)
}

/// Two such sheets are refused by 18 at this place, whatever the room.
pub fn above(first: &[Vec<Term>], second: &[Vec<Term>], place: u32, random: &mut Random) {
    let (one, other) = (scattered(first, random), scattered(second, random));
    for room in [0, 6, one.len() + other.len(), 20_000] {
        let before = random.bytes(room);
        assert_eq!(compare_merge(&one, &other, &before), Ok([18, place, 0, 0]));
        assert_eq!(compare_merge(&other, &one, &before), Ok([18, place, 0, 0]));
    }
}

/// One condition with so many terms, of which the last is of this lot.
pub fn long(terms: usize, lot: usize) -> Conditions {
    vec![[vec![same(1, 2); terms - 1], vec![apart(1, lot)]].concat()]
}
