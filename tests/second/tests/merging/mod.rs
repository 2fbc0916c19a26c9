//! Two sheets and what they are held to come to: answer, and every byte of the output.
use second::answer::Answer;
use second::merge::MergeRefusal;
use second::sheet::Term;
use second::writer::{apart, same, sheet_bytes};
use second::{Refusal, merge};

pub const FILL: u8 = 0xA7;

/// The merged sheet, in an output that has room for five more bytes; those stay as they were.
pub fn merged(first: &[u8], second: &[u8]) -> Vec<u8> {
    let mut out = vec![FILL; first.len() + second.len() + 5];
    let Ok(Answer::Written { length }) = merge(first, second, &mut out) else {
        panic!("two sheets that are accepted, and room for the merged one")
    };
    assert!(out[length..].iter().all(|&byte| byte == FILL));
    out.truncate(length);
    out
}

/// Two sheets with so many lots and these conditions merge into one that has the expected conditions.
pub fn merges_to(lots: usize, first: &[&[Term]], second: &[&[Term]], expected: &[&[Term]]) {
    let sheet = |conditions: &[&[Term]]| sheet_bytes(lots, &conditions.iter().map(|terms| terms.to_vec()).collect::<Vec<_>>());
    assert_eq!(merged(&sheet(first), &sheet(second)), sheet(expected));
}

/// The two are refused so with this much room, and no byte is written.
pub fn refused(first: &[u8], second: &[u8], room: usize, check: u32, place: usize, sheet: usize) {
    let mut out = vec![FILL; room];
    let refusal = Refusal { check, place };
    assert_eq!(merge(first, second, &mut out), Err(MergeRefusal { refusal, sheet }), "room for {room} bytes");
    assert!(out.iter().all(|&byte| byte == FILL));
}

/// Document 01's sheet C, in its bytes: (same 1 2 or same 1 3) and (apart 1 2), three lots.
pub const C: [u8; 34] = [3, 0, 2, 0, 3, 0, 1, 0, 3, 0, 1, 0, 1, 0, 2, 0, 2, 0, 1, 0, 1, 0, 3, 0, 0, 0, 2, 0, 1, 0, 2, 0, 0, 0];

/// Sheet C with condition 1 withdrawn: its two records are vacant.
pub const C_WITHDRAWN: [u8; 34] = [3, 0, 2, 0, 3, 0, 0, 0, 3, 0, 0, 0, 0, 0, 0, 0, 0, 0, 0, 0, 0, 0, 0, 0, 0, 0, 2, 0, 1, 0, 2, 0, 0, 0];

/// The first so many of 512 conditions that all differ, a term each, over 128 lots.
pub fn different(count: usize) -> Vec<Vec<Term>> {
    let kinds = [same, apart].into_iter().flat_map(|kind| (1..=2).map(move |b| (kind, b)));
    let all = kinds.flat_map(|(kind, b)| (1..=128).map(move |a| vec![kind(a, b)]));
    all.take(count).collect()
}
