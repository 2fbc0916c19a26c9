//! The bytes of a sheet: canonical, in the order of document 02's job 1, or for tests with the records in any order and vacant ones among them.
use crate::limits::{APART, SAME, TERM_LENGTH};
use crate::sheet::{Sign, Term};

pub const fn same(a: usize, b: usize) -> Term {
    Term { sign: Sign::Same, a, b }
}

pub const fn apart(a: usize, b: usize) -> Term {
    Term { sign: Sign::Apart, a, b }
}

/// "Fix the order: the records of condition 1 first, in chain order, then condition 2, and so on, each chain running through neighbouring numbers." There is a
/// record for each term and no other, and a withdrawn condition's head is zero.
pub fn sheet_bytes(lots: usize, conditions: &[Vec<Term>]) -> Vec<u8> {
    let terms = conditions.iter().map(Vec::len).sum();
    let order: Vec<usize> = (1..=terms).collect();
    sheet_bytes_in(lots, conditions, &order)
}

/// The sheet whose i-th term, in the order of the conditions and their terms, has the record number `order[i - 1]`.
pub fn sheet_bytes_in(lots: usize, conditions: &[Vec<Term>], order: &[usize]) -> Vec<u8> {
    sheet_bytes_among(lots, conditions, order, order.len())
}

/// As `sheet_bytes_in`, with so many records in all: a record that no term has is vacant.
pub fn sheet_bytes_among(lots: usize, conditions: &[Vec<Term>], order: &[usize], count: usize) -> Vec<u8> {
    let mut heads = Vec::new();
    let mut records = vec![[0u8; TERM_LENGTH]; count];
    let mut passed = 0;
    for condition in conditions {
        heads.push(if condition.is_empty() { 0 } else { order[passed] });
        for (i, term) in condition.iter().enumerate() {
            let next = if i + 1 < condition.len() { order[passed + i + 1] } else { 0 };
            records[order[passed + i] - 1] = record(term, next);
        }
        passed += condition.len();
    }
    let mut bytes = Vec::new();
    for number in [lots, conditions.len(), count].into_iter().chain(heads) {
        bytes.extend_from_slice(&two_bytes(number));
    }
    bytes.extend(records.iter().flatten());
    bytes
}

fn record(term: &Term, next: usize) -> [u8; TERM_LENGTH] {
    let sign = match term.sign {
        Sign::Same => SAME,
        Sign::Apart => APART,
    };
    let ([a, a_high], [b, b_high], [next, next_high]) = (two_bytes(term.a), two_bytes(term.b), two_bytes(next));
    [sign, 0, a, a_high, b, b_high, next, next_high]
}

fn two_bytes(number: usize) -> [u8; 2] {
    u16::try_from(number).expect("a number of two bytes").to_le_bytes()
}
