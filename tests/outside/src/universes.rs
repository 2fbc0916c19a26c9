//! Very small universes, whole: all sheets with few lots, conditions and records whose fields lie in a small range, and all lists of few values. Lot 0 is among
//! the lots.
use second::sheet::Term;

/// All lists of `length` values out of `values`.
pub fn each<T: Clone>(values: &[T], length: usize, visit: &mut impl FnMut(&[T])) {
    fn extend<T: Clone>(values: &[T], length: usize, chosen: &mut Vec<T>, visit: &mut impl FnMut(&[T])) {
        if chosen.len() == length {
            return visit(chosen);
        }
        for value in values {
            chosen.push(value.clone());
            extend(values, length, chosen, visit);
            chosen.pop();
        }
    }
    extend(values, length, &mut Vec::new(), visit);
}

/// Term records with each field in its range, both ends included.
fn records(signs: (u8, u8), most_spare: u8, a: (u8, u8), b: (u8, u8), most_next: u8) -> Vec<Vec<u8>> {
    let mut all = Vec::new();
    for sign in signs.0..=signs.1 {
        for spare in 0..=most_spare {
            for a in a.0..=a.1 {
                for b in b.0..=b.1 {
                    all.extend((0..=most_next).map(|next| vec![sign, spare, a, 0, b, 0, next, 0]));
                }
            }
        }
    }
    all
}

/// The vacant record, and those that have one byte other than zero: of these, the one with a sign is the term "same 0 0".
fn nearly_vacant() -> Vec<Vec<u8>> {
    let one_byte = |at: usize| (0..8).map(|byte| u8::from(byte == at)).collect();
    [vec![vec![0; 8]], (0..8).map(one_byte).collect()].concat()
}

/// Records that have one field out of range: the sign, or a lot.
fn out_of_range(lots: u8) -> Vec<Vec<u8>> {
    vec![vec![3, 0, 0, 0, 0, 0, 0, 0], vec![1, 0, lots + 1, 0, 0, 0, 0, 0], vec![1, 0, 0, 0, lots + 1, 0, 0, 0]]
}

/// All sheets with so many lots, conditions and records, heads up to one past the last record, and records out of these.
fn all_sheets(lots: u8, conditions: u8, terms: usize, records: &[Vec<u8>], visit: &mut impl FnMut(Vec<u8>)) {
    let heads: Vec<u8> = (0..=terms as u8 + 1).collect();
    each(&heads, usize::from(conditions), &mut |heads| {
        each(records, terms, &mut |records| {
            let mut sheet = vec![lots, 0, conditions, 0, terms as u8, 0];
            sheet.extend(heads.iter().flat_map(|&head| [head, 0]));
            sheet.extend(records.iter().flatten());
            visit(sheet);
        });
    });
}

/// All sheets of up to 2 lots, conditions and records, their fields in and around what is accepted; and all of 3 records that are vacant or one term, "same 1
/// 1" or "same 0 0", so that chains come to vacant records and back to their own in every order.
pub fn all_small_sheets(visit: &mut impl FnMut(Vec<u8>)) {
    for conditions in 0..=2 {
        for lots in 0..=2 {
            all_sheets(lots, conditions, 0, &[], visit);
            all_sheets(lots, conditions, 1, &records((0, 3), 1, (0, lots + 1), (0, lots + 1), 2), visit);
            let two = [records((1, 2), 0, (0, lots), (0, lots), 3), nearly_vacant(), out_of_range(lots)].concat();
            all_sheets(lots, conditions, 2, &two, visit);
        }
        for lot in 0..=1 {
            let three = [records((1, 1), 0, (lot, lot), (lot, lot), 3), vec![vec![0; 8]]].concat();
            all_sheets(lot, conditions, 3, &three, visit);
        }
    }
}

/// All conditions of up to two of these terms: the one with none is withdrawn.
pub fn conditions_of(terms: &[Term]) -> Vec<Vec<Term>> {
    let mut all = Vec::new();
    (0..=2).for_each(|length| each(terms, length, &mut |condition| all.push(condition.to_vec())));
    all
}
