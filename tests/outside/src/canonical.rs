//! Laws of canonical bytes, on the archive. The second implementation's reader and writer serve to put a sheet's records at other places.
use crate::case::Case;
use crate::compare::{Repacked, Searched, plain, searched_on};
use crate::guarded::Guarded;
use lihumbay::raw;
use second::limits::{HEAD_LENGTH, HEADER_LENGTH, MOST_TERMS, TERM_LENGTH};
use second::reader::accept;
use second::writer::sheet_bytes_among;

/// The canonical bytes, in exactly the room that check 16 asks for; none of a sheet that the reader refuses too.
pub fn canonical(sheet: &[u8]) -> Result<Option<Vec<u8>>, String> {
    let asked = plain(raw::repack(sheet, &mut []));
    let [16, length, 0, 0] = asked else {
        let refused = asked[0] != 0 && asked == plain(raw::read(sheet));
        return if refused { Ok(None) } else { Err(format!("with no room the repacker gives {asked:?}")) };
    };
    let mut out = Guarded::new(length as usize, 0);
    let answer = plain(raw::repack(sheet, out.inside()));
    if answer != [0, length, 0, 0] || !out.is_intact() {
        return Err(format!("with the {length} bytes that it asked for, the repacker gives {answer:?} or writes beside them"));
    }
    Ok(Some(out.inside().to_vec()))
}

/// Every law of the canonical bytes of a case. `found` and `repacked` are what the search and the repacker gave on the case itself.
pub fn canonical_laws(case: &Case, found: &Searched, repacked: &Repacked) -> Result<(), String> {
    let Some(canonical) = canonical(&case.sheet)? else { return Ok(()) };
    if repacked.answer[0] == 0 && repacked.out[..canonical.len()] != canonical {
        return Err("the canonical bytes depend on the room".into());
    }
    read_alike(&case.sheet, &canonical)?;
    if !is_in_order(&canonical) {
        return Err("the canonical sheet's records are not in order".into());
    }
    answered_alike(case, &canonical, found)?;
    written_once(&case.sheet, &canonical)
}

/// The reader answers the canonical sheet as it answers the sheet, except for k, which counts no vacant record: each of them makes the sheet longer by a
/// record.
fn read_alike(sheet: &[u8], canonical: &[u8]) -> Result<(), String> {
    let ([check, lots, conditions, records], packed) = (plain(raw::read(sheet)), plain(raw::read(canonical)));
    let vacant = sheet[HEADER_LENGTH + HEAD_LENGTH * conditions as usize..]
        .chunks(TERM_LENGTH)
        .filter(|record| **record == [0; TERM_LENGTH])
        .count();
    if packed != [check, lots, conditions, records - vacant as u32] || sheet.len() != canonical.len() + TERM_LENGTH * vacant {
        return Err("the canonical sheet is not read as the sheet is, or has not one record less for each vacant one".into());
    }
    Ok(())
}

/// Search, with every byte of both buffers, evaluator, count of unmet conditions and checker answer the canonical sheet as they answer the sheet.
fn answered_alike(case: &Case, canonical: &[u8], found: &Searched) -> Result<(), String> {
    let evaluated = raw::evaluate(canonical, &case.grouping) == raw::evaluate(&case.sheet, &case.grouping);
    let counted = raw::count_unmet(canonical, &case.grouping) == raw::count_unmet(&case.sheet, &case.grouping);
    let checked = raw::check(canonical, &case.list) == raw::check(&case.sheet, &case.list);
    if searched_on(canonical, case) != *found || !evaluated || !counted || !checked {
        return Err("the canonical sheet is not answered as the sheet is".into());
    }
    Ok(())
}

/// Repacking the canonical sheet changes no byte, and the same conditions with their records the other way round have the same canonical bytes.
fn written_once(sheet: &[u8], expected: &[u8]) -> Result<(), String> {
    for (bytes, what) in [(expected, "the canonical sheet"), (&turned(sheet), "the sheet with its records turned round")] {
        if canonical(bytes)?.as_deref() != Some(expected) {
            return Err(format!("{what} has other canonical bytes than the sheet"));
        }
    }
    Ok(())
}

/// The same lots and conditions, the last term's record first, and before each record a vacant one, where there is room.
fn turned(sheet: &[u8]) -> Vec<u8> {
    let sheet = accept(sheet).expect("a sheet that the archive accepts");
    let terms: usize = sheet.conditions.iter().map(Vec::len).sum();
    let apart = if 2 * terms <= MOST_TERMS { 2 } else { 1 };
    let order: Vec<usize> = (1..=terms).rev().map(|number| apart * number).collect();
    sheet_bytes_among(sheet.lots, &sheet.conditions, &order, apart * terms)
}

/// "the records of condition 1 first, in chain order, then condition 2, and so on, each chain running through neighbouring numbers"
fn is_in_order(canonical: &[u8]) -> bool {
    let two_bytes = |at: usize| usize::from(u16::from_le_bytes([canonical[at], canonical[at + 1]]));
    let heads_end = HEADER_LENGTH + HEAD_LENGTH * two_bytes(2);
    let mut last = 0;
    for head in (HEADER_LENGTH..heads_end).step_by(HEAD_LENGTH) {
        let mut record = two_bytes(head);
        while record != 0 {
            if record != last + 1 {
                return false;
            }
            last = record;
            record = two_bytes(heads_end + TERM_LENGTH * record - 2);
        }
    }
    last == two_bytes(4)
}

#[cfg(test)]
mod tests {
    use super::is_in_order;

    #[test]
    fn order_is_told() {
        let one_after_the_other = [1, 0, 2, 0, 2, 0, 1, 0, 2, 0, 1, 0, 1, 0, 1, 0, 0, 0, 2, 0, 1, 0, 1, 0, 0, 0];
        assert!(is_in_order(&one_after_the_other));
        let with_heads = |heads: [u8; 4]| [&one_after_the_other[..6], &heads, &one_after_the_other[10..]].concat();
        assert!(!is_in_order(&with_heads([2, 0, 1, 0])));
        assert!(!is_in_order(&with_heads([1, 0, 0, 0])));
    }
}
