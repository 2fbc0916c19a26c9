//! Laws of the archive that need no second implementation.
use crate::canonical::canonical_laws;
use crate::case::Case;
use crate::compare::{Repacked, Searched, plain, repacked, repacked_on, searched};
use lihumbay::raw;
use second::limits::{MOST_LOTS, NODE_LENGTH, SPLIT, ZERO_LOT};
use second::store::Record;
use std::hint::black_box;

const PASSES: [u32; 4] = [0, 0, 0, 0];
/// Up to this many lots beside lot 0, every grouping is tried.
pub const FEW_LOTS: usize = 5;

/// Every law, on the answers and buffers of one case.
pub fn laws(case: &Case) -> Result<(), String> {
    let sheet = case.sheet.clone();
    let list = case.list.clone();
    let (found, repacked) = (searched(case), repacked(case));
    twice(case, &found, &repacked)?;
    surrounded(case, &repacked)?;
    verdict(case, &found)?;
    counted(&case.sheet, &case.grouping)?;
    zero_lot(case, &found)?;
    untouched(usize::from(*case.sheet.first().unwrap_or(&0)), case.fill, &found)?;
    output_untouched(case, &repacked)?;
    brute_force(case, &found)?;
    canonical_laws(case, &found, &repacked)?;
    // Without the black box the compiler may take it for granted that what is lent to be read stays.
    if sheet != *black_box(&case.sheet) || list != *black_box(&case.list) {
        return Err("an input that is only read was changed".into());
    }
    Ok(())
}

/// The same call gives the same.
fn twice(case: &Case, found: &Searched, written: &Repacked) -> Result<(), String> {
    if searched(case) != *found {
        return Err("the same search gave two answers".into());
    }
    if raw::check(&case.sheet, &case.list) != raw::check(&case.sheet, &case.list) {
        return Err("the same check gave two answers".into());
    }
    if repacked(case) != *written {
        return Err("the same sheet was repacked in two ways".into());
    }
    Ok(())
}

/// The same bytes at an odd address, among others that are not lent, give the same answers.
fn surrounded(case: &Case, written: &Repacked) -> Result<(), String> {
    for around in [0x00, 0xFF, 0x01] {
        let (sheet, list) = (among(&case.sheet, around), among(&case.list, around));
        let (sheet, list) = (&sheet[AROUND..AROUND + case.sheet.len()], &list[AROUND..AROUND + case.list.len()]);
        let evaluates_as_before = raw::evaluate(sheet, &case.grouping) == raw::evaluate(&case.sheet, &case.grouping);
        let counts_as_before = raw::count_unmet(sheet, &case.grouping) == raw::count_unmet(&case.sheet, &case.grouping);
        if raw::read(sheet) != raw::read(&case.sheet)
            || !evaluates_as_before
            || !counts_as_before
            || raw::check(sheet, list) != raw::check(&case.sheet, &case.list)
            || repacked_on(sheet, case) != *written
        {
            return Err("an answer depends on bytes that were not lent".into());
        }
    }
    Ok(())
}

pub(crate) const AROUND: usize = 5;

pub(crate) fn among(bytes: &[u8], around: u8) -> Vec<u8> {
    [&[around; AROUND], bytes, &[around; 16]].concat()
}

/// Met: the grouping meets the sheet. Cannot: the records are a refutation.
fn verdict(case: &Case, found: &Searched) -> Result<(), String> {
    match found.answer {
        [0, 1, _, _] if plain(raw::evaluate(&case.sheet, &found.grouping)) != PASSES => Err("the grouping does not meet the sheet".into()),
        [0, 2, count, _] if plain(raw::check(&case.sheet, &found.store[..NODE_LENGTH * count as usize])) != PASSES => {
            Err("the records of a sheet that cannot be met are no refutation".into())
        }
        _ => Ok(()),
    }
}

/// The count of unmet conditions is refused as the evaluator is. It is 0 exactly where the evaluator answers 0, and no more than the conditions from the
/// evaluator's on, which is the lowest that isn't met.
pub(crate) fn counted(sheet: &[u8], grouping: &[u8]) -> Result<(), String> {
    let ([.., conditions, _], evaluated, counted) =
        (plain(raw::read(sheet)), plain(raw::evaluate(sheet, grouping)), plain(raw::count_unmet(sheet, grouping)));
    let stands = match (evaluated, counted) {
        ([0, 0, ..], counted) => counted == PASSES,
        ([0, lowest, ..], [0, count, 0, 0]) => (1..=conditions + 1 - lowest).contains(&count),
        (refused, counted) => refused == counted && refused[0] != 0,
    };
    if stands { Ok(()) } else { Err(format!("the evaluator gives {evaluated:?}, and the count is {counted:?} of {conditions}")) }
}

/// Met: a lot's byte is 0 exactly where the pairs set same above the met node lead from it to lot 0.
fn zero_lot(case: &Case, found: &Searched) -> Result<(), String> {
    let [0, 1, _, _] = found.answer else { return Ok(()) };
    let pairs = same_pairs(&found.store);
    let mut reached = [false; MOST_LOTS + 1];
    reached[ZERO_LOT] = true;
    while let Some(&(a, b)) = pairs.iter().find(|&&(a, b)| reached[a] != reached[b]) {
        (reached[a], reached[b]) = (true, true);
    }
    let lots = usize::from(case.sheet[0]);
    match (1..=lots).find(|&lot| (found.grouping[lot - 1] == 0) != reached[lot]) {
        None => Ok(()),
        Some(lot) => Err(format!("lot {lot} is with lot 0: {}; its byte is {}", reached[lot], found.grouping[lot - 1])),
    }
}

/// The pairs set same above the met node: a split above it whose next is 0 is in its same branch, any other in its apart branch, which begins at next.
fn same_pairs(store: &[u8]) -> Vec<(usize, usize)> {
    let (mut pairs, mut number) = (Vec::new(), 1);
    loop {
        let record = Record::from_bytes(&store[NODE_LENGTH * (number - 1)..NODE_LENGTH * number]);
        match (record.kind, usize::from(record.next)) {
            (SPLIT, 0) => {
                pairs.push((usize::from(record.first), usize::from(record.second)));
                number += 1;
            }
            (SPLIT, next) => number = next,
            _ => return pairs,
        }
    }
}

/// Bytes that a search of a sheet with so many lots is not to write have what they had.
pub(crate) fn untouched(lots: usize, fill: u8, found: &Searched) -> Result<(), String> {
    let (grouping_written, store_written) = match found.answer {
        [0, 1, count, _] => (lots, NODE_LENGTH * count as usize),
        [0, 2, count, _] => (0, NODE_LENGTH * count as usize),
        [9, room, _, _] => (0, NODE_LENGTH * room as usize),
        _ => (0, 0),
    };
    if !is_filled(&found.grouping[grouping_written..], fill) || !is_filled(&found.store[store_written..], fill) {
        return Err("a byte past the written part was changed".into());
    }
    if found.answer[0] == 9 && found.store[..store_written].iter().any(|&byte| byte != 0) {
        return Err("a full store's records are not all zero".into());
    }
    Ok(())
}

/// The output has what it had past what the answer says was written, and everywhere where a check refused.
fn output_untouched(case: &Case, repacked: &Repacked) -> Result<(), String> {
    let written = match repacked.answer {
        [0, length, ..] => length as usize,
        _ => 0,
    };
    if is_filled(&repacked.out[written..], case.fill) {
        Ok(())
    } else {
        Err("a byte of the output past the packed sheet was changed".into())
    }
}

fn is_filled(bytes: &[u8], fill: u8) -> bool {
    bytes.iter().all(|&byte| byte == fill)
}

/// With few lots: some grouping meets the sheet exactly where the search says so.
fn brute_force(case: &Case, found: &Searched) -> Result<(), String> {
    let [0, verdict, _, _] = found.answer else { return Ok(()) };
    let lots = usize::from(case.sheet[0]);
    if lots > FEW_LOTS {
        return Ok(());
    }
    let some = groupings(lots).iter().any(|grouping| plain(raw::evaluate(&case.sheet, grouping)) == PASSES);
    if some == (verdict == 1) { Ok(()) } else { Err(format!("the search says {verdict}, but some grouping meets the sheet: {some}")) }
}

/// Every way to split the lots, lot 0 among them, into classes, each class known by its smallest lot: the bytes of lots 1 to n.
pub fn groupings(lots: usize) -> Vec<Vec<u8>> {
    let mut all = vec![vec![]];
    for lot in 1..=lots as u8 {
        all = all.iter().flat_map(|grouping| one_lot_more(grouping, lot)).collect();
    }
    all
}

fn one_lot_more(grouping: &[u8], lot: u8) -> Vec<Vec<u8>> {
    let mut choices: Vec<u8> = [grouping, &[0, lot]].concat();
    choices.sort_unstable();
    choices.dedup();
    choices.into_iter().map(|choice| [grouping, &[choice]].concat()).collect()
}

#[cfg(test)]
mod tests {
    use super::groupings;

    #[test]
    fn there_are_as_many_groupings_as_partitions() {
        let counts: Vec<usize> = (0..=5).map(|lots| groupings(lots).len()).collect();
        assert_eq!(counts, [1, 2, 5, 15, 52, 203], "partitions of one lot more, since lot 0 is one of them");
    }
}
