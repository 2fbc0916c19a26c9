//! Laws of the services with a limit on the number of classes that need no second implementation.
use crate::canonical::canonical;
use crate::compare::{Searched, plain};
use crate::depth::{records, splits_above};
use crate::laws::{AROUND, FEW_LOTS, among, groupings, untouched};
use crate::limited::{Limited, is_admitted, lots, searched, searched_on, searched_without};
use lihumbay::raw;
use second::limits::{CLIQUE, MOST_SPLITS_ABOVE, NODE_LENGTH, SPLIT};
use std::collections::BTreeSet;
use std::hint::black_box;

const PASSES: [u32; 4] = [0, 0, 0, 0];
/// A list with up to so many records is tried with every smaller limit.
const FEW_RECORDS: usize = 300;

/// Every law, on the answers and buffers of one input.
pub fn limited_laws(limited: &Limited) -> Result<(), String> {
    let (sheet, list) = (limited.sheet.clone(), limited.list.clone());
    let found = searched(limited);
    twice(limited, &found)?;
    surrounded(limited, &found)?;
    packed(limited, &found)?;
    untouched(lots(&limited.sheet), limited.fill, &found)?;
    met(limited, &found)?;
    cannot(limited, &found)?;
    brute_force(limited, &found)?;
    without_limit(limited, &found)?;
    // Without the black box the compiler may take it for granted that what is lent to be read stays.
    if sheet != *black_box(&limited.sheet) || list != *black_box(&limited.list) {
        return Err("an input that is only read was changed".into());
    }
    Ok(())
}

fn checked(limited: &Limited, sheet: &[u8], list: &[u8]) -> [u32; 4] {
    plain(raw::check_limited(sheet, limited.limit, list))
}

/// The same call gives the same.
fn twice(limited: &Limited, found: &Searched) -> Result<(), String> {
    let Limited { sheet, list, .. } = limited;
    let same = searched(limited) == *found && checked(limited, sheet, list) == checked(limited, sheet, list);
    if same { Ok(()) } else { Err("the same call gave two answers".into()) }
}

/// The same bytes at an odd address, among others that are not lent, give the same answers.
fn surrounded(limited: &Limited, found: &Searched) -> Result<(), String> {
    for around in [0x00, 0xFF] {
        let (sheet, list) = (among(&limited.sheet, around), among(&limited.list, around));
        let (sheet, list) = (&sheet[AROUND..AROUND + limited.sheet.len()], &list[AROUND..AROUND + limited.list.len()]);
        if searched_on(sheet, limited) != *found || checked(limited, sheet, list) != checked(limited, &limited.sheet, &limited.list) {
            return Err("an answer depends on bytes that were not lent".into());
        }
    }
    Ok(())
}

/// A sheet and its packed bytes are answered alike.
fn packed(limited: &Limited, found: &Searched) -> Result<(), String> {
    let Some(packed) = canonical(&limited.sheet)? else { return Ok(()) };
    let alike = searched_on(&packed, limited) == *found
        && checked(limited, &packed, &limited.list) == checked(limited, &limited.sheet, &limited.list);
    if alike { Ok(()) } else { Err("the packed sheet is answered in another way".into()) }
}

/// How many different numbers lots 0 to n have.
pub fn classes(grouping: &[u8]) -> usize {
    grouping.iter().chain(&[0]).collect::<BTreeSet<_>>().len()
}

/// Met: the grouping meets the sheet, and has at most as many different numbers as the limit says, lot 0's among them.
fn met(limited: &Limited, found: &Searched) -> Result<(), String> {
    let [0, 1, _, _] = found.answer else { return Ok(()) };
    let grouping = &found.grouping[..lots(&limited.sheet)];
    if plain(raw::evaluate(&limited.sheet, grouping)) != PASSES {
        return Err("the grouping does not meet the sheet".into());
    }
    match classes(grouping) {
        classes if classes > limited.limit as usize => Err(format!("the grouping has {classes} different numbers")),
        _ => Ok(()),
    }
}

/// Cannot: the records are a refutation with the limit, and with each smaller one.
fn cannot(limited: &Limited, found: &Searched) -> Result<(), String> {
    let [0, 2, count, _] = found.answer else { return Ok(()) };
    let list = &found.store[..NODE_LENGTH * count as usize];
    let few = list.len() <= NODE_LENGTH * FEW_RECORDS;
    let limits = (1..=limited.limit).rev().filter(|&limit| few || limit == 1 || limited.limit - limit < 3);
    for limit in limits {
        let answer = plain(raw::check_limited(&limited.sheet, limit, list));
        if answer != PASSES {
            return Err(format!("the search's own list is answered by {answer:?} with the limit {limit}"));
        }
    }
    checked_without(limited, list)
}

/// Without a limit the search's own list is refused at the first record that a limit makes good: a clique, or a split under 1,024 others.
fn checked_without(limited: &Limited, list: &[u8]) -> Result<(), String> {
    let records = records(list);
    let refused = records.iter().zip(splits_above(&records)).zip(1..).find_map(|((record, above), number)| match record.kind {
        CLIQUE => Some([11, number, 0, 0]),
        SPLIT if above == MOST_SPLITS_ABOVE => Some([15, number, 0, 0]),
        _ => None,
    });
    let (answer, expected) = (plain(raw::check(&limited.sheet, list)), refused.unwrap_or(PASSES));
    if answer == expected { Ok(()) } else { Err(format!("the list is answered by {answer:?} without a limit, and not by {expected:?}")) }
}

/// With few lots: some grouping with at most so many different numbers meets the sheet exactly where the search says so.
fn brute_force(limited: &Limited, found: &Searched) -> Result<(), String> {
    let [0, verdict, _, _] = found.answer else { return Ok(()) };
    let lots = lots(&limited.sheet);
    if lots > FEW_LOTS {
        return Ok(());
    }
    let within = |grouping: &&Vec<u8>| classes(grouping) <= limited.limit as usize;
    let some = groupings(lots).iter().filter(within).any(|grouping| plain(raw::evaluate(&limited.sheet, grouping)) == PASSES);
    if some == (verdict == 1) { Ok(()) } else { Err(format!("the search says {verdict}, but some grouping is within the limit: {some}")) }
}

/// Beside the search without a limit, where that is asked at all: 20 comes after a refusal from reading, and before every other. Where the one without isn't
/// met, or the limit is as many as lots 0 to n are, every number and byte is the same. Where it is met, the one with a limit begins with the same nodes.
fn without_limit(limited: &Limited, found: &Searched) -> Result<(), String> {
    let free = searched_without(limited);
    let is_read = matches!(free.answer[0], 0 | 8 | 9);
    let is_met = free.answer[0] == 0 && free.answer[1] == 1;
    let stands = match found.answer {
        answer if is_read && !is_admitted(limited.limit) => answer == [20, limited.limit, 0, 0],
        _ if !is_met || limited.limit as usize > lots(&limited.sheet) => free == *found,
        [0, _, count, _] => begins_alike(&free, &found.store[..NODE_LENGTH * count as usize]),
        [check, ..] => check == 9,
    };
    if stands {
        Ok(())
    } else {
        Err(format!("without a limit the search gives {:?}, with one {:?}, or other bytes", free.answer, found.answer))
    }
}

/// All nodes before the met one are the same, but for where a split's apart branch begins, which may be visited now.
fn begins_alike(free: &Searched, nodes: &[u8]) -> bool {
    let before = NODE_LENGTH * (free.answer[2] as usize - 1);
    let fields = |bytes: &[u8]| bytes.chunks(NODE_LENGTH).map(|record| record[..6].to_vec()).collect::<Vec<_>>();
    nodes.len() > before && fields(&free.store[..before]) == fields(&nodes[..before])
}
