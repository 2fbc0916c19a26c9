//! Laws of two sheets and what the archive merges them into. The second implementation's reader and writer serve to tell a sheet's conditions.
use crate::canonical::canonical;
use crate::compare::{plain, same};
use crate::laws::{AROUND, among, groupings};
use crate::merged::merged;
use crate::random::Random;
use crate::together::Together;
use lihumbay::raw;
use second::limits::{MOST_CONDITIONS, MOST_LOTS, NODE_LENGTH};
use second::reader::accept;
use second::sheet::{Term, is_withdrawn};
use second::writer::sheet_bytes;

/// Groupings that were tried on a merged sheet: how many met both sheets, and how many did not.
#[derive(Clone, Copy, Debug, Default)]
pub struct Tried {
    pub met: usize,
    pub unmet: usize,
}

/// Every law of two sheets and what they come to.
pub fn merge_laws(first: &[u8], second: &[u8], random: &mut Random) -> Result<Tried, String> {
    let asked = plain(raw::merge(first, second, &mut []));
    let [19, length, 0, 0] = asked else { return refused_as_read(first, second, asked).map(|()| Tried::default()) };
    let whole = exact(first, second, length as usize)?;
    read_as_both(first, second, &whole)?;
    if canonical(&whole)?.as_deref() != Some(&whole) {
        return Err("the merged sheet is not packed".into());
    }
    in_place(first, second, &whole)?;
    merged_again(first, second, &whole)?;
    merged_once_more(first, second, &whole)?;
    surrounded(first, second, &whole)?;
    met_by_both(first, second, &whole, random)
}

/// A refusal with no room is the reader's of the first sheet, or of the second where the first is accepted, or 18 where both are and hold too much.
fn refused_as_read(first: &[u8], second: &[u8], asked: [u32; 4]) -> Result<(), String> {
    let (one, other) = (plain(raw::read(first)), plain(raw::read(second)));
    let expected = match (one[0], other[0], Together::of(first, second).and_then(|both| both.place_of_18())) {
        (0, 0, Some(place)) => [18, place, 0, 0],
        (0, 0, None) => {
            return Err(format!("two sheets that are accepted, and hold no more than there may be, give {asked:?} with no room"));
        }
        (0, _, _) => [other[0], other[1], 2, 0],
        _ => [one[0], one[1], 1, 0],
    };
    same("merge, beside the reader", &asked, &expected)
}

/// The merged sheet, in exactly the room that it needs.
fn exact(first: &[u8], second: &[u8], length: usize) -> Result<Vec<u8>, String> {
    let merged = merged(first, second, &vec![0xC3; length]);
    if merged.answer != [0, length as u32, 0, 0] || !merged.guards {
        return Err(format!("with the {length} bytes that it asked for, the merge gives {:?} or writes beside them", merged.answer));
    }
    Ok(merged.out)
}

/// The merged sheet is accepted, has the larger number of lots, and no more conditions or records than both sheets together.
fn read_as_both(first: &[u8], second: &[u8], whole: &[u8]) -> Result<(), String> {
    let (one, other, both) = (plain(raw::read(first)), plain(raw::read(second)), plain(raw::read(whole)));
    let most = |at: usize| both[at] <= one[at] + other[at];
    if both[0] != 0 || both[1] != one[1].max(other[1]) || !most(2) || !most(3) {
        return Err(format!("the sheets are read as {one:?} and {other:?}, the merged one as {both:?}"));
    }
    Ok(())
}

/// The conditions of a sheet that is accepted.
fn conditions(sheet: &[u8]) -> Vec<Vec<Term>> {
    accept(sheet).expect("a sheet that the archive accepts").conditions
}

/// A condition that stays has its number in the two lists, one behind the other, less the repeats left out before it. What is left out has terms and is the
/// same as an earlier condition, so that each withdrawn condition stays; and the merged sheet has no other conditions.
fn in_place(first: &[u8], second: &[u8], whole: &[u8]) -> Result<(), String> {
    let (both, merged) = ([conditions(first), conditions(second)].concat(), conditions(whole));
    let mut left_out = 0;
    for (before, condition) in both.iter().enumerate() {
        let (number, place) = (before + 1, before + 1 - left_out);
        if !is_withdrawn(condition) && both[..before].contains(condition) {
            left_out += 1;
        } else if merged.get(place - 1) != Some(condition) {
            return Err(format!("condition {number} of the two lists is not condition {place} of the merged sheet"));
        }
    }
    match both.len() - left_out {
        stay if stay == merged.len() => Ok(()),
        stay => Err(format!("{stay} conditions stay, and the merged sheet has {}", merged.len())),
    }
}

/// A sheet without its own repeats: what it comes to with an empty sheet before it or behind it.
fn without_repeats(one: &[u8], other: &[u8]) -> Result<Vec<u8>, String> {
    exact(one, other, plain(raw::merge(one, other, &mut []))[1] as usize)
}

const EMPTY: [u8; 6] = [0; 6];

/// The packed sheets come to the same; so does each with an empty sheet merged to it before.
fn merged_again(first: &[u8], second: &[u8], whole: &[u8]) -> Result<(), String> {
    let packed = |sheet: &[u8]| canonical(sheet).map(|found| found.expect("a sheet that is accepted"));
    for (one, other) in [
        (packed(first)?, packed(second)?),
        (without_repeats(first, &EMPTY)?, second.to_vec()),
        (first.to_vec(), without_repeats(&EMPTY, second)?),
    ] {
        if exact(&one, &other, whole.len())? != whole {
            return Err(format!("{one:02x?} and {other:02x?} come to something else than the merged sheet"));
        }
    }
    Ok(())
}

/// What is merged once more adds its withdrawn conditions and nothing else: at the end where it comes second, and behind the first sheet's own conditions where
/// it is that sheet and comes first. So a sheet, or the whole, changes no byte where nothing of it is withdrawn.
fn merged_once_more(first: &[u8], second: &[u8], whole: &[u8]) -> Result<(), String> {
    let (alone, all) = (without_repeats(first, &EMPTY)?, conditions(whole));
    let own = conditions(&alone);
    for (one, other, conditions, at, more) in [
        (whole, second, &all, all.len(), second),
        (whole, first, &all, all.len(), first),
        (whole, whole, &all, all.len(), whole),
        (first, whole, &all, own.len(), first),
        (first, first, &own, own.len(), first),
    ] {
        let expected = [&conditions[..at], &withdrawn(more), &conditions[at..]].concat();
        come_to(one, other, &expected)?;
    }
    // With the empty sheet, which adds nothing, only repeats are lost, and of these there are none left.
    come_to(whole, &EMPTY, &all)?;
    come_to(&EMPTY, whole, &all)
}

/// The withdrawn conditions of a sheet, one behind the other.
fn withdrawn(sheet: &[u8]) -> Vec<Vec<Term>> {
    conditions(sheet).into_iter().filter(|condition| is_withdrawn(condition)).collect()
}

/// Two sheets come to one with these conditions, or are refused by 18 where these are too many.
fn come_to(one: &[u8], other: &[u8], expected: &[Vec<Term>]) -> Result<(), String> {
    if expected.len() > MOST_CONDITIONS {
        return same("merge once more", &plain(raw::merge(one, other, &mut [0; 1000])), &[18, 2, 0, 0]);
    }
    let lots = one[0].max(other[0]);
    let expected = sheet_bytes(usize::from(lots), expected);
    if exact(one, other, expected.len())? != expected {
        return Err(format!("{one:02x?} and {other:02x?} come to something else than {expected:02x?}"));
    }
    Ok(())
}

/// The same bytes at odd addresses, among others that are not lent, come to the same.
fn surrounded(first: &[u8], second: &[u8], whole: &[u8]) -> Result<(), String> {
    for around in [0x00, 0xFF, 0x01] {
        let (one, other) = (among(first, around), among(second, around));
        if exact(&one[AROUND..AROUND + first.len()], &other[AROUND..AROUND + second.len()], whole.len())? != whole {
            return Err("the merged sheet depends on bytes that were not lent".into());
        }
    }
    Ok(())
}

/// A grouping meets the merged sheet exactly when it meets both.
fn met_by_both(first: &[u8], second: &[u8], whole: &[u8], random: &mut Random) -> Result<Tried, String> {
    let mut tried = Tried::default();
    for grouping in some_groupings(&[first, second, whole], random) {
        let meets = |sheet: &[u8]| plain(raw::evaluate(sheet, &grouping)) == [0; 4];
        let both = meets(first) && meets(second);
        if meets(whole) != both {
            return Err(format!("the grouping {grouping:?} meets both sheets: {both}; the merged sheet: {}", !both));
        }
        *if both { &mut tried.met } else { &mut tried.unmet } += 1;
    }
    Ok(tried)
}

/// With few lots every grouping of the last sheet's lots; else random ones, and those that a search of each sheet finds.
fn some_groupings(sheets: &[&[u8]; 3], random: &mut Random) -> Vec<Vec<u8>> {
    let lots = plain(raw::read(sheets[2]))[1] as usize;
    if lots <= 4 {
        return groupings(lots);
    }
    let found = sheets.iter().filter_map(|sheet| {
        let mut grouping = vec![0; MOST_LOTS];
        let [check, verdict, ..] = plain(raw::search(sheet, &mut grouping, &mut [0; NODE_LENGTH * 300]));
        ([check, verdict] == [0, 1]).then_some(grouping)
    });
    let mut all: Vec<Vec<u8>> = found.collect();
    for few in [1, 2, 3, 256] {
        all.push((0..lots).map(|_| random.below(few) as u8).collect());
    }
    all
}
