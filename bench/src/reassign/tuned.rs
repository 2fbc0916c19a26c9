//! A tuned reassigner: it looks for the lot along each chain, and leaves that at the first term that names it. A condition that names the lot is gone over
//! once for both numbers, up to where it is met by both. Where records follow each other the processor goes on to the following one before it has the next. It
//! checks lot and running count, and not the sheet.
use super::{Reassignment, cannot_be, is_no_lot};
use crate::evaluate::tuned::{ByLot, is_true, number_lots};
use crate::records::{answered, refused};
use crate::terms;
use lihumbay::raw::Numbers;

/// Goes along a chain up to a record, as one number, where `ends` says so; whether there is one. The inner loop goes over a run of records that follow each
/// other.
#[inline(always)]
fn some_record(records: &[[u8; 8]], head: usize, mut ends: impl FnMut(u64) -> bool) -> bool {
    let mut at = head;
    while at != 0 {
        for record in &records[at - 1..] {
            let record = u64::from_le_bytes(*record);
            if ends(record) {
                return true;
            }
            let next = (record >> 48) as usize;
            at += 1;
            if next != at {
                at = next;
                break;
            }
        }
    }
    false
}

/// Whether a condition is unmet by each of two tables of numbers.
#[inline]
fn unmet(records: &[[u8; 8]], head: usize, before: &ByLot, after: &ByLot) -> [bool; 2] {
    let (mut met_before, mut met_after) = (false, false);
    some_record(records, head, |record| {
        met_before |= is_true(before, record);
        met_after |= is_true(after, record);
        met_before & met_after
    });
    [!met_before, !met_after]
}

/// How many of the conditions that name the lot are unmet before and after.
fn weigh(sheet: &[u8], lot: u8, before: &ByLot, after: &ByLot) -> [u32; 2] {
    let (heads, records) = terms::heads_and_records(sheet);
    let names = |record: u64| (record >> 16) as u8 == lot || (record >> 32) as u8 == lot;
    let mut counts = [0; 2];
    for head in heads.iter().map(|head| usize::from(u16::from_le_bytes(*head))) {
        if some_record(records, head, names) {
            let [unmet_before, unmet_after] = unmet(records, head, before, after);
            counts[0] += u32::from(unmet_before);
            counts[1] += u32::from(unmet_after);
        }
    }
    counts
}

pub fn reassign(sheet: &[u8], grouping: &mut [u8], Reassignment { count, lot, value }: Reassignment) -> Numbers {
    let (lots, conditions, _) = terms::header(sheet);
    if is_no_lot(lots, lot) {
        return refused(21, lot as usize);
    }
    let mut before = [0; 256];
    number_lots(&mut before, grouping);
    let mut after = before;
    after[lot as usize] = value;
    let [unmet_before, unmet_after] = weigh(sheet, lot as u8, &before, &after);
    if cannot_be(conditions, unmet_before, count) {
        return refused(22, count as usize);
    }
    grouping[lot as usize - 1] = value;
    answered(count - unmet_before + unmet_after, 0, 0)
}
