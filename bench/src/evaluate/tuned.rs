//! A tuned evaluator, which takes nothing from the heap. It leaves a condition at its first true term, and a record is loaded as one number. Where records
//! follow each other the processor goes on to the following one before it has the next. It doesn't check the sheet.
use crate::records::answered;
use crate::terms;
use lihumbay::raw::Numbers;

/// The numbers of the lots, lot 0's first. There is an entry for each value of a byte, so that no index needs a check of its bounds.
pub type ByLot = [u8; 256];

/// Of a record as one number: sign, lots and next have two bytes each, of which a lot's second is 0.
#[inline]
pub fn is_true(numbers: &ByLot, record: u64) -> bool {
    let number = |lot: u64| numbers[usize::from(lot as u8)];
    (number(record >> 16) == number(record >> 32)) == (record & 1 == 1)
}

/// Whether a chain has a true term. The inner loop goes over a run of records that follow each other.
#[inline]
fn some_true(records: &[[u8; 8]], numbers: &ByLot, head: usize) -> bool {
    let mut at = head;
    while at != 0 {
        for record in &records[at - 1..] {
            let record = u64::from_le_bytes(*record);
            if is_true(numbers, record) {
                return true;
            }
            let next = (record >> 48) as usize;
            at += 1;
            if next != at {
                at = next;
                break;
            }
        }
    }
    false
}

/// Of a condition by its head, which is zero where it is withdrawn.
#[inline]
pub fn is_unmet(records: &[[u8; 8]], numbers: &ByLot, head: &[u8; 2]) -> bool {
    *head != [0; 2] && !some_true(records, numbers, usize::from(u16::from_le_bytes(*head)))
}

/// The bytes of a grouping go behind lot 0's. A copy of a length that is known takes a few instructions.
#[inline]
pub fn number_lots(numbers: &mut ByLot, grouping: &[u8]) {
    match grouping.first_chunk::<128>() {
        Some(whole) => numbers[1..129].copy_from_slice(whole),
        None => numbers[1..=grouping.len()].copy_from_slice(grouping),
    }
}

pub fn evaluate(sheet: &[u8], grouping: &[u8]) -> Numbers {
    let mut numbers = [0; 256];
    number_lots(&mut numbers, grouping);
    let (heads, records) = terms::heads_and_records(sheet);
    let unmet = |head: &[u8; 2]| is_unmet(records, &numbers, head);
    answered(heads.iter().position(unmet).map_or(0, |c| c as u32 + 1), 0, 0)
}
