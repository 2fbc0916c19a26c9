//! A tuned merger. The terms of the conditions that stay lie one after the other as numbers, each record without its next, and a table of hashes finds the
//! condition that one repeats. A withdrawn condition stays without a look at the table, and nothing finds it there. Where records follow each other the
//! processor goes on to the following one before it has the next. It doesn't check the sheets.
use crate::records::{answered, refused};
use crate::terms;
use lihumbay::raw::Numbers;

/// Sign and lots of a record.
const FIELDS: u64 = 0xFFFF_FFFF_FFFF;

/// A condition that stays: its hash, and where its terms lie. A withdrawn one has none, and no hash is asked of it.
struct Kept {
    hash: u64,
    start: usize,
    end: usize,
}

/// What stays of the conditions so far. A slot is empty, 0, or has the number of a condition with terms, counted from 1 among all that stay; there are at least
/// twice as many slots as conditions come in.
struct Merged {
    terms: Vec<u64>,
    kept: Vec<Kept>,
    slots: Vec<u16>,
}

impl Merged {
    fn new(conditions: usize, records: usize) -> Merged {
        let slots = vec![0; (2 * conditions).next_power_of_two()];
        Merged { terms: Vec::with_capacity(records), kept: Vec::with_capacity(conditions), slots }
    }

    /// Adds the terms of a chain behind the others, and gives their hash. The inner loop goes over a run of records that follow each other.
    #[inline]
    fn walk(&mut self, records: &[[u8; 8]], head: usize) -> u64 {
        let (mut at, mut hash) = (head, 0_u64);
        while at != 0 {
            for record in &records[at - 1..] {
                let record = u64::from_le_bytes(*record);
                self.terms.push(record & FIELDS);
                hash = (hash.rotate_left(5) ^ record & FIELDS).wrapping_mul(0x9E37_79B9_7F4A_7C15);
                let next = (record >> 48) as usize;
                at += 1;
                if next != at {
                    at = next;
                    break;
                }
            }
        }
        hash
    }

    /// Adds a condition, unless it has terms and is there.
    #[inline]
    fn add(&mut self, records: &[[u8; 8]], head: usize) {
        let start = self.terms.len();
        if head == 0 {
            return self.kept.push(Kept { hash: 0, start, end: start });
        }
        let hash = self.walk(records, head);
        let mask = self.slots.len() - 1;
        // The high bits of a product depend on all bits of its factors.
        let mut slot = (hash >> 48) as usize & mask;
        while let Some(number) = usize::from(self.slots[slot]).checked_sub(1) {
            let kept = &self.kept[number];
            if kept.hash == hash && self.terms[kept.start..kept.end] == self.terms[start..] {
                return self.terms.truncate(start);
            }
            slot = (slot + 1) & mask;
        }
        self.kept.push(Kept { hash, start, end: self.terms.len() });
        self.slots[slot] = self.kept.len() as u16;
    }

    /// Adds the conditions of a sheet; false where more stay than a sheet can have.
    fn add_all(&mut self, sheet: &[u8]) -> bool {
        let (front, records) = sheet.split_at(6 + 2 * terms::number(sheet, 2));
        for head in front[6..].as_chunks().0 {
            self.add(records.as_chunks().0, usize::from(u16::from_le_bytes(*head)));
            if self.kept.len() > 256 {
                return false;
            }
        }
        true
    }

    /// Heads and records. In a chain each next is the following record, but for the last.
    fn write(&self, front: &mut [u8], records: &mut [u8]) {
        let (heads, records) = (front[6..].as_chunks_mut().0, records.as_chunks_mut().0);
        for (new_record, (i, term)) in records.iter_mut().zip(self.terms.iter().enumerate()) {
            *new_record = (term | (i as u64 + 2) << 48).to_le_bytes();
        }
        for (new_head, kept) in heads.iter_mut().zip(&self.kept) {
            *new_head = if kept.start == kept.end { [0; 2] } else { (kept.start as u16 + 1).to_le_bytes() };
            if kept.start < kept.end {
                records[kept.end - 1] = self.terms[kept.end - 1].to_le_bytes();
            }
        }
    }
}

pub fn merge(first: &[u8], second: &[u8], out: &mut [u8]) -> Numbers {
    let [(first_lots, first_conditions, first_records), (lots, conditions, records)] = [first, second].map(terms::header);
    let mut merged = Merged::new(first_conditions + conditions, first_records + records);
    if !merged.add_all(first) || !merged.add_all(second) {
        return refused(18, 2);
    }
    let (conditions, count) = (merged.kept.len(), merged.terms.len());
    if count > 1024 {
        return refused(18, 3);
    }
    let length = 6 + 2 * conditions + 8 * count;
    let Some(out) = out.get_mut(..length) else { return refused(19, length) };
    let (front, new_records) = out.split_at_mut(6 + 2 * conditions);
    for (new_count, number) in front.as_chunks_mut().0.iter_mut().zip([first_lots.max(lots), conditions, count]) {
        *new_count = (number as u16).to_le_bytes();
    }
    merged.write(front, new_records);
    answered(length as u32, 0, 0)
}
