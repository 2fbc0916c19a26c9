//! A tuned repacker, which takes nothing from the heap. A sheet that is packed already, the common case, is copied as it stands, block by block: whether its
//! nexts are the packed ones is found without a branch at each record. In any other the chains are walked, and a record is moved as one number with its next
//! exchanged. It doesn't check the sheet.
use crate::records::{answered, refused};
use crate::terms;
use lihumbay::raw::Numbers;

/// The records that are looked at, and copied, at a time.
const BLOCK: usize = 256;

/// Whether the heads that aren't zero rise.
fn rising(heads: &[[u8; 2]]) -> bool {
    let mut before = 0;
    heads.iter().map(|head| u16::from_le_bytes(*head)).filter(|head| *head != 0).all(|head| std::mem::replace(&mut before, head) < head)
}

/// Copies the records up to the first block where one is vacant or a next is neither zero nor the following record, and says whether there is none. A sign has
/// one of two bits, and a vacant record neither. A next times what it differs from the following record by is zero exactly where it is one of the two; the mask
/// tells the compiler that 32 bits are enough, of which the processor multiplies two pairs at a time.
fn copied(records: &[[u8; 8]], new_records: &mut [[u8; 8]]) -> bool {
    let mut following = 2;
    for (block, new_block) in records.chunks(BLOCK).zip(new_records.chunks_mut(BLOCK)) {
        let (mut astray, mut signs) = (0, 1);
        for record in block {
            let fields = u64::from_le_bytes(*record);
            let next = fields >> 48;
            astray |= next * ((next ^ following) & 0xFFFF_FFFF);
            signs &= fields | fields >> 1;
            following += 1;
        }
        if astray != 0 || signs == 0 {
            return false;
        }
        new_block.copy_from_slice(block);
    }
    true
}

/// Writes the heads and the records, chain by chain, and gives the number of records.
fn write(heads: &[[u8; 2]], records: &[[u8; 8]], new_heads: &mut [[u8; 2]], new_records: &mut [[u8; 8]]) -> usize {
    let mut written = 0;
    for (head, new_head) in heads.iter().zip(new_heads) {
        let mut at = usize::from(u16::from_le_bytes(*head));
        *new_head = if at == 0 { [0; 2] } else { (written as u16 + 1).to_le_bytes() };
        while let Some(record) = records.get(at.wrapping_sub(1)) {
            let fields = u64::from_le_bytes(*record);
            at = (fields >> 48) as usize;
            let next = if at == 0 { 0 } else { written as u64 + 2 };
            new_records[written] = (fields & 0xFFFF_FFFF_FFFF | next << 48).to_le_bytes();
            written += 1;
        }
    }
    written
}

/// The records that aren't vacant.
fn live(records: &[[u8; 8]]) -> usize {
    records.iter().filter(|record| record[0] != 0).count()
}

pub fn repack(sheet: &[u8], out: &mut [u8]) -> Numbers {
    let (_, conditions, _) = terms::header(sheet);
    let (front, records) = sheet.split_at(6 + 2 * conditions);
    let records = records.as_chunks().0;
    let length = |count: usize| front.len() + 8 * count;
    // An output as long as the sheet is long enough, so that the records are counted only where it is shorter.
    let room = if out.len() < sheet.len() { live(records) } else { records.len() };
    let Some(out) = out.get_mut(..length(room)) else { return refused(16, length(room)) };
    let (new_front, new_records) = out.split_at_mut(front.len());
    new_front.copy_from_slice(front);
    let (new_counts, new_heads) = new_front.split_at_mut(6);
    let (heads, new_heads) = (front[6..].as_chunks().0, new_heads.as_chunks_mut().0);
    let new_records = new_records.as_chunks_mut().0;
    let packed = room == records.len() && rising(heads) && copied(records, new_records);
    let count = if packed { room } else { write(heads, records, new_heads, new_records) };
    new_counts[4..].copy_from_slice(&(count as u16).to_le_bytes());
    answered(length(count) as u32, 0, 0)
}
