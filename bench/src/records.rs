//! Node records: their eight bytes, as the baselines write and read them.
use lihumbay::raw::Numbers;

/// The most records that a store or a list has.
pub const MOST: usize = 65_535;

pub fn split(a: usize, b: usize) -> [u8; 8] {
    record(1, a, b)
}

pub fn ground(condition: usize) -> [u8; 8] {
    record(2, condition, 0)
}

pub fn met() -> [u8; 8] {
    record(3, 0, 0)
}

pub fn clique() -> [u8; 8] {
    record(4, 0, 0)
}

fn record(kind: u64, first: usize, second: usize) -> [u8; 8] {
    (kind | (first as u64) << 16 | (second as u64) << 32).to_le_bytes()
}

/// A split's next: the record, counted from 1, where its apart branch begins.
pub fn set_next(record: &mut [u8; 8], next: usize) {
    [record[6], record[7]] = (next as u16).to_le_bytes();
}

/// The most splits above a record of a list.
pub fn depth(list: &[u8]) -> usize {
    let (mut path, mut most) = (Vec::new(), 0);
    for record in list.chunks(8) {
        if record[0] == 1 {
            path.push(true);
            most = most.max(path.len());
            continue;
        }
        while path.last() == Some(&false) {
            path.pop();
        }
        path.last_mut().into_iter().for_each(|same| *same = false);
    }
    most
}

/// The records that a search may write.
pub fn of_store(store: &mut [u8]) -> &mut [[u8; 8]] {
    let whole = store.as_chunks_mut().0;
    let capacity = whole.len().min(MOST);
    &mut whole[..capacity]
}

pub fn answered(first: u32, second: u32, third: u32) -> Numbers {
    Numbers { check: 0, first, second, third }
}

pub fn refused(check: u32, place: usize) -> Numbers {
    Numbers { check, first: place as u32, second: 0, third: 0 }
}
