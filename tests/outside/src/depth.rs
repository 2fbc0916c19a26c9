//! How deep the records of a list stand.
use second::limits::{NODE_LENGTH, SPLIT};
use second::store::Record;

/// For each record of a list whose form is right, how many splits stand above it.
pub fn splits_above(records: &[Record]) -> Vec<usize> {
    // For each split above, whether the walk is in its same branch.
    let mut above: Vec<bool> = Vec::new();
    let one = |record: &Record| {
        let count = above.len();
        if record.kind == SPLIT {
            above.push(true);
        } else {
            while above.pop_if(|in_same| !*in_same).is_some() {}
            above.last_mut().into_iter().for_each(|in_same| *in_same = false);
        }
        count
    };
    records.iter().map(one).collect()
}

/// The most splits on a path of such a list.
pub fn depth(list: &[u8]) -> usize {
    splits_above(&records(list)).into_iter().max().unwrap_or(0)
}

pub fn records(list: &[u8]) -> Vec<Record> {
    list.chunks(NODE_LENGTH).map(Record::from_bytes).collect()
}
