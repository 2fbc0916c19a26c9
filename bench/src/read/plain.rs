//! A plain reader: the table's checks 1 to 7 and 17, one after the other.
use crate::records::{answered, refused};
use crate::terms::number;
use lihumbay::raw::Numbers;

struct Counts {
    lots: usize,
    conditions: usize,
    records: usize,
}

impl Counts {
    fn record<'a>(&self, sheet: &'a [u8], record: usize) -> &'a [u8; 8] {
        &sheet[6 + 2 * self.conditions..].as_chunks().0[record - 1]
    }

    fn head(&self, sheet: &[u8], condition: usize) -> usize {
        number(sheet, 6 + 2 * (condition - 1))
    }
}

/// Checks 1 to 3.
fn counts(sheet: &[u8]) -> Result<Counts, Numbers> {
    if sheet.len() < 6 {
        return Err(refused(1, 0));
    }
    let counts = Counts { lots: number(sheet, 0), conditions: number(sheet, 2), records: number(sheet, 4) };
    for (i, (count, most)) in [(counts.lots, 128), (counts.conditions, 256), (counts.records, 1024)].into_iter().enumerate() {
        if count > most {
            return Err(refused(2, i + 1));
        }
    }
    if sheet.len() != 6 + 2 * counts.conditions + 8 * counts.records {
        return Err(refused(3, 0));
    }
    Ok(counts)
}

fn vacant(record: &[u8; 8]) -> bool {
    *record == [0; 8]
}

fn well_formed(counts: &Counts, record: &[u8; 8]) -> bool {
    (record[0] == 1 || record[0] == 2)
        && record[1] == 0
        && number(record, 2) <= counts.lots
        && number(record, 4) <= counts.lots
        && number(record, 6) <= counts.records
}

/// Checks 17 and 6 at each record of a chain, and 7.
fn chains(sheet: &[u8], counts: &Counts) -> Result<(), Numbers> {
    let mut reached = vec![false; counts.records];
    for c in 1..=counts.conditions {
        let mut at = counts.head(sheet, c);
        while at != 0 {
            let record = counts.record(sheet, at);
            if vacant(record) {
                return Err(refused(17, at));
            }
            if std::mem::replace(&mut reached[at - 1], true) {
                return Err(refused(6, at));
            }
            at = number(record, 6);
        }
    }
    match (1..=counts.records).find(|&r| !reached[r - 1] && !vacant(counts.record(sheet, r))) {
        Some(r) => Err(refused(7, r)),
        None => Ok(()),
    }
}

fn check(sheet: &[u8]) -> Result<Counts, Numbers> {
    let counts = counts(sheet)?;
    if let Some(c) = (1..=counts.conditions).find(|&c| counts.head(sheet, c) > counts.records) {
        return Err(refused(4, c));
    }
    let malformed = |record: &[u8; 8]| !vacant(record) && !well_formed(&counts, record);
    if let Some(r) = (1..=counts.records).find(|&r| malformed(counts.record(sheet, r))) {
        return Err(refused(5, r));
    }
    chains(sheet, &counts)?;
    Ok(counts)
}

pub fn read(sheet: &[u8]) -> Numbers {
    match check(sheet) {
        Ok(counts) => answered(counts.lots as u32, counts.conditions as u32, counts.records as u32),
        Err(refusal) => refusal,
    }
}
