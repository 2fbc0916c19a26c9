//! The refutation checkers that are compared. The two baselines share the reading of records and the checks around the walk; what a path is and how a ground is
//! examined is their own.
pub mod plain;
pub mod tuned;

use crate::records::{self, MOST, answered, refused};
use crate::terms::{LOTS, header, number};
use lihumbay::raw::Numbers;

pub type Check = fn(&[u8], &[u8]) -> Numbers;

/// A checker that is given a limit behind the sheet.
pub type Limited = fn(&[u8], u32, &[u8]) -> Numbers;

/// The splits above a record, with the branch taken at each.
trait Path {
    fn depth(&self) -> usize;
    /// A split goes on top, in its same branch.
    fn push(&mut self, split: Split);
    /// Whether a condition, which counts from 0, isn't withdrawn and has only false terms.
    fn refutes(&mut self, condition: usize) -> bool;
    /// Whether more classes are left than a limit admits, and those that count are all marked apart.
    fn is_clique(&mut self, limit: usize) -> bool;
    /// The nearest split still in its same branch is turned to its apart branch; those above it are dropped.
    fn turn(&mut self) -> Option<Split>;
}

/// Record number, next, and the lots.
#[derive(Clone, Copy)]
struct Split {
    number: usize,
    next: usize,
    a: u8,
    b: u8,
}

/// What a list is walked for: the sheet's lots and conditions, the limit on classes if there is one, and the splits that may stand above a ground.
struct Walk {
    lots: usize,
    conditions: usize,
    limit: Option<usize>,
    most_splits: usize,
}

impl Walk {
    /// One record, which counts from 1: the answer where the walk ends with it. It is part of the loop over the records.
    #[inline(always)]
    fn step(&self, path: &mut impl Path, record: &[u8; 8], r: usize, last: bool) -> Option<Numbers> {
        let (first, second, next) = (number(record, 2), number(record, 4), number(record, 6));
        match (record[0], record[1]) {
            (1, 0) if first <= self.lots && second <= self.lots => {
                if path.depth() == self.most_splits {
                    return Some(refused(15, r));
                }
                path.push(Split { number: r, next, a: first as u8, b: second as u8 });
                None
            }
            (2, 0) if (1..=self.conditions).contains(&first) && second == 0 && next == 0 => {
                if !path.refutes(first - 1) {
                    return Some(refused(12, r));
                }
                after(path, r, last)
            }
            _ => self.clique(path, record, r, last),
        }
    }

    /// A record that is neither split nor ground. It stands apart, so that lists without cliques are walked as if there were none.
    #[inline(never)]
    fn clique(&self, path: &mut impl Path, record: &[u8; 8], r: usize, last: bool) -> Option<Numbers> {
        match self.limit {
            Some(limit) if *record == records::clique() => {
                if !path.is_clique(limit) {
                    return Some(refused(12, r));
                }
                after(path, r, last)
            }
            _ => Some(refused(11, r)),
        }
    }
}

/// What comes after a ground or a clique that passes.
#[inline(always)]
fn after(path: &mut impl Path, r: usize, last: bool) -> Option<Numbers> {
    match path.turn() {
        Some(split) if split.next != r + 1 => Some(refused(13, split.number)),
        Some(_) => None,
        None if last => Some(answered(0, 0, 0)),
        None => Some(refused(14, r + 1)),
    }
}

fn walk(path: &mut impl Path, sheet: &[u8], limit: Option<u32>, list: &[u8]) -> Numbers {
    let (records, rest) = list.as_chunks();
    if records.is_empty() || !rest.is_empty() || records.len() > MOST {
        return refused(10, 0);
    }
    let (lots, conditions, _) = header(sheet);
    let most_splits = if limit.is_some() { LOTS * (LOTS - 1) / 2 } else { 1024 };
    let walk = Walk { lots, conditions, limit: limit.map(|limit| limit as usize), most_splits };
    for (i, record) in records.iter().enumerate() {
        if let Some(answer) = walk.step(path, record, i + 1, i + 1 == records.len()) {
            return answer;
        }
    }
    refused(14, records.len() + 1)
}

/// The tuned checker behind the tuned reader: like the product it refuses what isn't a sheet.
fn tuned_checked(sheet: &[u8], list: &[u8]) -> Numbers {
    let reading = crate::read::tuned::read(sheet);
    if reading.check != 0 { reading } else { tuned::check(sheet, list) }
}

/// The tuned checker under a limit behind the tuned reader and check 20.
fn tuned_limited_checked(sheet: &[u8], limit: u32, list: &[u8]) -> Numbers {
    let reading = crate::read::tuned::read(sheet);
    if reading.check != 0 {
        return reading;
    }
    if !(1..=129).contains(&limit) {
        return refused(20, limit as usize);
    }
    tuned::check_limited(sheet, limit, list)
}

/// The checkers by name; the first is the product's.
pub const ALL: [(&str, Check); 4] =
    [("product", lihumbay::raw::check), ("plain", plain::check), ("tuned", tuned::check), ("tuned, checked", tuned_checked)];

/// The checkers under a limit.
pub const LIMITED: [(&str, Limited); 4] = [
    ("product", lihumbay::raw::check_limited),
    ("plain", plain::check_limited),
    ("tuned", tuned::check_limited),
    ("tuned, checked", tuned_limited_checked),
];
