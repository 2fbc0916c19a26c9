//! Lists of known depth and length, and lists that are nothing in particular.
use crate::random::Random;
use second::store::{Record, ground, met, split};
use std::ops::RangeInclusive;

/// A list whose last path has one split for each entry: `true`, the path goes on in the split's same branch and its apart branch is a ground; `false`, the
/// other way round. Every ground names condition 1, every split a random pair of these lots.
pub fn spine(lots: &RangeInclusive<usize>, directions: &[bool], random: &mut Random) -> Vec<Record> {
    let mut records = Vec::new();
    let mut waiting = Vec::new();
    for &goes_on_in_same in directions {
        let at = records.len();
        records.push(any_split(lots, random));
        if goes_on_in_same {
            waiting.push(at);
        } else {
            records.push(ground(1));
            records[at].next = (records.len() + 1) as u16;
        }
    }
    records.push(ground(1));
    while let Some(at) = waiting.pop() {
        records[at].next = (records.len() + 1) as u16;
        records.push(ground(1));
    }
    records
}

/// The complete tree with `levels` splits on each path: 2^(levels + 1) - 1 records.
pub fn complete(lots: &RangeInclusive<usize>, levels: usize, random: &mut Random) -> Vec<Record> {
    let mut records = Vec::new();
    complete_under(lots, levels, random, &mut records);
    records
}

fn complete_under(lots: &RangeInclusive<usize>, levels: usize, random: &mut Random, records: &mut Vec<Record>) {
    if levels == 0 {
        records.push(ground(1));
        return;
    }
    let at = records.len();
    records.push(any_split(lots, random));
    complete_under(lots, levels - 1, random, records);
    records[at].next = (records.len() + 1) as u16;
    complete_under(lots, levels - 1, random, records);
}

/// A split on any two of these lots, next left open.
fn any_split(lots: &RangeInclusive<usize>, random: &mut Random) -> Record {
    split(random.within(lots), random.within(lots), 0)
}

/// Records with fields mostly in range, in no order.
pub fn any(lots: usize, conditions: usize, length: usize, random: &mut Random) -> Vec<Record> {
    (1..=length).map(|number| any_record(lots, conditions, number, random)).collect()
}

pub fn any_record(lots: usize, conditions: usize, number: usize, random: &mut Random) -> Record {
    match random.below(20) {
        0 => Record { kind: random.byte(), ..ground(random.below(conditions + 2)) },
        1 => met(),
        2 => split(random.below(lots + 2), random.below(lots + 2), number + random.below(4)),
        3..=6 => split(random.below(lots + 1), random.below(lots + 1), number + random.below(4)),
        7..=10 if lots > 0 => split(random.range(1, lots), random.range(1, lots + 1), number + random.below(4)),
        11 => ground(0),
        _ => ground(random.range(1, conditions + 1)),
    }
}
