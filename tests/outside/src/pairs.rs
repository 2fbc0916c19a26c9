//! Pairs of sheets with conditions in common, or with conditions that are nearly alike, and with withdrawn ones among them.
use crate::damage::Damaged;
use crate::random::Random;
use crate::sheets::write_in_some_order;
use second::limits::{MOST_CONDITIONS, MOST_LOTS, MOST_TERMS};
use second::sheet::{Sign, Term};
use second::writer::{apart, same};
use std::ops::RangeInclusive;
use std::slice::from_ref;

pub type Conditions = Vec<Vec<Term>>;

pub struct Pair {
    pub first: Vec<u8>,
    pub second: Vec<u8>,
}

/// Few lots and few different conditions, so that most are repeats, within a sheet and across. Half of the pairs have lot 0 among their lots, and of these some
/// have no other. More than half of the sheets have withdrawn conditions put in.
pub fn small(random: &mut Random) -> Pair {
    let lowest = random.below(2);
    let lots = random.range(lowest, 4);
    let (count, longest) = (random.range(1, 4), random.range(1, 4));
    let mut pool: Conditions = (0..count).map(|_| condition(&(lowest..=lots), longest, random)).collect();
    let alike: Conditions = (0..random.below(4)).map(|_| nearly(&pool[random.below(count)], random)).collect();
    pool.extend(alike);
    let mut sheet = |most: usize| {
        let drawn: Conditions = (0..random.below(most + 1)).map(|_| pool[random.below(pool.len())].clone()).collect();
        let withdrawn = random.pick(&[0, 0, 1, 2, 4]);
        let conditions = with_withdrawn(drawn, withdrawn, random);
        write_in_some_order(lots + random.below(3), &conditions, random)
    };
    Pair { first: sheet(7), second: sheet(7) }
}

/// The conditions with so many withdrawn ones at the beginning, at the end, one behind the other somewhere between, or each anywhere.
pub fn with_withdrawn(mut conditions: Conditions, count: usize, random: &mut Random) -> Conditions {
    let (way, between) = (random.below(4), random.below(conditions.len() + 1));
    for _ in 0..count {
        let at = match way {
            0 => 0,
            1 => conditions.len(),
            2 => between,
            _ => random.below(conditions.len() + 1),
        };
        conditions.insert(at, vec![]);
    }
    conditions
}

/// Conditions and terms around the most that a merged sheet can have, in sheets that have up to the most themselves.
pub fn large(random: &mut Random) -> Pair {
    let different = random.pick(&[40, 150, 256, 257, 258, 300, 400]);
    let longest = random.pick(&[1, 3, 7, 7, 8, 12, 60]);
    // Half of the pools have their terms on few lots, so that conditions have long beginnings in common.
    let (lowest, lots) = (random.below(2), random.pick(&[2, MOST_LOTS]));
    let mut pool: Conditions = (0..different).map(|_| condition(&(lowest..=lots), longest, random)).collect();
    random.shuffle(&mut pool);
    let mut sheet = |start: usize| {
        let drawn = within_limits(pool.iter().cycle().skip(start).take(random.range(different / 2, different)), random);
        write_in_some_order(random.range(lots, MOST_LOTS), &drawn, random)
    };
    let (first, start) = (sheet(0), different / 2);
    Pair { first, second: sheet(start) }
}

/// As many of the conditions as a sheet can have, now and then one of them twice.
fn within_limits<'a>(from: impl Iterator<Item = &'a Vec<Term>>, random: &mut Random) -> Conditions {
    let (mut drawn, mut terms) = (Vec::new(), 0);
    for condition in from {
        let times = 1 + usize::from(random.chance(3));
        for _ in 0..times {
            if drawn.len() == MOST_CONDITIONS || terms + condition.len() > MOST_TERMS {
                return drawn;
            }
            terms += condition.len();
            drawn.push(condition.clone());
        }
    }
    drawn
}

/// A pair with faults in the first sheet, in the second, or in both.
pub fn damaged(random: &mut Random) -> Pair {
    let Pair { first, second } = small(random);
    let which = random.below(3);
    Pair {
        first: if which != 1 { with_fault(first, random) } else { first },
        second: if which != 0 { with_fault(second, random) } else { second },
    }
}

/// One fault of a known kind, or up to three bytes changed.
fn with_fault(sheet: Vec<u8>, random: &mut Random) -> Vec<u8> {
    let mut damaged = Damaged::of(sheet);
    if random.chance(60) {
        damaged.fault(random);
        return damaged.bytes;
    }
    for _ in 0..random.range(1, 3) {
        let at = random.below(damaged.bytes.len());
        damaged.bytes[at] = random.pick(&[0, 1, 2, 3, 4, 129, 255]);
    }
    damaged.bytes
}

/// A condition of up to so many terms; now and then a withdrawn one.
fn condition(lots: &RangeInclusive<usize>, longest: usize, random: &mut Random) -> Vec<Term> {
    let length = if random.chance(8) { 0 } else { random.range(1, longest) };
    (0..length).map(|_| term(lots, random)).collect()
}

pub(crate) fn term(lots: &RangeInclusive<usize>, random: &mut Random) -> Term {
    let (a, b) = (random.within(lots), random.within(lots));
    if random.chance(50) { same(a, b) } else { apart(a, b) }
}

/// The condition with its terms in another order, the lots of a term in the other order, the other sign, a term more, or a term less. It may be the same
/// again, as where both lots are one.
pub fn nearly(condition: &[Term], random: &mut Random) -> Vec<Term> {
    let mut terms = condition.to_vec();
    if terms.is_empty() {
        return terms;
    }
    let at = random.below(terms.len());
    let Term { sign, a, b } = terms[at];
    match random.below(6) {
        0 => terms.reverse(),
        1 => terms.rotate_left(1),
        2 => terms[at] = Term { sign, a: b, b: a },
        3 => terms[at] = Term { sign: if sign == Sign::Same { Sign::Apart } else { Sign::Same }, a, b },
        4 => terms.push(terms[at]),
        _ => drop(terms.pop()),
    }
    terms
}

/// All lists of up to `length` values out of `values`.
pub fn lists<T: Clone>(values: &[T], length: usize) -> Vec<Vec<T>> {
    let mut all = vec![vec![]];
    let mut longest = all.clone();
    for _ in 0..length {
        longest = longest.iter().flat_map(|list| values.iter().map(move |value| [list.as_slice(), from_ref(value)].concat())).collect();
        all.extend_from_slice(&longest);
    }
    all
}
