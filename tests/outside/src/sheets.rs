//! Valid sheets of all sizes.
use crate::case::probe;
use crate::random::Random;
use second::limits::{MOST_CONDITIONS, MOST_LOTS, MOST_TERMS, ZERO_LOT};
use second::sheet::{Lot, Term};
use second::writer::{apart, same, sheet_bytes_among};

/// What random conditions look like.
pub struct Shape {
    pub lots: usize,
    pub conditions: usize,
    /// At most this many terms in all, and in one condition.
    pub terms: usize,
    pub longest: usize,
    /// Percentages: "same" terms, lot 0 in a field of a term, a lot twice in a term, a term that stood before, withdrawn conditions.
    pub same: usize,
    pub zero: usize,
    pub twice: usize,
    pub repeated: usize,
    pub withdrawn: usize,
    /// The last condition has all terms that are left, so that k is exactly `terms`.
    pub all: bool,
}

/// Sheets with up to 4 lots, where every answer is common.
pub fn tiny(random: &mut Random) -> Vec<u8> {
    let shape = Shape {
        lots: random.below(5),
        conditions: random.below(6),
        terms: 12,
        longest: 3,
        same: random.range(20, 100),
        zero: random.pick(&[0, 0, 10, 30, 60]),
        twice: 10,
        repeated: 10,
        withdrawn: if random.chance(30) { 20 } else { 0 },
        all: false,
    };
    write(&shape, random)
}

pub fn small(random: &mut Random) -> Vec<u8> {
    let lots = random.range(3, 8);
    let shape = Shape {
        lots,
        conditions: random.range(2, 4 * lots),
        terms: 60,
        longest: random.range(1, 4),
        same: random.range(30, 90),
        zero: random.pick(&[0, 0, 10, 30]),
        twice: random.pick(&[0, 0, 5]),
        repeated: 10,
        withdrawn: random.pick(&[0, 0, 0, 15]),
        all: false,
    };
    write(&shape, random)
}

pub fn medium(random: &mut Random) -> Vec<u8> {
    let lots = random.range(8, 40);
    let shape = Shape {
        lots,
        conditions: random.range(5, 80),
        terms: 300,
        longest: random.range(2, 8),
        same: random.range(40, 100),
        zero: random.pick(&[0, 0, 3, 20]),
        twice: random.below(4),
        repeated: 5,
        withdrawn: random.pick(&[0, 0, 1, 10]),
        all: false,
    };
    write(&shape, random)
}

/// Many short conditions on few lots: searches of hundreds and thousands of nodes.
pub fn dense(random: &mut Random) -> Vec<u8> {
    let lots = random.range(9, 16);
    let shape = Shape {
        lots,
        conditions: random.range(2 * lots, 5 * lots),
        terms: 300,
        longest: random.range(3, 4),
        same: random.range(55, 75),
        zero: random.pick(&[0, 0, 7, 15]),
        twice: 0,
        repeated: 3,
        withdrawn: random.pick(&[0, 0, 3]),
        all: false,
    };
    write(&shape, random)
}

/// Up to the limits, and often exactly at them.
pub fn large(random: &mut Random) -> Vec<u8> {
    let shape = Shape {
        lots: random.pick(&[MOST_LOTS, MOST_LOTS, 127, 100, 2]),
        conditions: random.pick(&[MOST_CONDITIONS, MOST_CONDITIONS, 255, 120, 10]),
        terms: random.pick(&[MOST_TERMS, MOST_TERMS, 1023, 600]),
        longest: random.pick(&[4, 5, 40, MOST_TERMS]),
        same: random.pick(&[50, 70, 90, 100]),
        zero: random.pick(&[0, 0, 1, 10, 50]),
        twice: random.pick(&[0, 0, 3]),
        repeated: random.pick(&[0, 5]),
        withdrawn: random.pick(&[0, 0, 1, 20]),
        all: random.chance(60),
    };
    write(&shape, random)
}

/// A sheet that cannot be met, whose refutation has 3 to 120 records.
pub fn cannot(random: &mut Random) -> Vec<u8> {
    loop {
        let sheet = small(random);
        let found = probe(&sheet, 120);
        if found.cannot() && found.count() >= 3 {
            return sheet;
        }
    }
}

pub fn write(shape: &Shape, random: &mut Random) -> Vec<u8> {
    let conditions = conditions(shape, random);
    write_in_some_order(shape.lots, &conditions, random)
}

/// Term records in the order of the conditions, or in any order; now and then with vacant records among them.
pub fn write_in_some_order(lots: usize, conditions: &[Vec<Term>], random: &mut Random) -> Vec<u8> {
    let terms = conditions.iter().map(Vec::len).sum();
    let count = terms + if random.chance(35) { vacant_count(terms, random) } else { 0 };
    let mut places: Vec<usize> = (1..=count).collect();
    random.shuffle(&mut places);
    places.truncate(terms);
    if random.chance(40) {
        places.sort_unstable();
    }
    sheet_bytes_among(lots, conditions, &places, count)
}

/// Mostly a few; at times as many as a sheet has room for, or one less.
fn vacant_count(terms: usize, random: &mut Random) -> usize {
    let room = MOST_TERMS - terms;
    let wanted = if random.chance(2) { random.pick(&[room, room.saturating_sub(1)]) } else { random.range(1, 5) };
    wanted.min(room)
}

fn conditions(shape: &Shape, random: &mut Random) -> Vec<Vec<Term>> {
    let mut before: Vec<Term> = Vec::new();
    let mut conditions = Vec::new();
    for number in 1..=shape.conditions {
        let left = shape.terms - before.len();
        if left == 0 && shape.withdrawn == 0 {
            break;
        }
        let length = match () {
            _ if (shape.lots == 0 && shape.zero == 0) || left == 0 || random.chance(shape.withdrawn) => 0,
            _ if shape.all && number == shape.conditions => left,
            _ => random.range(1, shape.longest.min(left)),
        };
        let condition: Vec<Term> = (0..length).map(|_| term(shape, &before, random)).collect();
        before.extend(&condition);
        conditions.push(condition);
    }
    conditions
}

fn term(shape: &Shape, before: &[Term], random: &mut Random) -> Term {
    if !before.is_empty() && random.chance(shape.repeated) {
        return random.pick(before);
    }
    let a = lot(shape, random);
    let mut b = lot(shape, random);
    if a == b && shape.lots > 1 && !random.chance(shape.twice) {
        b = a % shape.lots + 1;
    }
    if random.chance(shape.same) { same(a, b) } else { apart(a, b) }
}

/// With no lots, a term can name lot 0 alone.
fn lot(shape: &Shape, random: &mut Random) -> Lot {
    if shape.lots == 0 || random.chance(shape.zero) { ZERO_LOT } else { random.range(1, shape.lots) }
}
