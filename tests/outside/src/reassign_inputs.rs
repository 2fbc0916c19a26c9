//! The classes of input of the reassignment of a lot: sheets of every kind, groupings of every length, running counts around each edge, and lots of every size.
use crate::case::grouping;
use crate::damage::Damaged;
use crate::limited::lots;
use crate::random::Random;
use crate::reassign_run::ReassignClass;
use crate::reassigned::Reassignment;
use crate::sheets::{Shape, dense, large, medium, small, tiny, write};
use second::answer::numbers;
use second::count::unmet;
use second::limits::{MOST_CONDITIONS, MOST_LOTS, MOST_TERMS};
use second::reader::accept;
use second::reassign::naming;

pub const REASSIGNMENTS: &[ReassignClass] = &[
    ReassignClass { name: "a lot of a tiny sheet", count: 40_000, make: |random, _| of(tiny(random), random) },
    ReassignClass { name: "a lot of a small sheet", count: 20_000, make: |random, _| of(small(random), random) },
    ReassignClass { name: "a lot of a medium sheet", count: 4_000, make: |random, _| of(medium(random), random) },
    ReassignClass { name: "a lot of many short conditions", count: 4_000, make: |random, _| of(dense(random), random) },
    ReassignClass { name: "a lot of a sheet up to the limits", count: 500, make: |random, _| of(large(random), random) },
    ReassignClass { name: "a lot that conditions name several times", count: 8_000, make: |random, _| of(named_often(random), random) },
    ReassignClass { name: "a lot of the most conditions", count: 1_000, make: |random, _| of(most_conditions(random), random) },
    ReassignClass { name: "a lot of long conditions", count: 500, make: |random, _| of(long_conditions(random), random) },
    ReassignClass { name: "a lot of a sheet without lots or conditions", count: 4_000, make: |random, _| of(without(random), random) },
    ReassignClass { name: "a lot of a sheet with one fault or two", count: 20_000, make: |random, _| of(damaged(random), random) },
    ReassignClass {
        name: "a lot of a large sheet with a fault",
        count: 300,
        make: |random, _| of(with_fault(large(random), random), random),
    },
];

/// A sheet with a grouping of mostly n bytes; a running count, a lot and a value that are mostly right.
pub fn of(sheet: Vec<u8>, random: &mut Random) -> Reassignment {
    let grouping = grouping(lots(&sheet), random);
    let lot = some_lot(lots(&sheet) as u32, random);
    let count = random.pick(&counts(&sheet, &grouping, lot));
    let value = some_value(&grouping, random);
    Reassignment { sheet, grouping, count, lot, value }
}

/// Mostly a lot that there is.
fn some_lot(lots: u32, random: &mut Random) -> u32 {
    if random.chance(12) || lots == 0 {
        return random.pick(&odd_lots(lots));
    }
    random.range(1, lots as usize) as u32
}

/// Lots at both ends, and those that 21 refuses: 0, the first above n, and numbers whose last byte or last two bytes alone would be a lot.
pub fn odd_lots(lots: u32) -> Vec<u32> {
    vec![0, 1, lots, lots + 1, 128, 129, 255, 256, 257, 256 + lots, 65_535, 65_536, 65_537, 65_536 + lots, (1 << 31) + 1, u32::MAX]
}

/// Running counts: the right one several times, those at and around each edge of 22, m the most often of these, and numbers whose last byte or last two bytes
/// alone would pass.
pub fn counts(sheet: &[u8], grouping: &[u8], lot: u32) -> Vec<u32> {
    let Edges { right, named, conditions } = Edges::of(sheet, grouping, lot);
    let edges = [named.wrapping_sub(1), named, named + 1, conditions.saturating_sub(1), conditions, conditions + 1];
    let others = [0, 256, 257, 256 + right, 65_536, 65_536 + right, (1 << 31) + right, u32::MAX];
    [[right; 14].as_slice(), &[right.saturating_sub(1), right + 1], &[conditions; 3], &edges, &others].concat()
}

/// The count over all conditions, that over the conditions which name the lot, and m. All are 0 where the sheet or the grouping is refused.
#[derive(Clone, Copy, Default)]
pub struct Edges {
    pub right: u32,
    pub named: u32,
    pub conditions: u32,
}

impl Edges {
    pub fn of(sheet: &[u8], grouping: &[u8], lot: u32) -> Edges {
        let [0, right, ..] = numbers(&second::count_unmet(sheet, grouping)) else { return Edges::default() };
        let sheet = accept(sheet).expect("a sheet that was counted");
        let named = unmet(&naming(&sheet, lot as usize), grouping) as u32;
        Edges { right, named, conditions: sheet.conditions.len() as u32 }
    }
}

/// Mostly a number that some lot has, so that lots come together; often lot 0's, or the greatest.
pub fn some_value(grouping: &[u8], random: &mut Random) -> u8 {
    match random.below(10) {
        0 | 1 => 0,
        2 => 255,
        3 => random.byte(),
        4 | 5 => random.below(4) as u8,
        _ if grouping.is_empty() => 1,
        _ => random.pick(grouping),
    }
}

/// Few lots and conditions of many terms, so that most conditions have most lots, several times and in both fields of a term.
pub fn named_often(random: &mut Random) -> Vec<u8> {
    let shape = Shape {
        lots: random.range(1, 3),
        conditions: random.range(1, 12),
        terms: 120,
        longest: random.range(2, 10),
        same: random.pick(&[0, 10, 50, 90, 100]),
        zero: random.pick(&[0, 10, 30]),
        twice: random.pick(&[20, 50, 100]),
        repeated: random.pick(&[0, 30, 60]),
        withdrawn: random.pick(&[0, 0, 20]),
        all: false,
    };
    write(&shape, random)
}

/// As many conditions as there may be, or one less, of few terms each; a lot is named by most of them, or by few.
pub fn most_conditions(random: &mut Random) -> Vec<u8> {
    let shape = Shape {
        lots: random.pick(&[1, 2, 5, 30, MOST_LOTS]),
        conditions: random.pick(&[MOST_CONDITIONS, MOST_CONDITIONS, MOST_CONDITIONS - 1]),
        terms: MOST_TERMS,
        longest: random.range(1, 4),
        same: random.pick(&[0, 20, 50, 80, 100]),
        zero: random.pick(&[0, 5, 30]),
        twice: random.pick(&[0, 20]),
        repeated: random.pick(&[0, 5]),
        withdrawn: random.pick(&[0, 1, 30]),
        all: false,
    };
    write(&shape, random)
}

/// Conditions of forty terms and more, up to one that has all that there may be. They are often unmet, since all terms are of one sign.
pub fn long_conditions(random: &mut Random) -> Vec<u8> {
    let shape = Shape {
        lots: random.pick(&[2, 10, MOST_LOTS]),
        conditions: random.pick(&[1, 2, 10]),
        terms: MOST_TERMS,
        longest: random.pick(&[40, 100, MOST_TERMS]),
        same: random.pick(&[0, 100, 100, 99]),
        zero: random.pick(&[0, 1, 10]),
        twice: 0,
        repeated: 0,
        withdrawn: random.pick(&[0, 20]),
        all: random.chance(30),
    };
    write(&shape, random)
}

/// No lots, where terms can name lot 0 alone; no conditions; or neither.
fn without(random: &mut Random) -> Vec<u8> {
    let (lots, conditions) = random.pick(&[(0, 0), (0, 4), (5, 0), (MOST_LOTS, 0), (0, MOST_CONDITIONS)]);
    let (zero, withdrawn) = (random.pick(&[0, 100]), random.pick(&[0, 30, 100]));
    write(&Shape { lots, conditions, terms: 300, longest: 3, same: 50, zero, twice: 0, repeated: 0, withdrawn, all: false }, random)
}

fn damaged(random: &mut Random) -> Vec<u8> {
    let sheet = if random.chance(60) { tiny(random) } else { small(random) };
    let once = with_fault(sheet, random);
    if random.chance(30) && once.len() >= 6 { with_fault(once, random) } else { once }
}

fn with_fault(sheet: Vec<u8>, random: &mut Random) -> Vec<u8> {
    let mut damaged = Damaged::of(sheet);
    damaged.fault(random);
    damaged.bytes
}
