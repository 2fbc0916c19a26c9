//! Runs inputs of the reassignment of a lot, and counts how often each kind of answer was seen. A failure names class, case and seed, and has the input in
//! hexadecimal.
use crate::random::Random;
use crate::reassign_laws::reassign_laws;
use crate::reassigned::{Reassigned, Reassignment, compare_reassignment};
use crate::run::seed;
use second::answer::numbers;
use second::limits::ZERO_LOT;
use std::collections::BTreeMap;

/// A class of input: its name, how many there are, and how the case of a number is made.
pub struct ReassignClass {
    pub name: &'static str,
    pub count: usize,
    pub make: fn(&mut Random, usize) -> Reassignment,
}

/// What an answer comes to.
#[derive(Clone, Copy, Debug, PartialEq, Eq, PartialOrd, Ord)]
pub enum Kind {
    /// With a right running count: fewer conditions are unmet, as many, though the byte is another, or more.
    Fewer,
    AsMany,
    More,
    /// The byte is the old one.
    OldByte,
    /// With a wrong running count that is let through: up to m afterwards, or above it.
    Wrong,
    AboveConditions,
    /// 21: lot 0, and a lot above n.
    ZeroLot,
    LotAbove,
    /// 22: above m, and below the unmet conditions that name the lot.
    CountAbove,
    CountBelow,
    /// Any other check.
    Check(u32),
}

/// The kinds that reassignments on accepted sheets, with a grouping that is long enough, come to.
pub const KINDS: [Kind; 10] = [
    Kind::Fewer,
    Kind::AsMany,
    Kind::More,
    Kind::OldByte,
    Kind::Wrong,
    Kind::AboveConditions,
    Kind::ZeroLot,
    Kind::LotAbove,
    Kind::CountAbove,
    Kind::CountBelow,
];

impl Kind {
    fn of(input: &Reassignment, found: &Reassigned) -> Kind {
        let conditions = || u32::from(u16::from_le_bytes([input.sheet[2], input.sheet[3]]));
        let [check, first, ..] = found.answer;
        match check {
            0 if found.grouping == input.grouping => Kind::OldByte,
            0 if first > conditions() => Kind::AboveConditions,
            0 if numbers(&second::count_unmet(&input.sheet, &input.grouping))[1] != input.count => Kind::Wrong,
            0 if first < input.count => Kind::Fewer,
            0 if first > input.count => Kind::More,
            0 => Kind::AsMany,
            21 if input.lot == ZERO_LOT as u32 => Kind::ZeroLot,
            21 => Kind::LotAbove,
            22 if input.count > conditions() => Kind::CountAbove,
            22 => Kind::CountBelow,
            check => Kind::Check(check),
        }
    }
}

/// How often each kind of answer was seen.
#[derive(Default)]
pub struct ReassignTally(BTreeMap<Kind, usize>);

impl ReassignTally {
    pub fn add(&mut self, input: &Reassignment, found: &Reassigned) {
        *self.0.entry(Kind::of(input, found)).or_default() += 1;
    }

    pub fn all(&self) -> usize {
        self.0.values().sum()
    }

    /// Each of these kinds was seen so often.
    pub fn at_least(&self, least: usize, kinds: &[Kind]) {
        for kind in kinds {
            let seen = self.0.get(kind).copied().unwrap_or(0);
            assert!(seen >= least, "{kind:?} was seen {seen} times only: {}", self.report());
        }
    }

    pub fn report(&self) -> String {
        format!("{:?}", self.0)
    }
}

pub fn run_reassignments(classes: &[ReassignClass]) -> ReassignTally {
    let mut tally = ReassignTally::default();
    for class in classes {
        (0..class.count).for_each(|number| run_one(class, number, &mut tally));
    }
    tally
}

fn run_one(class: &ReassignClass, number: usize, tally: &mut ReassignTally) {
    let seed = seed(class.name, number);
    let input = (class.make)(&mut Random::new(seed), number);
    match agreed(&input) {
        Ok(found) => tally.add(&input, &found),
        Err(difference) => panic!("class \"{}\", case {number}, seed {seed:#x}: {difference}\n{input}", class.name),
    }
}

/// Both implementations agree on it, and every law stands; else what differs.
fn agreed(input: &Reassignment) -> Result<Reassigned, String> {
    let found = compare_reassignment(input)?;
    reassign_laws(input, &found)?;
    Ok(found)
}

/// An input that no seed made. Where something differs, the test ends.
pub fn run_reassignment(input: &Reassignment, tally: &mut ReassignTally) -> Reassigned {
    let found = agreed(input).unwrap_or_else(|difference| panic!("{difference}\n{input}"));
    tally.add(input, &found);
    found
}
