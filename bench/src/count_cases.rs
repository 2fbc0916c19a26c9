//! The sheets and groupings on which unmet conditions are counted and lots are reassigned, with the counts that are known of them.
use crate::families;
use crate::first_true::{self, Shape};
use crate::jobs::{Job, Service};
use crate::named::{self, Naming};
use crate::reassign::Reassignment;
use crate::records::answered;
use crate::sheets::{Condition, Sheet, Sign, Term};

/// A condition with terms of which none is true. The numbers are the lots', lot 0's first.
fn is_unmet(condition: &Condition, numbers: &[u8]) -> bool {
    let is_true = |term: &Term| (numbers[term.a] == numbers[term.b]) == (term.sign == Sign::Same);
    !condition.terms.is_empty() && !condition.terms.iter().any(is_true)
}

/// How many conditions of a sheet a grouping doesn't meet.
pub fn unmet(sheet: &Sheet, grouping: &[u8]) -> u32 {
    let numbers = [&[0], grouping].concat();
    sheet.conditions.iter().filter(|condition| is_unmet(condition, &numbers)).count() as u32
}

fn count_job(key: String, name: String, sheet: Sheet, given: Vec<u8>) -> Job {
    Job {
        service: Service::CountUnmet,
        key,
        name,
        family: "count",
        bytes: sheet.bytes(),
        units: sheet.conditions.len(),
        known: answered(unmet(&sheet, &given), 0, 0),
        sheet,
        given,
        limit: 0,
        reassignment: Reassignment::NONE,
    }
}

/// A lot with a byte in the grouping gets a value, from a running count that is right.
fn reassign_job(job: Job, lot: usize, value: u8) -> Job {
    let reassignment = Reassignment { count: job.known.first, lot: lot as u32, value };
    let mut after = job.given.clone();
    after[lot - 1] = value;
    let known = answered(unmet(&job.sheet, &after), 0, 0);
    Job { service: Service::Reassign, family: "reassignment", reassignment, known, ..job }
}

/// A chain of three lots, of which the first two have one number and the last another.
fn small() -> Job {
    count_job("three-lots".into(), "3 lots, 3 conditions of 1 term".into(), families::chain(3), vec![1, 1, 2])
}

/// Shapes of which all conditions are met or none is; random sheets, of which some are, one of them with half of the conditions withdrawn; and a small one.
pub fn counts() -> Vec<Job> {
    let of_shape = |(conditions, terms, place)| {
        let shape = Shape { conditions, terms, place };
        count_job(shape.key(), shape.name(), shape.sheet(), first_true::grouping())
    };
    let shapes = [(256, 4, Some(4)), (256, 4, None), (25, 40, Some(2)), (25, 40, None), (1, 1024, Some(1024))].map(of_shape);
    let of_random = |(key, name, sheet): (&str, &str, Sheet)| count_job(key.into(), name.into(), sheet, first_true::grouping());
    let random = [
        ("random", "256 random conditions of 4 terms", families::random(1, 256, 4)),
        ("withdrawn", "256 random conditions of 4 terms, half withdrawn", families::half_withdrawn(families::random(1, 128, 4))),
    ];
    shapes.into_iter().chain(random.map(of_random)).chain([small()]).collect()
}

/// The rows of `named`, and the small sheet, of which two conditions name lot 2.
pub fn reassignments() -> Vec<Job> {
    let of_naming = |naming: Naming| {
        let job = count_job(naming.key(), naming.name(), naming.sheet(), first_true::grouping());
        reassign_job(job, named::LOT, named::VALUE)
    };
    let small = reassign_job(small(), 2, 3);
    let small = Job { name: format!("{}, lot in 2", small.name), ..small };
    named::rows().into_iter().map(of_naming).chain([small]).collect()
}
