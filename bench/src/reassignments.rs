//! What the reassigners are compared on: lots of a sheet reassigned one after the other, lots and running counts that are refused, groupings that are too
//! short, and sheets that are changed.
use crate::compare::{job_of, some_changes};
use crate::count_cases::unmet;
use crate::evaluations::{groupings, passes};
use crate::jobs::{Job, Service};
use crate::random::Random;
use crate::reassign::{self, Reassign, Reassignment};
use crate::records::{answered, refused};
use crate::sheets::Sheet;
use crate::{count, families, terms};
use lihumbay::raw::Numbers;
use std::collections::HashSet;

/// What a reassigner answers, and the grouping that it leaves.
fn outcome(reassign: Reassign, sheet: &[u8], grouping: &[u8], by: Reassignment) -> (Numbers, Vec<u8>) {
    let mut grouping = grouping.to_vec();
    (reassign(sheet, &mut grouping, by), grouping)
}

/// Whether there is nothing to refuse: then counting anew can be called too.
fn is_right(sheet: &[u8], grouping: &[u8], by: Reassignment) -> bool {
    let (lots, ..) = terms::header(sheet);
    (1..=lots).contains(&(by.lot as usize)) && count::tuned::count_unmet(sheet, grouping).first == by.count
}

/// The product's outcome, which must be the others' too: of those that check, on anything, and of the rest where they can be called. The grouping differs from
/// the one given in the lot's byte alone, and not at all where the product refuses.
fn agreed(name: &str, sheet: &[u8], grouping: &[u8], by: Reassignment, what: &str) -> (Numbers, Vec<u8>) {
    let product = outcome(reassign::ALL[0].1, sheet, grouping, by);
    let others = if !passes(sheet, grouping) {
        &reassign::CHECKED[1..]
    } else if is_right(sheet, grouping, by) {
        &reassign::ALL[1..]
    } else {
        &reassign::WITH_COUNT[1..]
    };
    for (contender, reassign) in others {
        let other = outcome(*reassign, sheet, grouping, by);
        let (answer, own) = (other.0, product.0);
        assert!(other == product, "{name}: {contender} answers {answer:?}, the product {own:?}, or the groupings differ, {what}, {by:?}");
    }
    let mut known = grouping.to_vec();
    if product.0.check == 0 {
        known[by.lot as usize - 1] = by.value;
    }
    assert!(product.1 == known, "{name}: other bytes are written, {what}, {by:?}");
    product
}

/// A reassignment by a running count that is right, of a lot that goes by a number.
pub fn some(sheet: &Sheet, grouping: &[u8], number: usize) -> Reassignment {
    let lot = 1 + number % sheet.lots.max(1);
    Reassignment { count: unmet(sheet, grouping), lot: lot as u32, value: 51 * (number % 6) as u8 }
}

/// Lots that aren't the sheet's, with a running count that is right and with one that isn't: check 21 comes before 22.
fn other_lots(job: &Job, right: Reassignment, grouping: &[u8]) {
    let (lots, conditions) = (job.sheet.lots as u32, job.sheet.conditions.len() as u32);
    for lot in [0, lots + 1, lots + 256, 1 << 16 | right.lot, u32::MAX] {
        for count in [right.count, conditions + 1] {
            let (answer, _) = agreed(&job.name, &job.bytes, grouping, Reassignment { count, lot, ..right }, "a lot that isn't the sheet's");
            assert!(answer == refused(21, lot as usize), "{}: {answer:?} to lot {lot}", job.name);
        }
    }
}

/// A running count that isn't right is refused by 22, where it is too great or too small, or goes through. How each fares.
fn other_counts(job: &Job, right: Reassignment, grouping: &[u8]) -> HashSet<&'static str> {
    let conditions = job.sheet.conditions.len() as u32;
    let counts = [0, 1, right.count.saturating_sub(1), right.count + 1, conditions, conditions + 1, 1 << 16 | right.count, u32::MAX];
    let fares = |count: u32| {
        let (answer, _) = agreed(&job.name, &job.bytes, grouping, Reassignment { count, ..right }, "any running count");
        let too_great = count > conditions;
        assert!(!too_great || answer == refused(22, count as usize), "{}: {answer:?} to a running count of {count}", job.name);
        if too_great {
            return "too great";
        }
        if answer.check == 22 { "too small" } else { "goes through" }
    };
    counts.into_iter().filter(|count| *count != right.count).map(fares).collect()
}

/// Groupings without a byte for each lot, as many bytes as there are lots, and one more.
fn lengths(job: &Job, right: Reassignment, grouping: &[u8]) {
    let lots = job.sheet.lots;
    let mut longer = grouping.to_vec();
    longer.resize(grouping.len().max(lots + 1), 0);
    for length in [0, lots / 2, lots.saturating_sub(1), lots, lots + 1] {
        let (answer, _) = agreed(&job.name, &job.bytes, &longer[..length], right, "a grouping of another length");
        assert!((answer == refused(8, lots)) == (length < lots), "{}: {answer:?} to a grouping of length {length}", job.name);
    }
}

/// Lots reassigned one after the other, each with the running count that the one before answered: that is the count over all conditions.
fn in_turn(job: &Job, random: &mut Random, grouping: &[u8]) {
    let (mut grouping, lots) = (grouping.to_vec(), job.sheet.lots);
    let mut count = unmet(&job.sheet, &grouping);
    for _ in 0..12 {
        let by = Reassignment { count, lot: 1 + random.below(lots) as u32, value: 51 * random.below(6) as u8 };
        let (answer, written) = agreed(&job.name, &job.bytes, &grouping, by, "in turn");
        (count, grouping) = (unmet(&job.sheet, &written), written);
        assert!(answer == answered(count, 0, 0), "{}: {answer:?} where {count} are unmet", job.name);
    }
}

/// The sheet of a job with several groupings. How running counts fare that aren't right.
pub fn of_sheet(job: &Job, seed: u64) -> HashSet<&'static str> {
    let (mut random, mut seen) = (Random::new(seed), HashSet::new());
    for grouping in groupings(job.sheet.lots, seed) {
        let right = some(&job.sheet, &grouping, random.below(1024));
        other_lots(job, right, &grouping);
        if job.sheet.lots > 0 {
            in_turn(job, &mut random, &grouping);
            seen.extend(other_counts(job, right, &grouping));
        }
        lengths(job, right, &grouping);
    }
    seen
}

/// Small random sheets, as they are and with conditions withdrawn. Running counts that aren't right fare in each way.
pub fn random_sheets() {
    let mut seen = HashSet::new();
    for seed in 1..=300 {
        let (name, mut sheet) = (format!("few conditions {seed}"), families::few(seed));
        seen.extend(of_sheet(&job_of(Service::Reassign, name.clone(), &sheet, Some(seed)), seed));
        sheet.withdraw_each(2 + seed as usize % 5);
        seen.extend(of_sheet(&job_of(Service::Reassign, format!("{name}, some withdrawn"), &sheet, Some(seed)), seed));
    }
    assert!(seen.len() == 3, "running counts that aren't right fare only so: {seen:?}");
}

/// The reassignment of a job with changes of the sheet at places that are `step` bytes apart.
pub fn changed(job: &Job, step: usize) {
    some_changes(&job.bytes, step, |bytes, what, at| {
        agreed(&job.name, bytes, &job.given, job.reassignment, &format!("{what} {at}"));
    });
}

/// All that the sheet of a timed job is compared on: a long one is changed at about a hundred places, an odd number of bytes apart, so that they go through all
/// bytes of a record.
pub fn of_job(job: &Job) {
    other_lots(job, job.reassignment, &job.given);
    other_counts(job, job.reassignment, &job.given);
    lengths(job, job.reassignment, &job.given);
    changed(job, (job.bytes.len() / 100) | 1);
}
