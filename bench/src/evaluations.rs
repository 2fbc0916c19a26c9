//! What the evaluators and the counters of unmet conditions are compared on: several groupings of a sheet, each of them at each length, and sheets that are
//! changed.
use crate::compare::each_change;
use crate::evaluate::Evaluate;
use crate::jobs::{Buffers, Job};
use crate::random::Random;
use crate::records::{answered, refused};
use crate::{count, evaluate, read, terms};
use lihumbay::raw::Numbers;

/// All lots together, each by itself, and random groupings of few numbers, in which lots are often together; some are longer than the lots are many.
pub fn groupings(lots: usize, seed: u64) -> Vec<Vec<u8>> {
    let mut random = Random::new(seed);
    let mut all = vec![vec![1; lots], (0..lots).map(|lot| lot as u8).collect()];
    for (numbers, length) in [(2, lots), (3, lots + 1), (4, lots + 9), (5, 128), (6, 128)] {
        all.push((0..length).map(|_| 51 * random.below(numbers) as u8).collect());
    }
    all
}

/// Whether a reader accepts the sheet and the grouping has a byte for each lot: then those that don't check can be called too.
pub fn passes(sheet: &[u8], grouping: &[u8]) -> bool {
    let reading = read::tuned::read(sheet);
    reading.check == 0 && grouping.len() >= reading.first as usize
}

/// The product's answers, which must be the others' too: the evaluator's, which is given, and the counter's. Both refuse alike, and the count is 0 exactly
/// where every condition is met.
fn agreed(name: &str, sheet: &[u8], grouping: &[u8], what: &str, at: usize) -> Numbers {
    let passes = passes(sheet, grouping);
    let product = |all: &[(&str, Evaluate); 5], checked: &[(&str, Evaluate); 3]| {
        let product = all[0].1(sheet, grouping);
        for (contender, evaluate) in if passes { &all[1..] } else { &checked[1..] } {
            let answer = evaluate(sheet, grouping);
            assert!(answer == product, "{name}: {contender} answers {answer:?}, the product {product:?}, {what} {at}");
        }
        product
    };
    let (answer, count) = (product(&evaluate::ALL, &evaluate::CHECKED), product(&count::ALL, &count::CHECKED));
    let alike = if answer.check == 0 { count.check == 0 && (count.first == 0) == (answer.first == 0) } else { count == answer };
    assert!(alike, "{name}: the evaluator answers {answer:?} and the counter {count:?}, {what} {at}");
    answer
}

/// A grouping at each length from none to one byte more than the lots are many, and as long as it is: check 8 refuses what is too short.
fn each_length(name: &str, sheet: &[u8], grouping: &[u8]) {
    let (lots, ..) = terms::header(sheet);
    let mut longer = grouping.to_vec();
    longer.resize(grouping.len().max(lots + 1), 0);
    for length in (0..=lots + 1).chain([grouping.len()]) {
        let answer = agreed(name, sheet, &longer[..length], "a grouping of length", length);
        assert!((answer == refused(8, lots)) == (length < lots), "{name}: {answer:?} to a grouping of length {length}");
    }
}

/// The sheet of a search with several groupings, and with the one that the product's search writes where the sheet is met: that meets every condition.
pub fn of_search(search: &Job, seed: u64) {
    for grouping in groupings(search.sheet.lots, seed) {
        each_length(&search.name, &search.bytes, &grouping);
    }
    let mut buffers = Buffers::new();
    let found = search.run(0, &mut buffers);
    if (found.check, found.first) == (0, 1) {
        let answer = agreed(&search.name, &search.bytes, &buffers.grouping, "the search's own grouping, lots", search.sheet.lots);
        assert!(answer == answered(0, 0, 0), "{}: {answer:?} to the search's own grouping", search.name);
    }
}

/// The grouping of a job at each length, and with each change of the sheet.
pub fn changed(job: &Job) {
    each_length(&job.name, &job.bytes, &job.given);
    each_change(&job.bytes, |bytes, what, at| {
        agreed(&job.name, bytes, &job.given, what, at);
    });
}
