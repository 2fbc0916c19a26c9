//! What the mergers are compared on: outputs of several lengths, random pairs of sheets, and pairs of which one sheet is changed, or both.
use crate::compare::some_changes;
use crate::families::from_zero;
use crate::jobs::{self, Job, PAINT};
use crate::merge::{self, Merge};
use crate::pairs::{random_pair, some_withdrawn};
use crate::read;
use crate::records::refused;
use crate::sheets::{MOST_BYTES, Sheet};
use lihumbay::raw::Numbers;
use std::collections::HashSet;

/// What a merger answers, and the output that it leaves.
fn outcome(merge: Merge, first: &[u8], second: &[u8], length: usize) -> (Numbers, Vec<u8>) {
    let mut out = vec![PAINT; length];
    (merge(first, second, &mut out), out)
}

/// Merges into outputs of these lengths. The bytes written are known: those of the packed sheet that comes of the two. The rest of the output stays as it was,
/// and so does the whole where a check refuses.
fn outputs(job: &Job, lengths: impl IntoIterator<Item = usize>) {
    let packed = job.sheet.packed();
    for length in lengths {
        let too_short = job.known.check == 0 && length < packed.len();
        let known = if too_short { refused(19, packed.len()) } else { job.known };
        let mut out = vec![PAINT; length];
        if known.check == 0 {
            out[..packed.len()].copy_from_slice(&packed);
        }
        for (name, merge) in merge::ALL {
            let (answer, written) = outcome(merge, &job.bytes, job.second(), length);
            assert!(
                answer == known && written == out,
                "{}: {name} answers {answer:?} to {length} bytes of output, or writes others",
                job.name
            );
        }
    }
}

/// Outputs of no byte, around the length that is needed by more than a record, and of the most that a sheet has.
fn near_lengths(job: &Job) {
    let needed = job.sheet.packed().len().min(MOST_BYTES);
    outputs(job, [0, 6, MOST_BYTES, MOST_BYTES + 9].into_iter().chain(needed.saturating_sub(9)..=needed + 9));
}

/// The product on sheets of which some may be refused: then it answers as the first reading that refuses, with the number of that sheet, and those that check
/// agree. Where both are accepted all agree.
fn agreed(job: &Job, first: &[u8], second: &[u8], what: &str, at: usize) {
    let product = outcome(merge::ALL[0].1, first, second, MOST_BYTES);
    let refusal = merge::refusal(read::tuned::read, [first, second]);
    if let Some(known) = refusal {
        let (answer, name) = (product.0, &job.name);
        assert!(answer == known, "{name}: {answer:?} and not {known:?}, {what} {at}");
        assert!(product.1.iter().all(|byte| *byte == PAINT), "{name}: refused, and something is written, {what} {at}");
    }
    let others = if refusal.is_none() { &merge::ALL[1..] } else { &merge::CHECKED[1..] };
    for (name, merge) in others {
        assert!(outcome(*merge, first, second, MOST_BYTES) == product, "{}: {name} and the product differ, {what} {at}", job.name);
    }
}

/// A short sheet is changed at every place, a longer one at about a hundred: an odd number of bytes apart, so that they go through all bytes of a record.
fn step(sheet: &[u8]) -> usize {
    (sheet.len() / 100) | 1
}

/// Outputs of several lengths; either sheet changed by itself; and a changed first one with itself, and with a second that lacks its last byte, so that both
/// may be refused.
pub fn changed(job: &Job) {
    near_lengths(job);
    let (first, second) = (job.bytes.as_slice(), job.second());
    some_changes(first, step(first), |bytes, what, at| {
        agreed(job, bytes, second, what, at);
        agreed(job, bytes, bytes, what, at);
        agreed(job, bytes, &second[..second.len() - 1], what, at);
    });
    some_changes(second, step(second), |bytes, what, at| agreed(job, first, bytes, what, at));
}

/// The merge of two sheets with the records of both in order or, with a seed, in random order.
fn job_of(name: &str, sheets: &[Sheet; 2], shuffled: Option<u64>) -> Job {
    let bytes = sheets.each_ref().map(|sheet| shuffled.map_or_else(|| sheet.bytes(), |seed| sheet.bytes_shuffled(seed)));
    jobs::merge_job(String::new(), name.into(), sheets, bytes)
}

/// A small sheet with another and with itself, in either order, with each change.
pub fn of_small(name: &str, sheet: &Sheet, other: &Sheet, shuffled: Option<u64>) {
    for sheets in [[sheet, other], [other, sheet], [sheet, sheet]] {
        changed(&job_of(name, &sheets.map(Clone::clone), shuffled));
    }
}

/// A random pair as it is, with lot 0, and with each second to sixth condition of both sheets withdrawn.
fn of_seed(seed: u64) -> [(String, [Sheet; 2]); 3] {
    let name = |what: &str| format!("random pair {seed}{what}");
    [
        (name(""), random_pair(seed)),
        (name(" with lot 0"), random_pair(seed).map(from_zero)),
        (name(", some conditions withdrawn"), some_withdrawn(random_pair(seed), 2 + seed as usize % 5)),
    ]
}

/// What a pair is tried for.
fn kinds(sheets: &[Sheet; 2], job: &Job) -> impl Iterator<Item = &'static str> {
    let withdrawn = job.sheet.conditions.iter().filter(|condition| condition.terms.is_empty()).count();
    let with_terms = job.sheet.conditions.len() - withdrawn;
    let kinds = [
        ("vacant records", sheets[0].records() > sheets[0].terms()),
        ("too many conditions", job.known == refused(18, 2)),
        ("too many terms", job.known == refused(18, 3)),
        ("withdrawn conditions, merged", withdrawn > 1 && job.known.check == 0),
        ("too many conditions, but not with one withdrawn", with_terms < 256 && job.known == refused(18, 2)),
    ];
    kinds.into_iter().filter_map(|(kind, is_so)| is_so.then_some(kind))
}

/// Random pairs, and the first sheet of each lent twice. There are some of each kind.
pub fn random_pairs() {
    let mut tried = HashSet::new();
    for (seed, (name, sheets)) in (1..=100).flat_map(|seed| of_seed(seed).map(|pair| (seed, pair))) {
        let both_first = [&sheets[0]; 2].map(Clone::clone);
        for shuffled in [None, Some(seed)] {
            let job = job_of(&name, &sheets, shuffled);
            near_lengths(&job);
            near_lengths(&Job { given: Vec::new(), ..job_of(&format!("{name}, the first with itself"), &both_first, shuffled) });
            tried.extend(kinds(&sheets, &job));
        }
    }
    assert!(tried.len() == 5, "the random pairs are only of these kinds: {tried:?}");
}
