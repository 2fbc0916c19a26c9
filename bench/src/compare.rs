//! Nothing is timed before the contenders agree: in the answer, in the count that the input is known to have, and in every byte of all buffers.
use crate::families::ENDS;
use crate::jobs::{Buffers, Job, OWN, PAINT, Service, packed_length};
use crate::random::Random;
use crate::reassign::Reassignment;
use crate::records::{self, refused};
use crate::repack::{self, Repack};
use crate::sheets::{MOST_BYTES, Sheet, apart, same};
use crate::{check, evaluations, families, limited_compare, lists, merges, read, reassignments, terms};
use std::collections::HashSet;
use std::ops::RangeInclusive;

/// Changed lists are tried where a list is shorter than this.
const SHORT_LIST: usize = 8 * 10_000;

/// Stops the run where a contender differs from the product.
pub fn agree(job: &Job, what: &str) {
    let outcome = |contender| {
        let mut buffers = Buffers::new();
        (job.run(contender, &mut buffers), buffers)
    };
    let names = job.service.contenders();
    let product = outcome(0);
    for (contender, name) in names.iter().enumerate().skip(1) {
        let other = outcome(contender);
        assert!(other == product, "{}{what}: {name} answers {:?}, the product {:?}, or the buffers differ", job.name, other.0, product.0);
    }
}

/// The same job with a list that is changed.
fn with_list(job: &mut Job, list: Vec<u8>, what: &str) {
    let whole = std::mem::replace(&mut job.given, list);
    agree(job, what);
    job.given = whole;
}

/// About 200 bytes of the list, each changed by itself, and the list without its last record.
fn changed_lists(job: &mut Job) {
    for at in (0..job.given.len()).step_by(job.given.len() / 200 + 1) {
        let mut list = job.given.clone();
        list[at] ^= 1;
        with_list(job, list, ", a byte changed");
    }
    with_list(job, job.given[..job.given.len() - 8].to_vec(), ", the last record missing");
}

/// Each bit of a sheet changed by itself, and the sheet cut at each length.
pub fn each_change(sheet: &[u8], same: impl Fn(&[u8], &str, usize)) {
    some_changes(sheet, 1, same);
}

/// The same at places of the sheet that are `step` bytes apart.
pub fn some_changes(sheet: &[u8], step: usize, same: impl Fn(&[u8], &str, usize)) {
    let mut bytes = sheet.to_vec();
    for at in (0..bytes.len()).step_by(step) {
        same(&sheet[..at], "cut at", at);
        for bit in 0..8 {
            bytes[at] ^= 1 << bit;
            same(&bytes, "changed at", at);
            bytes[at] ^= 1 << bit;
        }
    }
}

fn same_reading(name: &str, bytes: &[u8], what: &str, at: usize) {
    let answers = read::ALL.map(|(_, read)| read(bytes));
    assert!(answers.iter().all(|answer| *answer == answers[0]), "{name}: the readers differ, {what} {at}");
}

fn changed_readings(job: &Job) {
    each_change(&job.bytes, |bytes, what, at| same_reading(&job.name, bytes, what, at));
}

/// Up to three changes at once, each a record that becomes vacant, or a head or a next that is zero, the following record or any other: chains come to vacant
/// records and to records that were reached before, and leave others out.
fn changed_chains(job: &Job, seed: u64) {
    let mut random = Random::new(seed);
    let (_, conditions, records) = terms::header(&job.bytes);
    let front = 6 + 2 * conditions;
    for round in 0..200 {
        let mut bytes = job.bytes.clone();
        for _ in 0..=random.below(3) {
            let record = random.below(records);
            let at = front + 8 * record;
            let name = [0, record + 2, random.below(records + 1)][random.below(3)] as u16;
            match random.below(3) {
                0 => bytes[at..at + 8].fill(0),
                1 => bytes[at + 6..at + 8].copy_from_slice(&name.to_le_bytes()),
                _ => {
                    let head = 6 + 2 * random.below(conditions);
                    bytes[head..head + 2].copy_from_slice(&name.to_le_bytes());
                }
            }
        }
        same_reading(&job.name, &bytes, "chains changed, round", round);
    }
}

/// The repackers that check the sheet on every changed one, the others on those that a reader accepts.
fn changed_repackings(job: &Job) {
    let outcome = |repack: Repack, bytes: &[u8]| {
        let mut out = vec![PAINT; MOST_BYTES];
        (repack(bytes, &mut out), out)
    };
    each_change(&job.bytes, |bytes, what, at| {
        let product = outcome(repack::ALL[0].1, bytes);
        let others = if read::tuned::read(bytes).check == 0 { &repack::ALL[1..] } else { &repack::CHECKED[1..] };
        for (name, repack) in others {
            assert!(outcome(*repack, bytes) == product, "{}: {name} and the product differ, {what} {at}", job.name);
        }
    });
}

/// Repackings into outputs of these lengths. The bytes written are known: the packed sheet's. The rest of the output stays as it was, and so does the
/// whole where it is too short.
fn outputs(job: &Job, lengths: RangeInclusive<usize>) {
    let packed = job.sheet.packed();
    for length in lengths {
        let (known, written) = if length < packed.len() { (refused(16, packed.len()), 0) } else { (job.known, packed.len()) };
        for (name, repack) in repack::ALL {
            let mut out = vec![PAINT; length];
            let answer = repack(&job.bytes, &mut out);
            let as_known = out[..written] == packed[..written] && out[written..].iter().all(|byte| *byte == PAINT);
            assert!(answer == known && as_known, "{}: {name} answers {answer:?} to {length} bytes of output, or writes others", job.name);
        }
    }
}

/// A sheet with its records in order or, with a seed, in random order. Of the answers only a repacker's is known.
pub fn job_of(service: Service, name: String, sheet: &Sheet, shuffled: Option<u64>) -> Job {
    let bytes = shuffled.map_or_else(|| sheet.bytes(), |seed| sheet.bytes_shuffled(seed));
    let known = packed_length(sheet);
    Job {
        service,
        key: String::new(),
        name,
        family: "compared",
        sheet: sheet.clone(),
        bytes,
        given: Vec::new(),
        limit: 0,
        reassignment: Reassignment::NONE,
        units: 1,
        known,
    }
}

/// The refutation that the product's search writes for a sheet, if it isn't long; and with its first ground naming a withdrawn condition instead, each in turn,
/// which check 12 refuses.
fn refutation(search: &Job) {
    let mut buffers = Buffers::new();
    let answer = search.run(0, &mut buffers);
    if (answer.check, answer.first) != (0, 2) || 8 * answer.second as usize >= SHORT_LIST {
        return;
    }
    let given = buffers.store[..8 * answer.second as usize].to_vec();
    let ground = given.chunks(8).position(|record| record[0] == 2).expect("a refutation has a ground");
    let bytes = search.bytes.clone();
    let mut job = Job { given, bytes, ..job_of(Service::Check, search.name.clone(), &search.sheet, None) };
    agree(&job, ", its own refutation");
    let withdrawn = |c: &usize| search.sheet.conditions[*c].terms.is_empty();
    for c in (0..search.sheet.conditions.len()).filter(withdrawn) {
        job.given[8 * ground..8 * ground + 8].copy_from_slice(&records::ground(c + 1));
        agree(&job, ", a ground of a withdrawn condition");
        let product = job.run(0, &mut buffers);
        assert!(product == refused(12, ground + 1), "{}: {product:?} to a ground of a withdrawn condition", job.name);
    }
}

/// Every service on a sheet.
fn sheet_agrees(name: String, sheet: &Sheet, shuffled: Option<u64>) {
    let job = |service| job_of(service, name.clone(), sheet, shuffled);
    agree(&job(Service::Read), "");
    let search = job(Service::Search);
    agree(&search, "");
    refutation(&search);
    evaluations::of_search(&search, shuffled.unwrap_or(0));
    reassignments::of_sheet(&search, shuffled.unwrap_or(0));
    let (repack, packed) = (job(Service::Repack), sheet.packed().len());
    outputs(&repack, packed - 1..=packed + 1);
    outputs(&repack, repack.bytes.len() - 1..=repack.bytes.len() + 1);
}

/// A random sheet as it is and with each second to sixth condition withdrawn, so that records are vacant.
fn random_sheet(name: String, mut sheet: Sheet, seed: u64) {
    sheet_agrees(name.clone(), &sheet, Some(seed));
    sheet.withdraw_each(2 + seed as usize % 5);
    for shuffled in [None, Some(seed)] {
        let name = format!("{name}, some conditions withdrawn");
        sheet_agrees(name.clone(), &sheet, shuffled);
        changed_chains(&job_of(Service::Read, name, &sheet, shuffled), seed);
    }
}

/// Random sheets, of few lots and of many. With lot 0: of few lots and of many too, of all 129, and of those at both ends. The searches' answers aren't known
/// beforehand.
pub fn random_sheets() {
    for seed in 1..=100 {
        let lots = 4 + seed as usize;
        random_sheet(format!("random sheet {seed}"), families::mixed(seed, lots), seed);
        let with_zero = match seed % 4 {
            0 => families::from_zero(families::mixed(seed, 129)),
            1 => families::mixed_ends(seed),
            _ => families::from_zero(families::mixed(seed, lots)),
        };
        random_sheet(format!("random sheet {seed} with lot 0"), with_zero, seed);
    }
}

/// Random lists whose splits name lots at both ends, lot 0 among them, once and twice. Some pass, and others fail at a ground.
pub fn random_lists() {
    let (sheet, mut checks) = (families::each_term_of(ENDS), HashSet::new());
    for seed in 1..=2000 {
        let given = lists::random(seed, ENDS, sheet.conditions.len(), 12, 0);
        let job = Job { given, ..job_of(Service::Check, format!("random list {seed}"), &sheet, None) };
        agree(&job, "");
        checks.insert(check::ALL[0].1(&job.bytes, &job.given).check);
    }
    assert!(checks == HashSet::from([0, 12]), "the random lists have only these answers: {checks:?}");
}

/// Two small sheets, without lot 0 and with it, each with each set of its conditions withdrawn, and sheets without a lot: vacant records alone, and terms
/// of lot 0 alone. They are read with each change too.
pub fn withdrawn_sheets() {
    let mut vacant = Sheet::new(0);
    vacant.withdrawn(3);
    small_sheets("small sheet", &families::two_ways(1), vacant);
    let mut zero = Sheet::new(0);
    zero.condition([apart(0, 0), same(0, 0)]);
    zero.withdrawn(1);
    zero.condition([same(0, 0)]);
    small_sheets("small sheet with lot 0", &families::from_zero(families::two_ways(1)), zero);
}

fn small_sheets(name: &str, whole: &Sheet, without_lots: Sheet) {
    let sets = (0..1 << whole.conditions.len()).map(|set: u32| {
        let mut sheet = whole.clone();
        let withdrawn = |c: &usize| set >> c & 1 == 1;
        (0..sheet.conditions.len()).filter(withdrawn).for_each(|c| sheet.conditions[c].withdraw());
        sheet
    });
    for (i, sheet) in sets.chain([without_lots]).enumerate() {
        for shuffled in [None, Some(1)] {
            let name = format!("{name} {i}, some conditions withdrawn");
            sheet_agrees(name.clone(), &sheet, shuffled);
            let read = job_of(Service::Read, name.clone(), &sheet, shuffled);
            changed_readings(&read);
            changed_chains(&read, i as u64);
            changed_repackings(&job_of(Service::Repack, name.clone(), &sheet, shuffled));
            merges::of_small(&name, &sheet, whole, shuffled);
            for given in evaluations::groupings(sheet.lots, i as u64) {
                let job = Job { given, ..job_of(Service::Evaluate, name.clone(), &sheet, shuffled) };
                evaluations::changed(&job);
                let reassignment = reassignments::some(&sheet, &job.given, i);
                reassignments::changed(&Job { reassignment, ..job }, 1);
            }
        }
    }
}

/// The list that the product's search writes for the sheet of a check.
fn own_list(job: &Job) -> Vec<u8> {
    let limited = |sheet: &[u8], grouping: &mut [u8], store: &mut [u8]| lihumbay::raw::search_limited(sheet, job.limit, grouping, store);
    if job.service == Service::CheckLimited { lists::own(limited, &job.bytes) } else { lists::own(lihumbay::raw::search, &job.bytes) }
}

/// All that is compared before a job is timed.
pub fn compare(job: &mut Job) {
    agree(job, "");
    let product = job.run(0, &mut Buffers::new());
    assert!(product == job.known, "{}: {product:?}, and not {:?}", job.name, job.known);
    if job.family == OWN {
        assert!(job.given == own_list(job), "{}: the product's search writes another list", job.name);
    }
    match job.service {
        Service::Search => {}
        Service::SearchLimited => limited_compare::limits(job),
        Service::Check | Service::CheckLimited if job.given.len() < SHORT_LIST => changed_lists(job),
        Service::Check | Service::CheckLimited => {}
        Service::Read => changed_readings(job),
        Service::Evaluate | Service::CountUnmet => evaluations::changed(job),
        Service::Reassign => reassignments::of_job(job),
        Service::Repack => {
            outputs(job, 0..=job.bytes.len() + 1);
            changed_repackings(job);
        }
        Service::Merge => merges::changed(job),
    }
}
