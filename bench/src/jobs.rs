//! What is measured: a service on one input, done by each of its contenders.
use crate::cases::{self, Answer, Case};
use crate::count_cases;
use crate::families;
use crate::first_true::{self, Shape};
use crate::limited_cases;
use crate::lists::Joins;
use crate::pairs::{self, Pair};
use crate::reassign::{self, Reassignment};
use crate::records::{MOST, answered, refused};
use crate::sheets::{MOST_BYTES, Sheet};
use crate::{check, count, evaluate, lists, merge, read, repack, search, slow};
use lihumbay::raw::Numbers;

#[derive(Clone, Copy, PartialEq, Eq)]
pub enum Service {
    Search,
    Check,
    SearchLimited,
    CheckLimited,
    Read,
    Evaluate,
    CountUnmet,
    Reassign,
    Repack,
    Merge,
}

impl Service {
    pub const ALL: [Service; 10] = [
        Service::Search,
        Service::Check,
        Service::SearchLimited,
        Service::CheckLimited,
        Service::Read,
        Service::Evaluate,
        Service::CountUnmet,
        Service::Reassign,
        Service::Repack,
        Service::Merge,
    ];

    /// The service of a word that a command was given.
    pub fn named(word: &str) -> Service {
        Service::ALL.into_iter().find(|known| known.word() == word).expect("a service by the name of its function, as `search_limited`")
    }

    pub fn word(self) -> &'static str {
        match self {
            Service::Search => "search",
            Service::Check => "check",
            Service::SearchLimited => "search_limited",
            Service::CheckLimited => "check_limited",
            Service::Read => "read",
            Service::Evaluate => "evaluate",
            Service::CountUnmet => "count_unmet",
            Service::Reassign => "reassign",
            Service::Repack => "repack",
            Service::Merge => "merge",
        }
    }

    /// What the costs are counted by.
    pub fn unit(self) -> &'static str {
        match self {
            Service::Search | Service::SearchLimited => "node",
            Service::Check | Service::CheckLimited => "record",
            Service::Read | Service::Repack | Service::Merge => "term record",
            Service::Evaluate | Service::CountUnmet | Service::Reassign => "condition",
        }
    }

    pub fn contenders(self) -> Vec<&'static str> {
        match self {
            Service::Search => search::ALL.map(|(name, _)| name).into(),
            Service::Check => check::ALL.map(|(name, _)| name).into(),
            Service::SearchLimited => search::LIMITED.map(|(name, _)| name).into(),
            Service::CheckLimited => check::LIMITED.map(|(name, _)| name).into(),
            Service::Read => read::ALL.map(|(name, _)| name).into(),
            Service::Evaluate => evaluate::ALL.map(|(name, _)| name).into(),
            Service::CountUnmet => count::ALL.map(|(name, _)| name).into(),
            Service::Reassign => reassign::ALL.map(|(name, _)| name).into(),
            Service::Repack => repack::ALL.map(|(name, _)| name).into(),
            Service::Merge => merge::ALL.map(|(name, _)| name).into(),
        }
    }
}

pub struct Job {
    pub service: Service,
    pub key: String,
    pub name: String,
    pub family: &'static str,
    /// The sheet that a call is given; for a merge, what comes of the two.
    pub sheet: Sheet,
    pub bytes: Vec<u8>,
    /// What a call is given beside the sheet: the list that the checker walks, the grouping that is evaluated, counted by or reassigned in, the second sheet of
    /// a merge. It is empty for the other services, and for a merge whose first sheet is lent twice.
    pub given: Vec<u8>,
    /// The limit of a limited search or check; 0 for the other services.
    pub limit: u32,
    /// The running count, the lot and its new number; none for the other services.
    pub reassignment: Reassignment,
    /// How many nodes, records of a list, term records, those of both sheets in a merge, or conditions: those that the evaluator looks at, and all of the sheet
    /// for a count or a reassignment.
    pub units: usize,
    pub known: Numbers,
}

/// The buffers that a search writes, of which a reassignment writes the first, and the one that a repacker or a merger writes.
#[derive(Clone, PartialEq, Eq)]
pub struct Buffers {
    pub grouping: Vec<u8>,
    pub store: Vec<u8>,
    pub out: Vec<u8>,
}

/// What the buffers are painted with, so that a byte which must stay as it is shows where it doesn't.
pub const PAINT: u8 = 170;

impl Buffers {
    /// The output is longer than the longest sheet.
    pub fn new() -> Buffers {
        Buffers { grouping: vec![PAINT; 128], store: vec![PAINT; 8 * MOST], out: vec![PAINT; MOST_BYTES + 64] }
    }
}

impl Job {
    pub fn run(&self, contender: usize, buffers: &mut Buffers) -> Numbers {
        match self.service {
            Service::Search => search::ALL[contender].1(&self.bytes, &mut buffers.grouping, &mut buffers.store),
            Service::Check => check::ALL[contender].1(&self.bytes, &self.given),
            Service::SearchLimited => search::LIMITED[contender].1(&self.bytes, self.limit, &mut buffers.grouping, &mut buffers.store),
            Service::CheckLimited => check::LIMITED[contender].1(&self.bytes, self.limit, &self.given),
            Service::Read => read::ALL[contender].1(&self.bytes),
            Service::Evaluate => evaluate::ALL[contender].1(&self.bytes, &self.given),
            Service::CountUnmet => count::ALL[contender].1(&self.bytes, &self.given),
            Service::Reassign => {
                // A call begins with the grouping as it is given, also where another came before it on the same buffers.
                buffers.grouping[..self.given.len()].copy_from_slice(&self.given);
                reassign::ALL[contender].1(&self.bytes, &mut buffers.grouping, self.reassignment)
            }
            Service::Repack => repack::ALL[contender].1(&self.bytes, &mut buffers.out),
            Service::Merge => merge::ALL[contender].1(&self.bytes, self.second(), &mut buffers.out),
        }
    }

    /// The second sheet of a merge.
    pub fn second(&self) -> &[u8] {
        if self.given.is_empty() { &self.bytes } else { &self.given }
    }

    pub fn answer(&self) -> String {
        let word = match (self.service, self.known.check, self.known.first) {
            (Service::Search | Service::SearchLimited, 0, 1) => "met",
            (Service::Search | Service::SearchLimited, 0, _) => "cannot",
            (Service::Search | Service::SearchLimited, _, _) => "full",
            (Service::Check | Service::CheckLimited, _, _) => "passes",
            (Service::Read, _, _) => "accepted",
            (Service::Evaluate, _, 0) => "all met",
            (Service::Evaluate, _, _) => "unmet",
            (Service::CountUnmet | Service::Reassign, _, unmet) => return format!("{unmet} unmet"),
            (Service::Repack, _, _) => "packed",
            (Service::Merge, 0, _) => "merged",
            (Service::Merge, _, _) => "refused",
        };
        word.into()
    }
}

pub fn search_job(case: Case) -> Job {
    let known = match case.answer {
        Answer::Met => answered(1, case.nodes as u32, 0),
        Answer::Cannot => answered(2, case.nodes as u32, 0),
        Answer::Full => refused(9, MOST),
    };
    let (bytes, units) = (case.sheet.bytes(), case.nodes.min(MOST));
    let Case { key, name, family, sheet, .. } = case;
    Job {
        service: Service::Search,
        key,
        name,
        family,
        sheet,
        bytes,
        given: Vec::new(),
        limit: 0,
        reassignment: Reassignment::NONE,
        units,
        known,
    }
}

pub fn check_job(key: String, name: String, family: &'static str, sheet: Sheet, list: impl Fn(&[u8]) -> Vec<u8>) -> Job {
    let bytes = sheet.bytes();
    let given = list(&bytes);
    let units = given.len() / 8;
    Job {
        service: Service::Check,
        key,
        name,
        family,
        sheet,
        bytes,
        given,
        limit: 0,
        reassignment: Reassignment::NONE,
        units,
        known: answered(0, 0, 0),
    }
}

/// The family of the search's own refutations. The tuned search makes them, since a set-up counts as many calls; they are compared with what the product writes.
pub const OWN: &str = "own refutation";

/// The check of what the search writes for a sheet that cannot be met.
fn own_job(case: Case) -> Job {
    let (key, name) = (format!("own-{}", case.key), format!("own, {}", case.name));
    check_job(key, name, OWN, case.sheet, |bytes| lists::own(search::tuned::search, bytes))
}

/// Lists of grounds of hundreds of "same" terms under hundreds of pairs.
fn ground_jobs(wanted: &dyn Fn(&str) -> bool) -> Vec<Job> {
    let mut jobs = Vec::new();
    for (terms, pairs) in [(250, 250), (250, 1000), (500, 500), (500, 1000), (1000, 1000)] {
        let key = format!("grounds-{terms}-{pairs}");
        if wanted(&key) {
            let name = format!("grounds of {terms} terms, {pairs} pairs apart");
            jobs.push(check_job(key, name, "slow list", families::long_condition(terms), |_| lists::apart(pairs)));
        }
    }
    if wanted("growing-500-750") {
        let name = "grounds of 500 terms, 500 to 750 pairs apart".into();
        jobs.push(check_job("growing-500-750".into(), name, "slow list", families::long_condition(500), |_| lists::growing(500, 250)));
    }
    for (joins, word, what) in [(Joins::Free, "classes", "other classes"), (Joins::Marked, "moved", "marks moved")] {
        for (terms, pairs) in [(250, 250), (500, 500), (1000, 1000)] {
            let key = format!("{word}-{terms}-{pairs}");
            if wanted(&key) {
                let name = format!("grounds of {terms} terms, {pairs} pairs, {what}");
                let list = |_: &[u8]| lists::joined(slow::ground_pairs(pairs), joins);
                jobs.push(check_job(key, name, "slow list", slow::grounds(terms, pairs), list));
            }
        }
    }
    jobs
}

/// The lists by key; a list is made only where it is wanted, since the search's own take a search.
fn check_jobs(wanted: &dyn Fn(&str) -> bool) -> Vec<Job> {
    let refuted = cases::all().into_iter().filter(|case| case.answer == Answer::Cannot);
    let mut jobs: Vec<Job> = refuted.filter(|case| wanted(&format!("own-{}", case.key))).map(own_job).collect();
    for joins in [0, 127] {
        let key = format!("splits-1024-{joins}");
        if wanted(&key) {
            let name = format!("1,024 splits above, {joins} join");
            jobs.push(check_job(key, name, "slow list", families::long_condition(1023), |_| lists::deep(lists::CHAIN, joins)));
        }
    }
    jobs.extend(ground_jobs(wanted));
    jobs
}

/// What a reader answers to a sheet.
fn counts(sheet: &Sheet) -> Numbers {
    answered(sheet.lots as u32, sheet.conditions.len() as u32, sheet.records() as u32)
}

/// What a repacker answers to a sheet, in whatever order its records stand.
pub fn packed_length(sheet: &Sheet) -> Numbers {
    answered(sheet.packed().len() as u32, 0, 0)
}

/// The reader and the repacker have the same inputs.
fn sheet_jobs(service: Service, known: fn(&Sheet) -> Numbers) -> Vec<Job> {
    let (largest, one_chain, small) = (families::random(1, 256, 4), families::longest_chain(), families::chain(4));
    let withdrawn = families::half_withdrawn(families::random(1, 128, 4));
    let job = |key: &str, name: &str, sheet: &Sheet, bytes: Vec<u8>| {
        let (known, units) = (known(sheet), sheet.records());
        let (key, name, sheet) = (key.into(), name.into(), sheet.clone());
        Job {
            service,
            key,
            name,
            family: "sheet",
            sheet,
            bytes,
            given: Vec::new(),
            limit: 0,
            reassignment: Reassignment::NONE,
            units,
            known,
        }
    };
    vec![
        job("largest", "256 conditions of 4 terms, records in order", &largest, largest.bytes()),
        job("largest-mixed", "the same, records in random order", &largest, largest.bytes_shuffled(1)),
        job("withdrawn", "256 conditions of 4 terms, half withdrawn, in order", &withdrawn, withdrawn.bytes()),
        job("withdrawn-mixed", "the same, half withdrawn, in random order", &withdrawn, withdrawn.bytes_shuffled(1)),
        job("one-chain", "one condition of 1,024 terms, in order", &one_chain, one_chain.bytes()),
        job("one-chain-mixed", "the same, in random order", &one_chain, one_chain.bytes_shuffled(1)),
        job("small", "4 conditions of 1 term", &small, small.bytes()),
    ]
}

/// The evaluator stops at the first condition that isn't met: where no term is true, at condition 1.
fn evaluate_job(shape: Shape) -> Job {
    let (sheet, met) = (shape.sheet(), shape.place.is_some());
    Job {
        service: Service::Evaluate,
        key: shape.key(),
        name: shape.name(),
        family: "first true",
        bytes: sheet.bytes(),
        sheet,
        given: first_true::grouping(),
        limit: 0,
        reassignment: Reassignment::NONE,
        units: if met { shape.conditions } else { 1 },
        known: answered(if met { 0 } else { 1 }, 0, 0),
    }
}

/// The same with lot 0 in half of the terms.
fn evaluate_zero_job() -> Job {
    let job = evaluate_job(first_true::ZERO_ROW);
    let sheet = first_true::with_zero(job.sheet);
    Job { key: format!("zero-{}", job.key), name: format!("{}, half with lot 0", job.name), bytes: sheet.bytes(), sheet, ..job }
}

/// What a merger answers, by the sheet that comes of the two.
fn merge_answer(merged: &Sheet) -> Numbers {
    if merged.conditions.len() > 256 {
        return refused(18, 2);
    }
    if merged.records() > 1024 { refused(18, 3) } else { packed_length(merged) }
}

/// The merge of two sheets whose bytes are given, none for the second where the first is lent twice.
pub fn merge_job(key: String, name: String, sheets: &[Sheet; 2], [bytes, given]: [Vec<u8>; 2]) -> Job {
    let sheet = pairs::merged(sheets);
    let (units, known) = (sheets.iter().map(Sheet::records).sum(), merge_answer(&sheet));
    Job {
        service: Service::Merge,
        key,
        name,
        family: "pair",
        sheet,
        bytes,
        given,
        limit: 0,
        reassignment: Reassignment::NONE,
        units,
        known,
    }
}

fn pair_job(pair: Pair) -> Job {
    let sheets = (pair.sheets)();
    merge_job(pair.key.into(), pair.name.into(), &sheets, pair.bytes(&sheets))
}

/// The jobs of a service whose key is wanted.
pub fn of(service: Service, wanted: &dyn Fn(&str) -> bool) -> Vec<Job> {
    let jobs = match service {
        Service::Search => cases::all().into_iter().filter(|case| wanted(&case.key)).map(search_job).collect(),
        Service::Check => check_jobs(wanted),
        Service::SearchLimited => limited_cases::searches(wanted),
        Service::CheckLimited => limited_cases::checks(wanted),
        Service::Read => sheet_jobs(service, counts),
        Service::Evaluate => first_true::rows().into_iter().map(evaluate_job).chain([evaluate_zero_job()]).collect(),
        Service::CountUnmet => count_cases::counts(),
        Service::Reassign => count_cases::reassignments(),
        Service::Repack => sheet_jobs(service, packed_length),
        Service::Merge => pairs::rows().into_iter().filter(|pair| wanted(pair.key)).map(pair_job).collect(),
    };
    jobs.into_iter().filter(|job| wanted(&job.key)).collect()
}

/// For the cost against sizes: the terms and the pairs of a sheet, its search, and the check of its refutation.
pub fn sizes() -> Vec<(usize, usize, [Job; 2])> {
    let sizes = || cases::sizes().into_iter();
    let jobs = |((terms, pairs, first), (_, _, second))| (terms, pairs, [search_job(first), own_job(second)]);
    sizes().zip(sizes()).map(jobs).collect()
}

/// The reading of a job's sheet.
fn reading(job: Job) -> Job {
    let (units, known) = (job.sheet.records(), counts(&job.sheet));
    Job { service: Service::Read, given: Vec::new(), reassignment: Reassignment::NONE, units, known, ..job }
}

/// For the cost against the place of the first true term: the evaluation of a sheet, and its reading.
pub fn of_shape(shape: Shape) -> [Job; 2] {
    [evaluate_job(shape), reading(evaluate_job(shape))]
}

/// For the parts of a reassignment: each one that is timed, and the reading of its sheet.
pub fn with_readings() -> Vec<[Job; 2]> {
    let readings = count_cases::reassignments().into_iter().map(reading);
    count_cases::reassignments().into_iter().zip(readings).map(|(job, reading)| [job, reading]).collect()
}

/// The job of a key, those of the places, of the parts and of the sizes among them.
pub fn one(service: Service, key: &str) -> Option<Job> {
    let is_it = |job: &Job| job.service == service && job.key == key;
    let of_places = || first_true::places().into_iter().flat_map(of_shape).find(is_it);
    let of_parts = || with_readings().into_iter().flatten().find(is_it);
    let of_sizes = || sizes().into_iter().flat_map(|(_, _, jobs)| jobs).find(is_it);
    of(service, &|known| known == key).into_iter().next().or_else(of_places).or_else(of_parts).or_else(of_sizes)
}
