//! What the limited searches and checkers are compared on beside their jobs: limits that aren't admitted, small random sheets under each limit with the
//! refutations that are found there, and random lists with cliques.
use crate::compare::{agree, job_of};
use crate::families::{self, FIRST};
use crate::jobs::{Buffers, Job, PAINT, Service};
use crate::records::{self, refused};
use crate::search::Limited;
use crate::sheets::Sheet;
use crate::{check, lists, search};
use lihumbay::raw::Numbers;
use std::collections::HashSet;

/// Those that check the sheet and the limit.
const SEARCHES: [(&str, Limited); 2] = [search::LIMITED[0], search::LIMITED[4]];
const CHECKERS: [(&str, check::Limited); 2] = [check::LIMITED[0], check::LIMITED[3]];

/// Check 20 comes before the buffers and the list, whatever they are, and behind the sheet; nothing is written.
pub fn limits(job: &Job) {
    for limit in [0, 130, 256, 257, 1 << 16, 1 << 31, u32::MAX] {
        let refused_all = |sheet: &[u8], grouping: usize, store: usize, known: Option<Numbers>| {
            let mut answers = HashSet::new();
            for (name, search) in SEARCHES {
                let (mut grouping, mut store) = (vec![PAINT; grouping], vec![PAINT; store]);
                answers.insert(search(sheet, limit, &mut grouping, &mut store));
                assert!(grouping.iter().chain(&store).all(|byte| *byte == PAINT), "{}: {name} writes where it refuses", job.name);
            }
            answers.extend(CHECKERS.map(|(_, check)| check(sheet, limit, &[])));
            assert!(answers.len() == 1 && known.is_none_or(|known| answers.contains(&known)), "{}: {answers:?} under {limit}", job.name);
        };
        let place = Some(refused(20, limit as usize));
        refused_all(&job.bytes, job.sheet.lots, 80, place);
        refused_all(&job.bytes, 0, 0, place);
        refused_all(&job.bytes[..job.bytes.len() - 1], 0, 0, None);
    }
}

fn numbers(given: &[u8]) -> usize {
    [&[0], given].concat().into_iter().collect::<HashSet<u8>>().len()
}

/// A sheet under a limit: all searches, and if it can't be met all checkers on what was found, under this limit and the ones beside it. The kind of the answer.
fn under(name: &str, sheet: &Sheet, limit: u32, shuffled: Option<u64>) -> &'static str {
    let search = Job { limit, ..job_of(Service::SearchLimited, format!("{name}, limit {limit}"), sheet, shuffled) };
    agree(&search, "");
    let mut buffers = Buffers::new();
    let answer = search.run(0, &mut buffers);
    if (answer.check, answer.first) == (0, 1) {
        let few = numbers(&buffers.grouping[..sheet.lots]) <= limit as usize;
        assert!(few, "{}: the grouping has more numbers than the limit", search.name);
        return "met";
    }
    if answer.check != 0 {
        return "full";
    }
    let given = buffers.store[..8 * answer.second as usize].to_vec();
    let has_cliques = given.chunks(8).any(|record| record == records::clique());
    for other in [limit - 1, limit, limit + 1].into_iter().filter(|other| (1..=129).contains(other)) {
        let bytes = search.bytes.clone();
        let job = Job { limit: other, given: given.clone(), bytes, ..job_of(Service::CheckLimited, search.name.clone(), sheet, None) };
        agree(&job, ", its refutation");
        let passes = job.run(0, &mut buffers).check == 0;
        assert!(passes == (other <= limit || !has_cliques), "{}: its refutation under {other}", job.name);
    }
    if has_cliques { "cannot, by cliques" } else { "cannot" }
}

/// Small random sheets under each limit that can matter and one above, as they are and with conditions withdrawn; and large ones under one limit each. There
/// are some with each answer.
pub fn random_sheets() {
    let mut answers = HashSet::new();
    for seed in 1..=300 {
        let mut sheet = families::few(seed);
        for limit in 1..=sheet.lots as u32 + 2 {
            answers.insert(under(&format!("few conditions {seed}"), &sheet, limit, Some(seed)));
        }
        sheet.withdraw_each(2 + seed as usize % 5);
        answers.insert(under(&format!("few conditions {seed}, some withdrawn"), &sheet, 1 + seed as u32 % 5, None));
    }
    for seed in 1..=40 {
        let sheet = families::from_zero(families::mixed(seed, 5 + 3 * seed as usize));
        answers.insert(under(&format!("random sheet {seed}"), &sheet, 1 + seed as u32 % 12, None));
    }
    assert!(answers.len() == 4, "the random sheets have only these answers: {answers:?}");
}

/// Random lists over all lots of a small sheet, with cliques among their grounds, under several limits. Some pass with a clique, and others fail.
pub fn random_lists() {
    let (sheet, mut seen) = (families::each_term_of(FIRST), HashSet::new());
    for seed in 1..=2000 {
        let given = lists::random(seed, FIRST, sheet.conditions.len(), 1 + seed as usize % 12, 2);
        let has_cliques = given.chunks(8).any(|record| record == records::clique());
        for limit in 1..=4 {
            let job = job_of(Service::CheckLimited, format!("random list {seed}, limit {limit}"), &sheet, None);
            let job = Job { limit, given: given.clone(), ..job };
            agree(&job, "");
            seen.insert((has_cliques, job.run(0, &mut Buffers::new()).check));
        }
    }
    assert!(seen == HashSet::from([(false, 0), (false, 12), (true, 0), (true, 12)]), "the random lists have only these answers: {seen:?}");
}
