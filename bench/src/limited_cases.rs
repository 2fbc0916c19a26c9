//! The sheets that the limited searches run on and the lists that the limited checkers walk, each with its limit and what it is known to come to.
use crate::cases::{Answer, Case, SLOW, case};
use crate::families::{all_apart, free, from_zero, graph, long_condition, long_limited, mixed};
use crate::jobs::{Job, OWN, Service, check_job, search_job};
use crate::lists::{self, Between};
use crate::search::tuned_limited;
use crate::slow;

/// A case under a limit.
struct Limited {
    limit: u32,
    case: Case,
}

fn limited(limit: u32, case: Case) -> Limited {
    let (key, name) = (format!("{}-{limit}", case.key), format!("{}, limit {limit}", case.name));
    Limited { limit, case: Case { key, name, ..case } }
}

/// Each two of lots 0 to 22 apart, so n is 22: one class fewer than there are lots is too few. A search sets the pairs of the classes that count apart, a
/// ground under each, and ends at a clique.
fn cliques() -> Vec<Limited> {
    let sheet = || from_zero(all_apart(23, 23));
    let one = |(limit, answer): (u32, Answer)| {
        let nodes = if answer == Answer::Met { 1 } else { limit as usize * (limit as usize + 1) + 1 };
        limited(limit, case("clique", "lots 0 to 22 all apart", "clique", sheet(), answer, nodes))
    };
    [(23, Answer::Met), (22, Answer::Cannot), (21, Answer::Cannot), (4, Answer::Cannot)].map(one).into()
}

/// Lots 1 to 23 all apart, and lot 0 free, so that it is tried together with each that counts; then the same among lots that no condition names.
fn cliques_beside_zero() -> Vec<Limited> {
    let beside = |lots: usize, key: &str, name: &str, limit: u32| {
        let g = limit as usize;
        let (answer, nodes) = if limit == 23 { (Answer::Met, 2) } else { (Answer::Cannot, g * g * g + g * g + 2 * g + 1) };
        limited(limit, case(key, name, "clique", all_apart(23, lots), answer, nodes))
    };
    let alone = [23, 22, 4].map(|limit| beside(23, "beside", "lots 1 to 23 all apart", limit));
    let among = [22, 4].map(|limit| beside(128, "among", "23 of 128 lots all apart", limit));
    alone.into_iter().chain(among).collect()
}

/// Lots without a condition: each split joins two classes, until few enough are left.
fn free_lots() -> Vec<Limited> {
    let one = |limit: u32| limited(limit, case("free", "128 free lots", "free lots", free(128), Answer::Met, 130 - limit as usize));
    [1, 2, 64].map(one).into()
}

/// Random pairs of lots that must be apart, and a class for each of a few colours, lot 0's among them.
fn graphs() -> Vec<Limited> {
    let one = |(seed, lots, edges, limit, answer, nodes): (u64, usize, usize, u32, Answer, usize)| {
        let (key, name) = (format!("graph-{lots}-{edges}-{seed}"), format!("{lots} lots, {edges} random pairs apart"));
        limited(limit, case(&key, &name, "graph", graph(seed, lots, edges), answer, nodes))
    };
    let met = [(1, 20, 60, 4, Answer::Met, 24026), (3, 20, 100, 6, Answer::Met, 20668), (1, 30, 100, 4, Answer::Met, 61062)];
    let cannot = [(1, 16, 60, 5, Answer::Cannot, 29921), (3, 20, 100, 5, Answer::Cannot, 47463), (1, 30, 100, 3, Answer::Cannot, 29287)];
    let full = [(1, 60, 256, 5, Answer::Full, usize::MAX)];
    met.into_iter().chain(cannot).chain(full).map(one).collect()
}

/// The random sheets of the search at several limits. The greatest of each is above the classes that are left, so that the nodes are those without a limit.
fn random_sheets() -> Vec<Limited> {
    let one = |(seed, lots, limit, answer, nodes): (u64, usize, u32, Answer, usize)| {
        let (key, name) = (format!("mixed-{lots}-{seed}"), format!("random 256 x 2 to 4, {lots} lots, seed {seed}"));
        limited(limit, case(&key, &name, "random", mixed(seed, lots), answer, nodes))
    };
    let (met, cannot, full) = (Answer::Met, Answer::Cannot, Answer::Full);
    let large = [(31, 128, 2, met, 32734), (31, 128, 16, met, 32692), (31, 128, 64, met, 32688)];
    let small = [(53, 48, 2, full, usize::MAX), (53, 48, 3, met, 36005), (98, 20, 2, cannot, 54975)];
    large.into_iter().chain(small).map(one).collect()
}

/// A path of 1,024 splits, and cliques under as many pairs as a sheet can have apart beside conditions that multiply nodes.
fn slow_sheets() -> Vec<Limited> {
    let deep = case("deep", "one condition of 1023 terms, lots 0 and 1 apart", SLOW, long_limited(1023), Answer::Cannot, 4 * 1023 + 1);
    let steady = case("slow", "slow: 21 classes, 210 pairs", SLOW, slow::cliques(21, 5, 7), Answer::Cannot, slow::steady_nodes(210, 5, 7));
    vec![limited(1, deep), limited(20, steady)]
}

fn all() -> Vec<Limited> {
    [cliques(), cliques_beside_zero(), free_lots(), graphs(), random_sheets(), slow_sheets()].into_iter().flatten().collect()
}

/// The limited searches by key.
pub fn searches(wanted: &dyn Fn(&str) -> bool) -> Vec<Job> {
    let job = |Limited { limit, case }| Job { service: Service::SearchLimited, limit, ..search_job(case) };
    all().into_iter().filter(|limited| wanted(&limited.case.key)).map(job).collect()
}

/// The check of what the limited search writes for a sheet that cannot be met under its limit.
fn own_job(Limited { limit, case }: Limited) -> Job {
    let (key, name) = (format!("own-{}", case.key), format!("own, {}", case.name));
    let search = |sheet: &[u8], grouping: &mut [u8], store: &mut [u8]| tuned_limited::search(sheet, limit, grouping, store);
    under_limit(limit, check_job(key, name, OWN, case.sheet, |bytes| lists::own(search, bytes)))
}

fn under_limit(limit: u32, job: Job) -> Job {
    Job { service: Service::CheckLimited, limit, ..job }
}

/// Lists of cliques of so many classes under all their pairs, and the most cliques that they have.
fn clique_lists(wanted: &dyn Fn(&str) -> bool) -> Vec<Job> {
    let all = [
        (23, usize::MAX, Between::Nothing, ""),
        (46, usize::MAX, Between::Nothing, ""),
        (46, usize::MAX, Between::Others, ", other classes"),
        (46, usize::MAX, Between::Counted, ", others joined"),
        (128, 2000, Between::Nothing, ""),
    ];
    let mut jobs = Vec::new();
    for (classes, most, between, what) in all {
        let key = format!("cliques-{classes}{}", what.replace([',', ' '], "-"));
        if wanted(&key) {
            let name =
                format!("cliques of {classes} classes, {} pairs{what}", crate::axis::grouped(classes as u64 * (classes as u64 - 1) / 2));
            let list = |_: &[u8]| lists::cliques(classes, most, between);
            jobs.push(under_limit(classes as u32 - 1, check_job(key, name, "slow list", long_condition(1), list)));
        }
    }
    jobs
}

/// The limited checks by key; a list is made only where it is wanted.
pub fn checks(wanted: &dyn Fn(&str) -> bool) -> Vec<Job> {
    let refuted = all().into_iter().filter(|limited| limited.case.answer == Answer::Cannot);
    let mut jobs: Vec<Job> = refuted.filter(|limited| wanted(&format!("own-{}", limited.case.key))).map(own_job).collect();
    for joins in [0, 127] {
        let key = format!("splits-8256-{joins}");
        if wanted(&key) {
            let name = format!("8,256 splits above, {joins} join");
            let list = |_: &[u8]| lists::deep(lists::LIMITED_CHAIN, joins);
            jobs.push(under_limit(1, check_job(key, name, "slow list", long_condition(1023), list)));
        }
    }
    jobs.extend(clique_lists(wanted));
    jobs
}

#[cfg(test)]
mod tests {
    use super::*;
    use crate::records::{MOST, depth};
    use std::collections::HashSet;

    #[test]
    fn sheets_are_within_the_format_and_have_names_of_their_own() {
        let (mut keys, mut names) = (HashSet::new(), HashSet::new());
        for Limited { limit, case } in all() {
            let (lots, conditions, records) = (case.sheet.lots, case.sheet.conditions.len(), case.sheet.records());
            assert!((1..=129).contains(&limit) && lots <= 128 && conditions <= 256 && records <= 1024, "{}", case.key);
            assert!((case.nodes > MOST) == (case.answer == Answer::Full), "{}: {} nodes", case.key, case.nodes);
            assert!(keys.insert(case.key) && names.insert(case.name));
        }
    }

    #[test]
    fn lists_have_as_many_splits_above_as_may_be() {
        assert_eq!(depth(&lists::deep(lists::CHAIN, 0)), 1024);
        assert_eq!(depth(&lists::deep(lists::LIMITED_CHAIN, 127)), 8256);
        assert!(depth(&lists::cliques(128, 2000, Between::Nothing)) <= 8256);
    }
}
