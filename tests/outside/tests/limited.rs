//! Searches with a limit on the number of classes: the archive beside the second implementation on random sheets and limits, families whose answer is known by
//! how they are made, and the order of checks.
use outside::case::{grouping, probe_limited};
use outside::compare::plain;
use outside::depth::depth;
use outside::limited::{Limited, REFUSED, every_limit, lots, searched};
use outside::limited_families::{DEEPEST_LIMITED, Deep, MOST_APART, all_apart, all_apart_count, free_count, free_grouping};
use outside::limited_laws::classes;
use outside::limited_run::{run_limited, run_limited_case};
use outside::limited_sheets::{SEARCHES, lots_apart, within};
use outside::random::Random;
use outside::refused::{refused_sheets, sheet_c};
use outside::run::{say, with_stack};
use outside::sheets::{small, tiny};
use second::limits::{MOST_LOTS, MOST_NODES, MOST_SPLITS_ABOVE, NODE_LENGTH};
use second::sheet::Term;
use second::store::{clique, ground, list_bytes, met, split};
use second::writer::{apart, same, sheet_bytes};

const FILL: u8 = 0x6D;

#[test]
fn archive_and_second_implementation_agree() {
    with_stack(|| {
        let tally = run_limited(SEARCHES);
        say(&format!("{} sheets and limits: {}", SEARCHES.iter().map(|class| class.count).sum::<usize>(), tally.report()));
        [1, 2, 3, 4, 5, 6, 7, 8, 9, 17, 20].iter().for_each(|&check| assert!(tally.search_refused(check) > 50, "check {check}"));
        [1, 2].iter().for_each(|&verdict| assert!(tally.searched(verdict) > 5_000, "verdict {verdict}"));
        assert!(tally.met_after_clique() > 500);
        [true, false].iter().for_each(|&has_clique| assert!(tally.checked(0, has_clique) > 2_000, "lists, with a clique: {has_clique}"));
    });
}

/// Every limit from 1 on, and those that are refused. A sheet that is met with one limit is met with each greater one.
#[test]
fn every_limit_of_a_sheet() {
    with_stack(|| {
        let mut random = Random::new(201);
        let mut turns = 0;
        for number in 0..600 {
            let sheet = [lots_apart, tiny, small][number % 3](&mut random);
            let mut verdicts = Vec::new();
            for limit in every_limit(lots(&sheet)) {
                let limited = Limited::of(sheet.clone(), limit, 400, &mut random);
                let found = run_limited_case(&Limited { store_length: 8 * 400, grouping_length: 128, ..limited }).search;
                verdicts.extend((found[0] == 0).then_some(found[1]));
            }
            // Where the store was full, nothing is known; else 2, cannot, comes before 1, met.
            assert!(verdicts.is_sorted_by(|one, next| one >= next), "{sheet:02x?}: {verdicts:?}");
            turns += usize::from(verdicts.contains(&1) && verdicts.contains(&2));
        }
        say(&format!("600 sheets with every limit, {turns} of them met with some and not with others"));
        assert!(turns > 150);
    });
}

/// With every store from none to one record more than is needed.
#[test]
fn every_store_up_to_the_count() {
    with_stack(|| {
        let mut random = Random::new(202);
        let mut full = 0;
        for _ in 0..300 {
            let (sheet, limit) = within(&mut random);
            let limit = limit - u32::from(random.chance(50));
            let found = probe_limited(&sheet, limit, 120);
            for records in 0..=found.count() + 1 {
                let store_length = NODE_LENGTH * records + random.below(NODE_LENGTH);
                let grouping_length = lots(&sheet) + random.below(2);
                let answers =
                    run_limited_case(&Limited { sheet: sheet.clone(), limit, grouping_length, store_length, list: vec![], fill: FILL });
                let is_full = records < found.count() || found.answer.is_none();
                assert_eq!(answers.search[0] == 9, is_full);
                full += usize::from(is_full);
            }
        }
        say(&format!("{full} stores that were full, each from none up to the count"));
        assert!(full > 5_000);
    });
}

/// The sheet with this limit is answered so, by both implementations and under every law; the records, and the grouping.
fn searches(lots: usize, conditions: &[Vec<Term>], limit: usize, expected: [u32; 3]) -> (Vec<u8>, Vec<u8>) {
    let limited = Limited::with_list(sheet_bytes(lots, conditions), limit as u32, MOST_NODES, vec![]);
    let [check, first, second] = expected;
    assert_eq!(run_limited_case(&limited).search, [check, first, second, 0], "{lots} lots, limit {limit}");
    let mut found = searched(&limited);
    found.store.truncate(NODE_LENGTH * second as usize);
    (found.store, found.grouping)
}

#[test]
fn sheets_without_conditions() {
    with_stack(|| {
        for lots in [0, 1, 2, 3, 64, 127, MOST_LOTS] {
            for limit in [1, 2, 3, lots.max(1), lots + 1, 128, 129].into_iter().filter(|limit| *limit <= 129) {
                let count = free_count(lots, limit);
                let (store, grouping) = searches(lots, &[], limit, [0, 1, count as u32]);
                let splits = (1..count).map(|lot| split(0, lot, 0));
                assert_eq!(store, list_bytes(&splits.chain([met()]).collect::<Vec<_>>()));
                assert_eq!(grouping, free_grouping(lots, limit));
                assert_eq!(classes(&grouping), limit.min(lots + 1));
            }
        }
    });
}

/// As many lots apart from each other as conditions can say, with every limit.
#[test]
fn all_lots_apart() {
    with_stack(|| {
        let mut random = Random::new(203);
        for lots in [1, 2, 5, MOST_APART] {
            let conditions = all_apart(lots, &mut random);
            for limit in 1..=lots {
                let count = all_apart_count(limit);
                let (store, _) = searches(lots, &conditions, limit, [0, 2, count as u32]);
                assert_eq!(store[store.len() - NODE_LENGTH..], clique().to_bytes());
                assert_eq!(depth(&store), limit * (limit + 1) / 2);
            }
            searches(lots, &conditions, lots + 1, [0, 1, 1]);
            // Lots that nobody names stand behind them: they don't matter to a limit that is too small, and are with lot 0 where it isn't.
            searches(MOST_LOTS, &conditions, lots, [0, 2, all_apart_count(lots) as u32]);
            searches(MOST_LOTS, &conditions, lots + 1, [0, 1, (2 * lots + MOST_LOTS - lots + 1) as u32]);
        }
    });
}

/// The search's own lists have paths that are longer than 1,024 splits: check 15 would refuse them there.
#[test]
fn paths_longer_than_without_a_limit() {
    with_stack(|| {
        let mut random = Random::new(204);
        for (free, named, width) in [(1, 4, 6), (1, 46, 1022), (1, 46, 1023), (30, 46, 1023), (5, 115, 1023)] {
            let deep = Deep { free, named, width };
            let (store, _) = searches(deep.lots(), &deep.conditions(&mut random), 1, [0, 2, deep.count() as u32]);
            assert_eq!(depth(&store), deep.depth());
        }
        let sheet = sheet_bytes(DEEPEST_LIMITED.lots(), &DEEPEST_LIMITED.conditions());
        let found = probe_limited(&sheet, 1, MOST_NODES);
        assert!(found.cannot() && depth(&found.nodes) == DEEPEST_LIMITED.depth() && DEEPEST_LIMITED.depth() > MOST_SPLITS_ABOVE);
        let (store, _) = searches(DEEPEST_LIMITED.lots(), &DEEPEST_LIMITED.conditions(), 1, [0, 2, found.count() as u32]);
        say(&format!("a search's own list of {} records has a path of {} splits", found.count(), depth(&store)));
    });
}

/// More nodes than a store takes: `Deep` with one free lot more than the longest store has room for.
#[test]
fn more_nodes_than_a_store_takes() {
    with_stack(|| {
        let mut random = Random::new(205);
        let most = Deep { free: 30, named: 46, width: 1023 };
        let one_more = Deep { free: 31, ..most };
        assert!(most.count() <= MOST_NODES && one_more.count() > MOST_NODES);
        let sheet = sheet_bytes(one_more.lots(), &one_more.conditions(&mut random));
        for records in [MOST_NODES, MOST_NODES + 1, one_more.count()] {
            let answers = run_limited_case(&Limited::with_list(sheet.clone(), 1, records, vec![]));
            assert_eq!(answers.search, [9, MOST_NODES as u32, 0, 0]);
        }
    });
}

/// A sheet that reading refuses, a limit that is refused, a grouping that is too short, a store that is full: the first of these is the answer.
#[test]
fn the_order_of_checks() {
    with_stack(|| {
        let (whole, refused) = (sheet_c(), refused_sheets());
        let answer = |sheet: &[u8], limit: u32, grouping_length: usize, store_length: usize| {
            let limited = Limited { sheet: sheet.to_vec(), limit, grouping_length, store_length, list: vec![], fill: FILL };
            run_limited_case(&limited).search
        };
        for (grouping_length, store_length, after) in [(0, 0, 8), (2, 100, 8), (3, 0, 9), (3, 100, 0)] {
            for limit in REFUSED.into_iter().chain([1, 2, 129]) {
                for (sheet, [check, place]) in &refused {
                    assert_eq!(answer(sheet, limit, grouping_length, store_length), [*check, *place, 0, 0]);
                }
            }
            for limit in REFUSED {
                assert_eq!(answer(&whole, limit, grouping_length, store_length), [20, limit, 0, 0]);
            }
            for limit in [1, 2, 3, 4, 128, 129] {
                assert_eq!(answer(&whole, limit, grouping_length, store_length)[0], after);
            }
        }
    });
}

/// Answers worked out by hand: lots 1 and 2 are apart, and lot 3 is with one of them.
#[test]
fn by_hand() {
    with_stack(|| {
        let conditions = [vec![apart(1, 2)], vec![same(3, 1), same(3, 2)]];
        // 3 with 1, then the classes are 0, 1 and 2: 0 1 the same, and two are left.
        let (store, grouping) = searches(3, &conditions, 2, [0, 1, 3]);
        assert_eq!(store, list_bytes(&[split(3, 1, 0), split(0, 1, 0), met()]));
        assert_eq!(grouping, [0, 2, 0]);
        let (store, grouping) = searches(3, &conditions, 3, [0, 1, 2]);
        assert_eq!(store, list_bytes(&[split(3, 1, 0), met()]));
        assert_eq!(grouping, [1, 2, 1]);
        // With one class: 0 1 the same, then 0 2 the same is a ground, and apart a clique; 0 1 apart is a clique. With 3 and 1 apart, and 3 and 2 the same, 1
        // and 2 are marked, so that 0 and 1 the same is a clique too.
        let first = [split(3, 1, 7), split(0, 1, 6), split(0, 2, 5), ground(1), clique(), clique()];
        let nodes = [first.as_slice(), &[split(3, 2, 11), split(0, 1, 10), clique(), clique(), ground(2)]].concat();
        let (store, _) = searches(3, &conditions, 1, [0, 2, 11]);
        assert_eq!(store, list_bytes(&nodes));
        assert_eq!(plain(lihumbay::raw::check(&sheet_bytes(3, &conditions), &store)), [11, 5, 0, 0]);
    });
}

/// Groupings of every length around n: the search's own numbers don't depend on them, and what is past n stays.
#[test]
fn groupings_longer_than_n() {
    with_stack(|| {
        let mut random = Random::new(206);
        for _ in 0..2_000 {
            let sheet = lots_apart(&mut random);
            let limit = random.range(1, lots(&sheet) + 1) as u32;
            let grouping_length = grouping(lots(&sheet), &mut random).len() + random.pick(&[0, 1, 100, 300]);
            let limited = Limited { grouping_length, ..Limited::with_list(sheet, limit, 300, vec![]) };
            run_limited_case(&limited);
        }
    });
}
