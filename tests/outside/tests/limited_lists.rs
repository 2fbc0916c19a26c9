//! The refutation checker with a limit on the number of classes: lists of every hand, whole and damaged, beside the second implementation; cliques that are
//! none; the depth at which check 15 stands; and the order of checks.
use lihumbay::raw;
use outside::case::{probe, probe_limited};
use outside::compare::plain;
use outside::depth::depth;
use outside::limited::{REFUSED, compare_check, lots};
use outside::limited_families::{DEEPEST_LIMITED, Deep};
use outside::limited_hands::LISTS;
use outside::limited_run::run_limited;
use outside::limited_sheets::{lots_apart, within};
use outside::lists::{complete, spine};
use outside::random::Random;
use outside::run::{say, with_stack};
use outside::sheets::cannot;
use second::limits::{CLIQUE, MOST_NODES, MOST_SPLITS_ABOVE, MOST_SPLITS_ABOVE_LIMITED, NODE_LENGTH};
use second::store::{Record, clique, ground, list_bytes, split};
use second::writer::{apart, same, sheet_bytes};

/// Both implementations answer so.
fn checks(sheet: &[u8], limit: u32, list: &[u8], expected: [u32; 2]) {
    let [check, place] = expected;
    assert_eq!(compare_check(sheet, limit, list), Ok([check, place, 0, 0]), "limit {limit}, sheet {sheet:02x?}");
}

#[test]
fn archive_and_second_implementation_agree() {
    with_stack(|| {
        let tally = run_limited(LISTS);
        say(&format!("{} lists under a limit: {}", LISTS.iter().map(|class| class.count).sum::<usize>(), tally.report()));
        [11, 12, 13, 14].iter().for_each(|&check| {
            [true, false]
                .iter()
                .for_each(|&has_clique| assert!(tally.checked(check, has_clique) > 500, "check {check}, cliques {has_clique}"));
        });
        [true, false].iter().for_each(|&has_clique| assert!(tally.checked(0, has_clique) > 1_000, "lists that pass, cliques {has_clique}"));
        [10, 15, 20].iter().for_each(|&check| assert!(tally.checked(check, true) + tally.checked(check, false) > 5, "check {check}"));
    });
}

/// The search's own list passes with its limit and each smaller one; with a greater one it mostly doesn't, and both implementations say where.
#[test]
fn own_lists_with_every_limit() {
    with_stack(|| {
        let mut random = Random::new(211);
        let (mut lists, mut refused) = (0, 0);
        while lists < 1_500 {
            let (sheet, limit) = if lists % 2 == 0 { within(&mut random) } else { (lots_apart(&mut random), random.range(2, 6) as u32) };
            let found = probe_limited(&sheet, limit - 1, 300);
            if !found.cannot() {
                continue;
            }
            lists += 1;
            (1..limit).for_each(|limit| checks(&sheet, limit, &found.nodes, [0, 0]));
            let has_clique = found.nodes.chunks(NODE_LENGTH).any(|record| record[0] == CLIQUE);
            for limit in limit..=lots(&sheet) as u32 + 2 {
                let answer = compare_check(&sheet, limit, &found.nodes).expect("both implementations agree");
                assert!(answer[0] == 0 || has_clique && answer[0] == 12);
                refused += usize::from(answer[0] == 12);
            }
        }
        say(&format!("{lists} lists of searches with a limit pass with it and each smaller one; greater ones refuse {refused} times"));
        assert!(refused > 1_000);
    });
}

/// A list that the search without a limit wrote passes with every limit: it has no clique, and what nothing meets nothing meets within a limit.
#[test]
fn lists_of_the_search_without_a_limit() {
    with_stack(|| {
        let mut random = Random::new(212);
        for _ in 0..400 {
            let sheet = cannot(&mut random);
            let list = probe(&sheet, 120).nodes;
            (1..=129).for_each(|limit| checks(&sheet, limit, &list, [0, 0]));
            REFUSED.iter().for_each(|&limit| checks(&sheet, limit, &list, [20, limit]));
        }
    });
}

/// The grounds of the same branches name a condition that nothing meets; the last record, under these pairs set apart, is a clique.
fn under_pairs(pairs: &[(usize, usize)]) -> Vec<Record> {
    let above = pairs.iter().zip(0..).flat_map(|(&(a, b), i)| [split(a, b, 2 * i + 3), ground(1)]);
    above.chain([clique()]).collect()
}

/// Under every set of pairs of five lots set apart, in any order and either way round, with every limit: a clique passes exactly where all pairs of the
/// smallest lots, one more than the limit, are among them. Pairs beyond those don't help.
#[test]
fn cliques_of_all_sets_of_pairs() {
    with_stack(|| {
        let mut random = Random::new(213);
        let sheet = sheet_bytes(4, &[vec![apart(2, 2)]]);
        let all: Vec<(usize, usize)> = (0..=4).flat_map(|b| (0..b).map(move |a| (a, b))).collect();
        let mut seen = [0; 2];
        for set in 0..1 << all.len() {
            let mut pairs: Vec<(usize, usize)> = all.iter().enumerate().filter(|(i, _)| set >> i & 1 == 1).map(|(_, &pair)| pair).collect();
            let passes = |limit: u32| limit <= 4 && all.iter().filter(|(_, b)| *b <= limit as usize).all(|pair| pairs.contains(pair));
            let expected = [1, 2, 3, 4, 5, 6, 129].map(|limit| (limit, passes(limit)));
            random.shuffle(&mut pairs);
            pairs.iter_mut().filter(|_| random.chance(50)).for_each(|pair| *pair = (pair.1, pair.0));
            let records = under_pairs(&pairs);
            for (limit, passes) in expected {
                checks(&sheet, limit, &list_bytes(&records), if passes { [0, 0] } else { [12, records.len() as u32] });
                seen[usize::from(passes)] += 1;
            }
        }
        say(&format!("cliques under all sets of pairs of five lots: {} pass, {} don't", seen[1], seen[0]));
    });
}

/// Many marks and none of them between the smallest lots, up to as many lots as there may be.
#[test]
fn marks_beyond_the_smallest() {
    with_stack(|| {
        let sheet = sheet_bytes(128, &[vec![apart(1, 1)]]);
        for limit in [1, 2, 5, 40] {
            let inside: Vec<(usize, usize)> = (0..=limit).flat_map(|b| (0..b).map(move |a| (a, b))).collect();
            let beyond: Vec<(usize, usize)> = (limit + 1..128).map(|lot| (lot, lot + 1)).chain((0..=limit).map(|lot| (lot, 128))).collect();
            let list = |pairs: &[(usize, usize)]| list_bytes(&under_pairs(pairs));
            checks(&sheet, limit as u32, &list(&inside), [0, 0]);
            checks(&sheet, limit as u32, &list(&[beyond.as_slice(), &inside].concat()), [0, 0]);
            checks(&sheet, limit as u32, &list(&beyond), [12, 2 * beyond.len() as u32 + 1]);
            // One pair of the smallest is left out: the first, one in the middle, the last.
            for out in [0, inside.len() / 2, inside.len() - 1] {
                let fewer = [&beyond, &inside[..out], &inside[out + 1..]].concat();
                checks(&sheet, limit as u32, &list(&fewer), [12, 2 * fewer.len() as u32 + 1]);
            }
            // A limit more asks for a lot more, which has no marks.
            checks(&sheet, limit as u32 + 1, &list(&inside), [12, 2 * inside.len() as u32 + 1]);
        }
    });
}

/// No lots but lot 0, and one: a clique needs more classes than the limit.
#[test]
fn cliques_of_few_lots() {
    for lots in [0, 1] {
        let sheet = sheet_bytes(lots, &[vec![apart(0, 0)]]);
        for limit in [1, 2, 3, 128, 129] {
            checks(&sheet, limit, &list_bytes(&[clique()]), [12, 1]);
            let marked = list_bytes(&[split(0, lots, 3), ground(1), clique()]);
            checks(&sheet, limit, &marked, if limit == 1 && lots == 1 { [0, 0] } else { [12, 3] });
        }
    }
}

/// Classes are joined before the clique: known by their smallest lots, marked by any of their lots, fewer than there are lots.
#[test]
fn cliques_of_classes() {
    let sheet = sheet_bytes(5, &[vec![apart(1, 1)]]);
    let list = |joined: &[(usize, usize)], pairs: &[(usize, usize)]| {
        // The joins first, each in its same branch; their apart branches are grounds at the end.
        let inner = under_pairs(pairs);
        let count = joined.len();
        let above = joined.iter().zip(1..).map(|(&(a, b), number)| split(a, b, 2 * count + inner.len() + 1 - number));
        let moved =
            inner.iter().map(|record| if record.kind == 1 { Record { next: record.next + count as u16, ..*record } } else { *record });
        let records: Vec<Record> = above.chain(moved).chain(vec![ground(1); count]).collect();
        (list_bytes(&records), (count + inner.len()) as u32)
    };
    let checked = |limit: u32, joined: &[(usize, usize)], pairs: &[(usize, usize)], passes: bool| {
        let (list, place) = list(joined, pairs);
        checks(&sheet, limit, &list, if passes { [0, 0] } else { [12, place] });
    };
    // 0 with 5, 1 with 4: the classes are 0, 1, 2 and 3; 5 and 4 apart marks 0 and 1.
    checked(1, &[(0, 5), (1, 4)], &[(5, 4)], true);
    checked(2, &[(0, 5), (1, 4)], &[(5, 4), (2, 5), (4, 2)], true);
    checked(2, &[(0, 5), (1, 4)], &[(5, 4), (2, 5), (3, 2)], false);
    // All joined but 3: two classes, 0 and 3.
    checked(1, &[(1, 2), (2, 4), (4, 5), (5, 0)], &[(3, 4)], true);
    checked(2, &[(1, 2), (2, 4), (4, 5), (5, 0)], &[(3, 4)], false);
    // All joined: one class, and a pair set apart within it marks no two.
    checked(1, &[(1, 2), (2, 3), (3, 4), (4, 5), (5, 0)], &[(0, 1), (2, 5)], false);
    // 0 and 1 joined: the two smallest are 0 and 2, whatever is marked beside them.
    checked(1, &[(1, 0)], &[(0, 3), (1, 4), (2, 3)], false);
    checked(1, &[(1, 0)], &[(2, 1)], true);
}

/// A spine of so many splits, each on a pair of lots 0 to 2.
fn deep_spine(count: usize, percent: usize, random: &mut Random) -> (Vec<u8>, u32) {
    let directions: Vec<bool> = (0..count).map(|_| random.chance(percent)).collect();
    let place = |most: usize| 1 + directions[..most].iter().map(|&same| if same { 1 } else { 2 }).sum::<u32>();
    let most = if count > MOST_SPLITS_ABOVE_LIMITED { MOST_SPLITS_ABOVE_LIMITED } else { MOST_SPLITS_ABOVE };
    (list_bytes(&spine(&(0..=2), &directions, random)), if count > most { place(most) } else { 0 })
}

/// 15 stands at 8,256 splits with a limit, and at 1,024 without one.
#[test]
fn most_splits_above() {
    with_stack(|| {
        let mut random = Random::new(214);
        let sheet = sheet_bytes(2, &[vec![apart(1, 1), apart(2, 2)]]);
        for percent in [0, 50, 100] {
            for count in [MOST_SPLITS_ABOVE, MOST_SPLITS_ABOVE + 1, 4_000, MOST_SPLITS_ABOVE_LIMITED] {
                let (list, place) = deep_spine(count, percent, &mut random);
                [1, 129].iter().for_each(|&limit| checks(&sheet, limit, &list, [0, 0]));
                let expected = if count > MOST_SPLITS_ABOVE { [15, place, 0, 0] } else { [0; 4] };
                assert_eq!(plain(raw::check(&sheet, &list)), expected, "without a limit");
            }
            for count in [MOST_SPLITS_ABOVE_LIMITED + 1, MOST_SPLITS_ABOVE_LIMITED + 2, 12_000] {
                let (list, place) = deep_spine(count, percent, &mut random);
                [1, 2, 129].iter().for_each(|&limit| checks(&sheet, limit, &list, [15, place]));
                checks(&sheet, 130, &list, [20, 130]);
            }
        }
    });
}

/// A leaf under 8,256 splits is looked at, and at the split below them 11 comes before 15.
#[test]
fn at_the_most_splits_above() {
    with_stack(|| {
        let sheet = sheet_bytes(2, &[vec![apart(1, 1)]]);
        let last = MOST_SPLITS_ABOVE_LIMITED as u32 + 1;
        let splits: Vec<Record> = (1..last as usize).map(|_| split(0, 1, 0)).collect();
        let ended = |record: Record| list_bytes(&[splits.as_slice(), &[record]].concat());
        checks(&sheet, 1, &ended(clique()), [12, last]);
        checks(&sheet, 1, &ended(ground(2)), [11, last]);
        checks(&sheet, 1, &ended(ground(1)), [13, last - 1]);
        checks(&sheet, 1, &ended(split(0, 1, 0)), [15, last]);
        checks(&sheet, 1, &ended(split(0, 3, 0)), [11, last]);
        checks(&sheet, 1, &ended(Record { kind: 3, ..clique() }), [11, last]);
    });
}

/// Lists of the greatest length, and of one record more.
#[test]
fn longest_lists() {
    with_stack(|| {
        let sheet = sheet_bytes(2, &[vec![apart(1, 1)]]);
        let longest = list_bytes(&complete(&(0..=2), 15, &mut Random::new(215)));
        assert_eq!(longest.len(), NODE_LENGTH * MOST_NODES);
        checks(&sheet, 1, &longest, [0, 0]);
        checks(&sheet, 129, &longest, [0, 0]);
        checks(&sheet, 1, &[longest.as_slice(), &clique().to_bytes()].concat(), [10, 0]);
        checks(&sheet, 1, &longest[..longest.len() - 1], [10, 0]);
        // Lot 1 twice decides nothing: a clique for the last record is none.
        let undecided = list_bytes(&complete(&(1..=1), 15, &mut Random::new(217)));
        checks(&sheet, 1, &undecided, [0, 0]);
        checks(&sheet, 1, &[&undecided[..undecided.len() - NODE_LENGTH], &clique().to_bytes()].concat(), [12, MOST_NODES as u32]);
    });
}

/// The search's own lists with paths of more than 1,024 splits.
#[test]
fn own_lists_with_long_paths() {
    with_stack(|| {
        let mut random = Random::new(216);
        let deep = Deep { free: 12, named: 46, width: 1023 };
        let sheets = [(deep.lots(), deep.conditions(&mut random)), (DEEPEST_LIMITED.lots(), DEEPEST_LIMITED.conditions())];
        for sheet in sheets.map(|(lots, conditions)| sheet_bytes(lots, &conditions)) {
            let list = probe_limited(&sheet, 1, MOST_NODES).nodes;
            assert!(depth(&list) > MOST_SPLITS_ABOVE);
            checks(&sheet, 1, &list, [0, 0]);
            let first = list.chunks(NODE_LENGTH).position(|record| record[0] == CLIQUE).expect("a list with a clique") as u32 + 1;
            checks(&sheet, 2, &list, [12, first]);
            assert_eq!(plain(raw::check(&sheet, &list)), [11, first, 0, 0]);
        }
    });
}

/// Kind 4 is no record of a list without a limit, whatever its fields.
#[test]
fn without_a_limit_a_clique_is_no_record() {
    let sheet = sheet_bytes(2, &[vec![apart(1, 2)], vec![same(0, 1)]]);
    let answer = |records: &[Record]| plain(raw::check(&sheet, &list_bytes(records)));
    for record in [clique(), Record { spare: 1, ..clique() }, Record { first: 1, ..clique() }, Record { next: 1, ..clique() }] {
        assert_eq!(answer(&[record]), [11, 1, 0, 0]);
        assert_eq!(answer(&[split(0, 1, 3), record, record]), [11, 2, 0, 0]);
        assert_eq!(answer(&[split(0, 1, 0), split(1, 2, 4), ground(1), record]), [11, 4, 0, 0]);
    }
    checks(&sheet, 1, &list_bytes(&[split(0, 1, 5), split(0, 2, 4), ground(1), clique(), clique()]), [0, 0]);
}

/// A sheet that reading refuses, a limit that is refused, a list of a wrong length, a record: the first of these is the answer.
#[test]
fn the_order_of_checks() {
    let whole = sheet_bytes(2, &[vec![apart(1, 2)]]);
    let unreached = [&whole[..6], &[0], &whole[7..]].concat();
    let lists = [vec![], vec![4; 9], vec![9; 8], list_bytes(&[clique()]), vec![0; NODE_LENGTH * (MOST_NODES + 1)]];
    for list in &lists {
        for limit in REFUSED.into_iter().chain([1, 129]) {
            checks(&whole[..5], limit, list, [1, 0]);
            checks(&whole[..15], limit, list, [3, 0]);
            checks(&unreached, limit, list, [7, 1]);
        }
        REFUSED.iter().for_each(|&limit| checks(&whole, limit, list, [20, limit]));
    }
    for limit in [1, 129] {
        let expected = [[10, 0], [10, 0], [11, 1], [12, 1], [10, 0]];
        lists.iter().zip(expected).for_each(|(list, expected)| checks(&whole, limit, list, expected));
    }
}
