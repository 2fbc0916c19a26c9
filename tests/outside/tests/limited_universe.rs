//! Very small universes, whole, through the services with a limit on the number of classes, with every limit: verdicts beside all ways to part the lots, which
//! is one of the laws, and every number and byte beside the second implementation.
use outside::case::probe_limited;
use outside::limited::{Limited, compare_check, lots};
use outside::limited_run::run_limited_case;
use outside::run::{say, with_stack};
use outside::universes::{all_small_sheets, conditions_of, each};
use second::limits::NODE_LENGTH;
use second::sheet::Term;
use second::store::{Record, clique, ground, list_bytes, met, split};
use second::writer::{apart, same, sheet_bytes};
use std::collections::BTreeMap;

/// The search's own list, and exactly its room; a byte less where `short` says so, so that 9 is seen too.
fn case(sheet: &[u8], limit: u32, short: bool) -> Limited {
    let found = probe_limited(sheet, limit, 64);
    let store_length = NODE_LENGTH * found.count() - usize::from(short);
    Limited { sheet: sheet.to_vec(), limit, grouping_length: lots(sheet).max(2), store_length, list: found.nodes, fill: 0x55 }
}

/// How often each check was the search's answer; 0, how often the sheet was met, and 100, how often it could not be.
#[derive(Default)]
struct Seen(BTreeMap<u32, usize>);

impl Seen {
    fn run(&mut self, limited: &Limited) {
        let answer = match run_limited_case(limited).search {
            [0, 2, ..] => 100,
            [check, ..] => check,
        };
        *self.0.entry(answer).or_default() += 1;
    }

    fn all(&self) -> usize {
        self.0.values().sum()
    }

    fn at_least(&self, least: usize, answers: &[u32]) {
        answers.iter().for_each(|answer| assert!(self.0.get(answer).is_some_and(|&seen| seen >= least), "{answer} in {:?}", self.0));
    }
}

/// The sheet with every limit that can make a difference, and one class more.
fn with_every_limit(sheet: &[u8], number: usize, seen: &mut Seen) {
    (1..=lots(sheet) as u32 + 2).for_each(|limit| seen.run(&case(sheet, limit, (number + limit as usize).is_multiple_of(8))));
}

/// All lists of three conditions of up to two terms over three pairs of lots, and of two over these and three pairs more.
fn small_conditions(lots: usize, pairs: [(usize, usize); 3], more: [(usize, usize); 3]) {
    with_stack(|| {
        let (mut seen, mut number) = (Seen::default(), 0);
        let mut run = |conditions: &[Vec<Term>]| {
            with_every_limit(&sheet_bytes(lots, conditions), number, &mut seen);
            number += 1;
        };
        let terms = |pairs: &[(usize, usize)]| -> Vec<Term> { pairs.iter().flat_map(|&(a, b)| [same(a, b), apart(a, b)]).collect() };
        each(&conditions_of(&terms(&pairs)), 3, &mut run);
        each(&conditions_of(&terms(&[pairs, more].concat())), 2, &mut run);
        say(&format!("{number} sheets of {lots} lots with every limit, all conditions of up to two terms: {:?}", seen.0));
        seen.at_least(10_000, &[0, 9, 100]);
    });
}

#[test]
fn all_small_conditions() {
    small_conditions(3, [(1, 2), (1, 3), (2, 3)], [(1, 1), (3, 3), (3, 2)]);
}

#[test]
fn all_small_conditions_with_lot_0() {
    small_conditions(2, [(0, 1), (0, 2), (1, 2)], [(0, 0), (2, 2), (2, 0)]);
}

/// All sets of pairs of lots 0 to 4 that are apart, a condition each, with every limit.
#[test]
fn all_sets_of_pairs_apart() {
    with_stack(|| {
        let pairs: Vec<(usize, usize)> = (0..=4).flat_map(|b| (0..b).map(move |a| (a, b))).collect();
        let mut seen = Seen::default();
        for set in 0..1 << pairs.len() {
            let chosen = pairs.iter().enumerate().filter(|(i, _)| set >> i & 1 == 1);
            let conditions: Vec<Vec<Term>> = chosen.map(|(_, &(a, b))| vec![apart(a, b)]).collect();
            with_every_limit(&sheet_bytes(4, &conditions), set, &mut seen);
        }
        say(&format!("all sets of pairs of five lots apart, with every limit: {:?}", seen.0));
        seen.at_least(400, &[0, 9, 100]);
    });
}

/// All pairs of three lots and lot 0 apart or not, and two of them together in one of two ways.
#[test]
fn all_sets_of_pairs_apart_and_one_choice() {
    with_stack(|| {
        let pairs: Vec<(usize, usize)> = (0..=3).flat_map(|b| (0..b).map(move |a| (a, b))).collect();
        let mut seen = Seen::default();
        for set in 0..1 << pairs.len() {
            let chosen: Vec<(usize, usize)> = pairs.iter().enumerate().filter(|(i, _)| set >> i & 1 == 1).map(|(_, &pair)| pair).collect();
            let apart: Vec<Vec<Term>> = chosen.iter().map(|&(a, b)| vec![apart(b, a)]).collect();
            for (number, (&(a, b), &(c, d))) in pairs.iter().flat_map(|one| pairs.iter().map(move |other| (one, other))).enumerate() {
                let either = vec![same(a, b), same(d, c)];
                with_every_limit(&sheet_bytes(3, &[vec![either.clone()], apart.clone()].concat()), number, &mut seen);
                with_every_limit(&sheet_bytes(3, &[apart.clone(), vec![either]].concat()), number + 4, &mut seen);
            }
        }
        say(&format!("all sets of pairs of four lots apart and one choice, with every limit: {:?}", seen.0));
        seen.at_least(1_000, &[0, 9, 100]);
    });
}

/// All sheets of up to 2 lots, conditions and records, accepted or not, with a limit that is refused or not: a refusal from reading comes first.
#[test]
fn all_small_sheets_byte_by_byte() {
    with_stack(|| {
        let (mut seen, mut number) = (Seen::default(), 0);
        all_small_sheets(&mut |sheet| {
            number += 1;
            let limit = [0, 1, 2, 1, 2, 3, 130, 1, 2, 257][number % 10];
            seen.run(&case(&sheet, limit, number.is_multiple_of(3)));
        });
        say(&format!("{} sheets of up to 2 lots and conditions and 3 records, byte by byte, and a limit: {:?}", seen.all(), seen.0));
        seen.at_least(100, &[0, 4, 5, 6, 7, 9, 17, 20, 100]);
    });
}

/// All lists of up to five records on a sheet of these two lots, with limits of 1 and 2.
fn short_lists(one: usize, last: usize) {
    with_stack(|| {
        // Condition 3 is withdrawn, and there is no condition 4.
        let sheet = sheet_bytes(last, &[vec![same(one, last)], vec![apart(one, last)], vec![]]);
        let mut seen: BTreeMap<(u32, u32), usize> = BTreeMap::new();
        let mut run = |records: &[Record]| {
            for limit in [1, 2] {
                let answer =
                    compare_check(&sheet, limit, &list_bytes(records)).unwrap_or_else(|why| panic!("{why}\nlimit {limit}, {records:?}"));
                *seen.entry((limit, answer[0])).or_default() += 1;
            }
        };
        let odd = [met(), Record { spare: 1, ..clique() }, Record { first: 1, ..clique() }, Record { second: 1, ..clique() }];
        let others = [Record { next: 2, ..clique() }, ground(3), ground(4), Record { kind: 5, ..clique() }];
        let mut values: Vec<Record> = vec![ground(1), ground(2), clique()];
        for next in [2, 3, 4] {
            values.extend([split(0, last, next), split(last, one, next), split(0, 1, next), split(last, last, next)]);
        }
        let with_odd = [values.as_slice(), &odd, &others].concat();
        (0..=3).for_each(|length| each(&with_odd, length, &mut run));
        each(&values, 4, &mut run);
        let few: Vec<Record> =
            [3, 4, 5].iter().flat_map(|&next| [split(0, 1, next), split(last, 0, next)]).chain([ground(1), ground(2), clique()]).collect();
        each(&few, 5, &mut run);
        say(&format!("{} lists of up to 5 records, on lots {one} and {last}, by limit and check: {seen:?}", seen.values().sum::<usize>()));
        [0, 10, 11, 12, 13, 14].iter().for_each(|&check| assert!(seen.contains_key(&(1, check)), "check {check}"));
    });
}

#[test]
fn all_short_lists() {
    short_lists(1, 2);
}

#[test]
fn all_short_lists_with_lot_0() {
    short_lists(0, 1);
}
