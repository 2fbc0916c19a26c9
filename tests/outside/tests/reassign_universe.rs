//! Very small universes, whole, through the count of unmet conditions and the reassignment of a lot: all sheets of few lots and conditions, all groupings with
//! few numbers, and all reassignments.
use outside::random::Random;
use outside::reassign_run::{KINDS, Kind, ReassignTally, run_reassignment};
use outside::reassigned::{Reassignment, compare_reassignment};
use outside::run::say;
use outside::universes::{all_small_sheets, conditions_of, each};
use second::reader::accept;
use second::sheet::Term;
use second::writer::{apart, same, sheet_bytes};

/// Every so many inputs the laws are tried too: they take some twenty calls more.
const LAWS_EVERY: usize = 16;

/// Runs an input, the first and then each sixteenth with all laws.
fn run(input: &Reassignment, tally: &mut ReassignTally) {
    if tally.all().is_multiple_of(LAWS_EVERY) {
        run_reassignment(input, tally);
    } else {
        let found = compare_reassignment(input).unwrap_or_else(|difference| panic!("{difference}\n{input}"));
        tally.add(input, &found);
    }
}

/// All groupings with the numbers 0 to 2, and all reassignments on each: lots 0 to n + 1, running counts 0 to m + 1, values 0 to 2.
fn every_reassignment(lots: usize, conditions: &[Vec<Term>], tally: &mut ReassignTally) {
    let sheet = sheet_bytes(lots, conditions);
    each(&[0, 1, 2], lots, &mut |grouping| {
        let mut input = Reassignment { sheet: sheet.clone(), grouping: grouping.to_vec(), count: 0, lot: 0, value: 0 };
        for lot in 0..=lots as u32 + 1 {
            for count in 0..=conditions.len() as u32 + 1 {
                for value in 0..=2 {
                    (input.count, input.lot, input.value) = (count, lot, value);
                    run(&input, tally);
                }
            }
        }
    });
}

fn terms(pairs: &[(usize, usize)]) -> Vec<Term> {
    pairs.iter().flat_map(|&(a, b)| [same(a, b), apart(a, b)]).collect()
}

#[test]
fn two_conditions_over_lots_0_to_2() {
    let mut tally = ReassignTally::default();
    each(&conditions_of(&terms(&[(0, 1), (2, 1), (1, 1)])), 2, &mut |conditions| every_reassignment(2, conditions, &mut tally));
    say(&format!("{} reassignments on two conditions over lots 0 to 2: {}", tally.all(), tally.report()));
    assert_eq!(tally.all(), 43 * 43 * 9 * 4 * 4 * 3);
    tally.at_least(5_000, &KINDS);
}

/// One condition of up to two of all terms over lots 0 to 3.
#[test]
fn one_condition_over_lots_0_to_3() {
    let mut tally = ReassignTally::default();
    let pairs: Vec<(usize, usize)> = (0..=3).flat_map(|a| (0..=3).map(move |b| (a, b))).collect();
    each(&conditions_of(&terms(&pairs)), 1, &mut |conditions| every_reassignment(3, conditions, &mut tally));
    say(&format!("{} reassignments on one condition over lots 0 to 3: {}", tally.all(), tally.report()));
    tally.at_least(500, &KINDS);
}

/// Three conditions of up to one term, withdrawn ones among them, over lots 0 to 2, and over lots 1 and 2 where there is a third that nobody names.
#[test]
fn three_conditions_of_one_term() {
    let mut tally = ReassignTally::default();
    for (lots, pairs) in [(2, [(0, 1), (1, 2), (2, 2)]), (3, [(1, 2), (2, 1), (1, 1)])] {
        let short: Vec<Vec<Term>> = conditions_of(&terms(&pairs)).into_iter().filter(|condition| condition.len() < 2).collect();
        each(&short, 3, &mut |conditions| every_reassignment(lots, conditions, &mut tally));
    }
    say(&format!("{} reassignments on three conditions of up to one term: {}", tally.all(), tally.report()));
    tally.at_least(500, &KINDS);
}

/// A reassignment around what can be, on a grouping that is now and then longer than n, or too short.
fn some_reassignment(sheet: &[u8], random: &mut Random) -> Reassignment {
    let (lots, conditions) = (usize::from(sheet[0]), usize::from(sheet[2]));
    let length = random.pick(&[lots, lots, lots, lots + 1, lots.saturating_sub(1)]);
    let grouping = (0..length).map(|_| random.below(3) as u8).collect();
    let (count, lot, value) = (random.below(conditions + 2) as u32, random.below(lots + 2) as u32, random.below(3) as u8);
    Reassignment { sheet: sheet.to_vec(), grouping, count, lot, value }
}

/// All sheets of up to 2 lots, conditions and records: each that is refused with one reassignment, each that is accepted with several.
#[test]
fn all_small_sheets_byte_by_byte() {
    let (mut random, mut tally) = (Random::new(340), ReassignTally::default());
    all_small_sheets(&mut |sheet| {
        let times = if accept(&sheet).is_ok() { 20 } else { 1 };
        (0..times).for_each(|_| run(&some_reassignment(&sheet, &mut random), &mut tally));
    });
    say(&format!("{} reassignments on sheets of up to 2 lots and conditions and 3 records, byte by byte: {}", tally.all(), tally.report()));
    tally.at_least(500, &KINDS);
    tally.at_least(500, &[4, 5, 6, 7, 8, 17].map(Kind::Check));
}
