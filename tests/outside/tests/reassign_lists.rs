//! Lists of reassignments from a counted start: after each one the running count is the count over all conditions, by both implementations, and a refused one
//! changes nothing.
use lihumbay::raw;
use outside::case::probe;
use outside::compare::plain;
use outside::random::Random;
use outside::reassign_inputs::{Edges, long_conditions, most_conditions, named_often, odd_lots, some_value};
use outside::run::{say, with_stack};
use outside::running::Running;
use outside::sheets::{dense, large, medium, small, tiny};
use outside::universes::{conditions_of, each};
use second::answer::Answer;
use second::limits::ZERO_LOT;
use second::reader::accept;
use second::sheet::Term;
use second::writer::{apart, same, sheet_bytes};
use std::cmp::Ordering;
use std::collections::BTreeMap;

/// A start for the sheet: numbers of which few are different, or many, in n bytes or some more.
fn start(sheet: Vec<u8>, random: &mut Random) -> Running {
    let few = random.pick(&[1, 2, 4, 30, 256]);
    let length = accept(&sheet).expect("a valid sheet").lots + random.pick(&[0, 0, 1, 40]);
    let grouping: Vec<u8> = (0..length).map(|_| random.below(few) as u8).collect();
    Running::of(sheet, &grouping)
}

/// What a reassignment comes to.
#[derive(Clone, Copy, Debug, PartialEq, Eq, PartialOrd, Ord)]
enum Step {
    Fewer,
    AsMany,
    More,
    Refused(u32),
}

/// One reassignment. About one in eight is refused: by the lot, by a grouping that is lent too short, or by the running count, which is above m or below the
/// unmet conditions that name the lot.
fn one_step(running: &mut Running, random: &mut Random) -> Step {
    let ([_, lots, ..], count, length) = (plain(raw::read(&running.sheet)), running.count, running.grouping().len());
    let value = some_value(running.grouping(), random);
    if lots == 0 || random.chance(4) {
        let without_byte: Vec<u32> = odd_lots(lots).into_iter().filter(|&lot| lot == ZERO_LOT as u32 || lot > lots).collect();
        let any_count = random.pick(&[count, count, 0, u32::MAX]);
        return Step::Refused(running.refused(length, any_count, random.pick(&without_byte), value));
    }
    let lot = random.range(1, lots as usize) as u32;
    match random.below(24) {
        0 => Step::Refused(running.refused(lots as usize - 1, count, lot, value)),
        1 => {
            let wrong = refused_count(running, lot, random);
            Step::Refused(running.refused(length, wrong, lot, value))
        }
        _ => match running.step(lot, value).cmp(&count) {
            Ordering::Less => Step::Fewer,
            Ordering::Equal => Step::AsMany,
            Ordering::Greater => Step::More,
        },
    }
}

/// A running count that 22 refuses with this lot.
fn refused_count(running: &Running, lot: u32, random: &mut Random) -> u32 {
    let Edges { right, named, conditions } = Edges::of(&running.sheet, running.grouping(), lot);
    let above = [conditions + 1, 257, 65_536 + right, (1 << 31) + right, u32::MAX];
    if named > 0 && random.chance(50) { random.pick(&[0, named - 1]) } else { random.pick(&above) }
}

/// So many lists of so many reassignments, on sheets of these kinds in turn.
fn random_lists(what: &str, kinds: &[fn(&mut Random) -> Vec<u8>], lists: usize, steps: usize, least: usize) {
    let mut seen: BTreeMap<Step, usize> = BTreeMap::new();
    for number in 0..lists {
        let mut random = Random::new(310 + number as u64);
        let mut running = start(kinds[number % kinds.len()](&mut random), &mut random);
        for _ in 0..steps {
            *seen.entry(one_step(&mut running, &mut random)).or_default() += 1;
        }
    }
    say(&format!("{lists} lists of {steps} reassignments on {what}: {seen:?}"));
    for step in [Step::Fewer, Step::AsMany, Step::More, Step::Refused(8), Step::Refused(21), Step::Refused(22)] {
        assert!(seen.get(&step).is_some_and(|&seen| seen >= least), "{step:?} in {seen:?}");
    }
}

#[test]
fn long_lists_on_small_sheets() {
    random_lists("tiny and small sheets", &[tiny, small, named_often, small], 60, 3_000, 1_000);
}

#[test]
fn long_lists_on_medium_sheets() {
    random_lists("medium sheets", &[medium, dense], 12, 3_000, 500);
}

#[test]
fn long_lists_on_large_sheets() {
    random_lists("sheets up to the limits", &[large, most_conditions, long_conditions, large], 12, 2_000, 200);
}

/// From any start to the grouping that the search finds, lot by lot in any order: in the end nothing is unmet, and the evaluator says so.
#[test]
fn lot_by_lot_to_a_grouping_that_meets_the_sheet() {
    with_stack(|| {
        let (mut random, mut met, mut from) = (Random::new(320), 0, 0);
        for number in 0..1_500 {
            let sheet = [small, medium, large][if number % 50 == 0 { 2 } else { number % 2 }](&mut random);
            let found = probe(&sheet, 300);
            let Some(Answer::Met { .. }) = found.answer else { continue };
            let mut running = start(sheet, &mut random);
            from += running.count as usize;
            let mut lots: Vec<usize> = (1..=usize::from(running.sheet[0])).collect();
            random.shuffle(&mut lots);
            for lot in lots {
                running.step(lot as u32, found.grouping[lot - 1]);
            }
            assert_eq!(running.count, 0, "{running}");
            assert_eq!(plain(raw::evaluate(&running.sheet, running.grouping())), [0; 4], "{running}");
            met += 1;
        }
        say(&format!("{met} sheets reassigned lot by lot to what the search found; {from} conditions were unmet before"));
        assert!(met > 400 && from > 2_000);
    });
}

/// A list and then its old bytes, the last first: each running count comes again on the way back.
#[test]
fn lists_there_and_back() {
    let mut random = Random::new(330);
    for number in 0..300 {
        let sheet = [small, named_often, medium][number % 3](&mut random);
        let mut running = start(sheet, &mut random);
        let (lots, at_first) = (usize::from(running.sheet[0]), running.grouping().to_vec());
        let mut way = Vec::new();
        for _ in 0..50 {
            let lot = random.range(1, lots);
            way.push((running.count, lot, running.grouping()[lot - 1]));
            running.step(lot as u32, some_value(&at_first, &mut random));
        }
        for (count, lot, value) in way.into_iter().rev() {
            assert_eq!(running.step(lot as u32, value), count, "{running}");
        }
        assert_eq!(running.grouping(), at_first, "{running}");
    }
}

/// All lists of three reassignments from all starts, on all sheets of one condition of up to two terms over lots 0 to 2, beside one that is fixed.
#[test]
fn all_short_lists() {
    let terms: Vec<Term> = [(0, 1), (1, 2), (2, 2)].iter().flat_map(|&(a, b)| [same(a, b), apart(a, b)]).collect();
    let steps: Vec<(u32, u8)> = (1..=2).flat_map(|lot| (0..=2).map(move |value| (lot, value))).collect();
    let mut count = 0;
    for condition in conditions_of(&terms) {
        let sheet = sheet_bytes(2, &[condition, vec![same(1, 2)]]);
        each(&[0, 1, 2], 2, &mut |grouping| {
            each(&steps, 3, &mut |list| {
                let mut running = Running::of(sheet.clone(), grouping);
                for &(lot, value) in list {
                    running.step(lot, value);
                }
                count += 1;
            });
        });
    }
    say(&format!("{count} lists of three reassignments"));
    assert_eq!(count, 43 * 9 * 216);
}
