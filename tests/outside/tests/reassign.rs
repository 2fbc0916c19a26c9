//! The reassignment of one lot: the archive beside the second implementation on random sheets, at and around each edge of checks 21 and 22, and the order of
//! checks. Every input is held to the laws as well.
use outside::random::Random;
use outside::reassign_inputs::{REASSIGNMENTS, counts, long_conditions, most_conditions, named_often, odd_lots};
use outside::reassign_run::{KINDS, Kind, ReassignTally, run_reassignment, run_reassignments};
use outside::reassigned::Reassignment;
use outside::refused::{refused_sheets, sheet_c};
use outside::run::say;
use outside::sheets::{large, small, tiny};
use second::limits::{MOST_CONDITIONS, MOST_LOTS, MOST_TERMS};
use second::reader::accept;
use second::sheet::Term;
use second::writer::{apart, same, sheet_bytes, sheet_bytes_among};

#[test]
fn archive_and_second_implementation_agree() {
    let tally = run_reassignments(REASSIGNMENTS);
    say(&format!("{} reassignments: {}", tally.all(), tally.report()));
    tally.at_least(500, &KINDS);
    tally.at_least(50, &[1, 2, 3, 4, 5, 6, 7, 8, 17].map(Kind::Check));
}

/// Each of these lots, with each running count at an edge and each value that is at one, on groupings of n bytes and longer ones. A lot that has no byte comes
/// with a few running counts alone.
fn at_every_edge(sheet: &[u8], lots: &[u32], random: &mut Random, tally: &mut ReassignTally) {
    let most = accept(sheet).expect("a valid sheet").lots;
    let length = most + random.pick(&[0, 0, 1, 130]);
    let few = random.pick(&[1, 2, 3, 256]);
    let grouping: Vec<u8> = (0..length).map(|_| random.below(few) as u8).collect();
    for &lot in lots {
        let mut counts = if (1..=most as u32).contains(&lot) { counts(sheet, &grouping, lot) } else { vec![0, 1, u32::MAX] };
        counts.sort_unstable();
        counts.dedup();
        for count in counts {
            for value in [0, 1, 255] {
                run_reassignment(&Reassignment { sheet: sheet.to_vec(), grouping: grouping.clone(), count, lot, value }, tally);
            }
        }
    }
}

#[test]
fn every_edge_of_lots_and_counts() {
    let (mut random, mut tally) = (Random::new(301), ReassignTally::default());
    for number in 0..240 {
        let sheet = [tiny, small, named_often][number % 3](&mut random);
        let lots = accept(&sheet).expect("a valid sheet").lots as u32;
        at_every_edge(&sheet, &[odd_lots(lots), (2..lots).collect()].concat(), &mut random, &mut tally);
    }
    for number in 0..24 {
        let sheet = [large, most_conditions, long_conditions][number % 3](&mut random);
        let lots = accept(&sheet).expect("a valid sheet").lots as u32;
        let any = random.range(1, lots as usize) as u32;
        at_every_edge(&sheet, &[1, any, lots, lots + 1], &mut random, &mut tally);
    }
    say(&format!("{} reassignments at every edge: {}", tally.all(), tally.report()));
    tally.at_least(100, &KINDS);
}

/// A sheet that reading refuses, a grouping that is too short, a lot that has no byte, a running count that can't be: the first of these is the answer.
#[test]
fn the_order_of_checks() {
    let mut tally = ReassignTally::default();
    let mut answer = |sheet: &[u8], grouping: &[u8], count: u32, lot: u32| {
        let input = Reassignment { sheet: sheet.to_vec(), grouping: grouping.to_vec(), count, lot, value: 9 };
        run_reassignment(&input, &mut tally).answer
    };
    // With 7 8 9 the first condition is unmet, and names all lots; 0 is below it, and 3 is above m.
    for count in [1, 0, 3, 257, 65_537, u32::MAX] {
        for lot in [1, 0, 4, 257, 65_537, u32::MAX] {
            for (sheet, [check, place]) in refused_sheets() {
                for grouping in [[].as_slice(), &[7, 8], &[7, 8, 9]] {
                    assert_eq!(answer(&sheet, grouping, count, lot), [check, place, 0, 0]);
                }
            }
            for grouping in [[].as_slice(), &[7], &[7, 8]] {
                assert_eq!(answer(&sheet_c(), grouping, count, lot), [8, 3, 0, 0]);
            }
            for grouping in [[7, 8, 9].as_slice(), &[7, 8, 9, 9]] {
                let expected = match (lot, count) {
                    (1, 1) => [0, 0, 0, 0],
                    (1, _) => [22, count, 0, 0],
                    _ => [21, lot, 0, 0],
                };
                assert_eq!(answer(&sheet_c(), grouping, count, lot), expected);
            }
        }
    }
}

/// The lots and conditions of a sheet, the bytes of a grouping, a running count, a lot, a value, and the new running count.
type Example<'a> = (usize, &'a [Vec<Term>], &'a [u8], [u32; 2], u8, u32);

/// Answers worked out by hand.
#[test]
fn by_hand() {
    let mut tally = ReassignTally::default();
    let c = [vec![same(1, 2), same(1, 3)], vec![apart(1, 2)]];
    let with_zero = [vec![same(0, 1)], vec![apart(0, 0)], vec![apart(2, 0)], vec![]];
    let examples: [Example; 10] = [
        (3, &c, &[7, 8, 9], [1, 3], 7, 0),
        (3, &c, &[1, 2, 1], [0, 2], 1, 1),
        (3, &c, &[7, 7, 9], [1, 1], 9, 0),
        // Lot 3 isn't in what is unmet, "apart 1 2".
        (3, &c, &[7, 7, 9], [1, 3], 7, 1),
        (3, &c, &[7, 7, 9], [0, 3], 7, 0),
        (3, &c, &[7, 7, 9], [2, 3], 7, 2),
        (2, &with_zero, &[3, 0], [3, 1], 0, 2),
        (2, &with_zero, &[3, 0], [3, 2], 255, 2),
        // From "same 0 1" met and a running count of m to one more.
        (2, &with_zero, &[0, 9], [4, 1], 255, 5),
        (2, &with_zero, &[0, 9], [0, 2], 9, 0),
    ];
    for (lots, conditions, grouping, [count, lot], value, expected) in examples {
        let terms = conditions.iter().map(Vec::len).sum::<usize>();
        let backwards: Vec<usize> = (1..=terms).rev().collect();
        for sheet in [sheet_bytes(lots, conditions), sheet_bytes_among(lots, conditions, &backwards, terms + 2)] {
            let input = Reassignment { sheet, grouping: grouping.to_vec(), count, lot, value };
            assert_eq!(run_reassignment(&input, &mut tally).answer, [0, expected, 0, 0], "{input}");
        }
    }
}

/// As many conditions as there may be, all of which name the lot, and one of as many terms as there may be, of which one names it: the first, one in the
/// middle, or the last.
#[test]
fn the_most_conditions_and_terms() {
    let mut tally = ReassignTally::default();
    let mut reassigned = |sheet: &[u8], grouping: &[u8], [count, lot]: [u32; 2], value: u8, expected: [u32; 2]| {
        let input = Reassignment { sheet: sheet.to_vec(), grouping: grouping.to_vec(), count, lot, value };
        let [check, first] = expected;
        assert_eq!(run_reassignment(&input, &mut tally).answer, [check, first, 0, 0], "{input}");
    };
    let all = sheet_bytes(MOST_LOTS, &vec![vec![same(128, 1)]; MOST_CONDITIONS]);
    let (alike, other) = ([4; MOST_LOTS], [[4; MOST_LOTS - 1].as_slice(), &[5]].concat());
    for lot in [1, 128] {
        reassigned(&all, &alike, [0, lot], 5, [0, 256]);
        reassigned(&all, &alike, [256, lot], 5, [0, 512]);
        reassigned(&all, &alike, [257, lot], 5, [22, 257]);
        reassigned(&all, &other, [255, lot], 4, [22, 255]);
        reassigned(&all, &other, [256, lot], if lot == 1 { 5 } else { 4 }, [0, 0]);
    }
    reassigned(&all, &alike, [0, 129], 5, [21, 129]);
    for place in [0, 1, MOST_TERMS / 2, MOST_TERMS - 1] {
        let condition = (0..MOST_TERMS).map(|at| if at == place { same(3, 2) } else { same(1, 2) }).collect();
        let long = sheet_bytes(3, &[condition]);
        reassigned(&long, &[1, 2, 3], [1, 3], 2, [0, 0]);
        reassigned(&long, &[1, 2, 3], [0, 3], 2, [22, 0]);
        reassigned(&long, &[1, 2, 2], [0, 3], 0, [0, 1]);
        reassigned(&long, &[1, 1, 3], [0, 3], 1, [0, 0]);
    }
}
