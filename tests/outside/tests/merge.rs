//! The merge of two sheets: the archive beside the second implementation on random pairs, whole and damaged, with outputs of every interesting length; the
//! limits from both sides; and laws of what is written.
use outside::merge_expected::{above, come_to, different, long};
use outside::merge_run::{Seen, run, run_pairs};
use outside::merged::{compare_merge, merged};
use outside::pairs::{Conditions, Pair, damaged, large, lists, small};
use outside::random::Random;
use outside::run::{say, with_stack};
use outside::together::compare_rules;
use outside::withdrawn_pairs::{around_both_limits, around_most_conditions};
use second::limits::{MOST_CONDITIONS, MOST_TERMS};
use second::sheet::Term;
use second::writer::{apart, same, sheet_bytes, sheet_bytes_among, sheet_bytes_in};
use std::slice::from_ref;

#[test]
fn pairs_of_small_sheets() {
    with_stack(|| {
        let seen = run_pairs("pairs of small sheets", 30_000, 71, small);
        seen.at_least(10_000, 0, 0, 0);
        seen.at_least(10_000, 19, 0, 0);
        assert!(seen.tried.met > 10_000 && seen.tried.unmet > 10_000);
    });
}

#[test]
fn pairs_of_sheets_up_to_the_limits() {
    with_stack(|| {
        let seen = run_pairs("pairs of sheets up to the limits", 1_000, 72, large);
        seen.at_least(100, 0, 0, 0);
        seen.at_least(100, 19, 0, 0);
        seen.at_least(100, 18, 0, 2);
        seen.at_least(100, 18, 0, 3);
    });
}

#[test]
fn withdrawn_conditions_up_to_the_most() {
    with_stack(|| {
        let seen = run_pairs("pairs with withdrawn conditions around the most", 1_000, 82, around_most_conditions);
        seen.at_least(1_000, 0, 0, 0);
        seen.at_least(1_000, 19, 0, 0);
        seen.at_least(1_000, 18, 0, 2);
    });
}

#[test]
fn withdrawn_conditions_and_terms_up_to_the_most() {
    with_stack(|| {
        let seen = run_pairs("pairs with withdrawn conditions and terms around the most", 1_000, 83, around_both_limits);
        seen.at_least(500, 0, 0, 0);
        seen.at_least(500, 19, 0, 0);
        seen.at_least(500, 18, 0, 2);
        seen.at_least(500, 18, 0, 3);
    });
}

#[test]
fn pairs_of_damaged_sheets() {
    with_stack(|| {
        let seen = run_pairs("pairs of damaged sheets", 30_000, 73, damaged);
        for check in [1, 2, 3, 4, 5, 6, 7, 17] {
            seen.at_least(50, check, 1, 0);
            seen.at_least(50, check, 2, 0);
        }
    });
}

/// A small header and random bytes of the length that it asks for, mostly; most of them are no numbers that a sheet can have.
fn any_bytes(random: &mut Random) -> Vec<u8> {
    let (conditions, records) = (random.below(3), random.below(3));
    let header = [random.below(3) as u8, 0, conditions as u8, 0, records as u8, 0];
    let length = 2 * conditions + 8 * records + usize::from(random.chance(5));
    let few = random.pick(&[2, 3, 256]);
    let rest = (0..length).map(|at| if at % 2 == 1 && random.chance(90) { 0 } else { random.below(few) as u8 });
    header.into_iter().chain(rest).collect()
}

#[test]
fn pairs_of_random_bytes() {
    with_stack(|| {
        let seen = run_pairs("pairs of random bytes", 20_000, 74, |random| Pair { first: any_bytes(random), second: any_bytes(random) });
        seen.at_least(1_000, 0, 0, 0);
        for check in [3, 4, 5, 6, 7, 17] {
            seen.at_least(20, check, 1, 0);
            seen.at_least(20, check, 2, 0);
        }
    });
}

/// Both are refused: the answer is the first sheet's, whatever the second is refused for, and the second's where the sheets are turned round.
#[test]
fn the_first_sheets_refusal_wins() {
    let c = sheet_bytes(3, &[vec![same(1, 2), same(1, 3)], vec![apart(1, 2)]]);
    let changed = |at: usize, value: u8| [&c[..at], &[value], &c[at + 1..]].concat();
    let blanked = [&c[..18], &[0; 8], &c[26..]].concat();
    let refused: [(Vec<u8>, [u32; 2]); 8] = [
        (c[..5].to_vec(), [1, 0]),
        (changed(3, 2), [2, 2]),
        (c[..33].to_vec(), [3, 0]),
        (changed(8, 4), [4, 2]),
        (changed(10, 3), [5, 1]),
        (changed(16, 1), [6, 1]),
        (changed(8, 0), [7, 3]),
        (blanked, [17, 2]),
    ];
    for (sheet, [check, place]) in &refused {
        for room in [0, 33, 34, 100] {
            let before = vec![0xE1; room];
            assert_eq!(compare_merge(sheet, &c, &before), Ok([*check, *place, 1, 0]));
            assert_eq!(compare_merge(&c, sheet, &before), Ok([*check, *place, 2, 0]));
            for (other, _) in &refused {
                assert_eq!(compare_merge(sheet, other, &before), Ok([*check, *place, 1, 0]));
            }
        }
    }
}

#[test]
fn conditions_up_to_the_most() {
    with_stack(|| {
        let mut random = Random::new(75);
        let all = different(0, MOST_CONDITIONS);
        for count in [0, 1, 100, 128, 255, 256] {
            come_to(&all[..count], &all[count..], &all, &mut random);
            // What comes again in the second sheet is not counted again: up to 512 conditions come in.
            come_to(&all[..count], &all, &all, &mut random);
            come_to(&all, &all[count..], &all, &mut random);
        }
        for count in [1, 100, 128, 255, 256] {
            above(&all[..count], &different(count, 257 - count), 2, &mut random);
            above(&all[..count], &different(count, 256), 2, &mut random);
            above(&all, &different(257 - count, count), 2, &mut random);
        }
        // A withdrawn condition counts each time that it comes.
        let with_withdrawn = |count: usize| [&all[..count], &[vec![]]].concat();
        come_to(&with_withdrawn(254), &with_withdrawn(254), &[with_withdrawn(254), vec![vec![]]].concat(), &mut random);
        come_to(&with_withdrawn(255), &all[..255], &with_withdrawn(255), &mut random);
        come_to(&all[..255], &[vec![]], &with_withdrawn(255), &mut random);
        above(&with_withdrawn(255), &with_withdrawn(255), 2, &mut random);
        above(&all[..255], &vec![vec![]; 256], 2, &mut random);
        above(&all, &[vec![]], 2, &mut random);
    });
}

#[test]
fn terms_up_to_the_most() {
    with_stack(|| {
        let mut random = Random::new(76);
        for terms in [1, 2, 512, 1000, MOST_TERMS - 1] {
            let rest = MOST_TERMS - terms;
            let both = [long(terms, 3), long(rest, 4)].concat();
            come_to(&long(terms, 3), &long(rest, 4), &both, &mut random);
            // 2,048 terms come in.
            come_to(&both, &both, &both, &mut random);
            above(&long(terms, 3), &long(rest + 1, 4), 3, &mut random);
            above(&both, &long(1, 5), 3, &mut random);
            above(&both, &long(rest, 5), 3, &mut random);
        }
        let most = long(MOST_TERMS, 3);
        come_to(&most, &most, &most, &mut random);
        come_to(&most, &[vec![]], &[most.clone(), vec![vec![]]].concat(), &mut random);
        above(&most, &long(MOST_TERMS, 4), 3, &mut random);
    });
}

/// As many conditions and as many terms as there may be: the longest merged sheet. With one more of both, 18 is at the conditions.
#[test]
fn conditions_come_before_terms_and_both_before_the_output() {
    with_stack(|| {
        let mut random = Random::new(77);
        let four = |number: usize| [vec![same(1, 1); 3], vec![same(number / 128 + 1, number % 128 + 1)]].concat();
        let all: Conditions = (0..MOST_CONDITIONS + 1).map(four).collect();
        let most = &all[..MOST_CONDITIONS];
        come_to(most, most, most, &mut random);
        come_to(&most[..128], &most[128..], most, &mut random);
        above(most, &all[256..], 2, &mut random);
        above(most, &long(5, 3), 2, &mut random);
        // 256 conditions, one of them with five terms.
        above(&most[..255], &long(5, 3), 3, &mut random);
    });
}

#[test]
fn sheets_with_no_terms() {
    let mut random = Random::new(78);
    let none = |lots, conditions: usize, records| sheet_bytes_among(lots, &vec![vec![]; conditions], &[], records);
    let sheets =
        [(0, 0, 0), (5, 0, 0), (128, 0, 1), (3, 0, 1024), (0, 1, 0), (7, 256, 0), (127, 256, 1024), (0, 2, 3), (1, 255, 9), (2, 128, 0)];
    for (lots, conditions, records) in sheets {
        for (other_lots, other_conditions, other_records) in sheets {
            let (first, second) = (none(lots, conditions, records), none(other_lots, other_conditions, other_records));
            let both = conditions + other_conditions;
            let expected = if both > MOST_CONDITIONS { vec![] } else { none(lots.max(other_lots), both, 0) };
            let answer = if both > MOST_CONDITIONS { [18, 2, 0, 0] } else { [0, expected.len() as u32, 0, 0] };
            let after = merged(&first, &second, &[0xD4; 530]);
            assert_eq!((after.answer, after.out), (answer, [expected.as_slice(), &[0xD4; 530][expected.len()..]].concat()));
            run(&first, &second, &mut random, &mut Seen::default());
        }
    }
}

/// The larger number of lots, from either sheet, though no term names the last ones.
#[test]
fn lots_of_either_sheet() {
    let conditions = [vec![same(1, 2)], vec![apart(2, 1)]];
    for first in [2, 3, 127, 128] {
        for second in [2, 3, 127, 128] {
            let whole = sheet_bytes(first.max(second), &conditions);
            let after = merged(&sheet_bytes(first, &conditions[..1]), &sheet_bytes(second, &conditions), &vec![0; whole.len()]);
            assert_eq!((after.answer, after.out), ([0, whole.len() as u32, 0, 0], whole));
        }
    }
}

#[test]
fn what_differs_in_anything_is_no_repeat() {
    with_stack(|| {
        let mut random = Random::new(79);
        let condition = vec![same(1, 2), apart(3, 4), same(1, 2)];
        let others: [Vec<Term>; 15] = [
            vec![same(1, 2), same(1, 2), apart(3, 4)],
            vec![apart(3, 4), same(1, 2), same(1, 2)],
            vec![same(2, 1), apart(3, 4), same(1, 2)],
            vec![same(1, 2), apart(4, 3), same(1, 2)],
            vec![same(1, 2), apart(3, 4), apart(1, 2)],
            vec![same(1, 2), same(3, 4), same(1, 2)],
            vec![same(1, 2), apart(3, 4)],
            vec![apart(3, 4), same(1, 2)],
            vec![same(1, 2), apart(3, 4), same(1, 2), same(1, 2)],
            vec![],
            vec![same(0, 2), apart(3, 4), same(1, 2)],
            vec![same(1, 0), apart(3, 4), same(1, 2)],
            vec![same(0, 1), apart(3, 4), same(1, 2)],
            vec![same(1, 2), apart(3, 4), same(1, 2), same(0, 0)],
            vec![same(0, 0)],
        ];
        let all = [from_ref(&condition), others.as_slice()].concat();
        for other in &others {
            come_to(from_ref(&condition), from_ref(other), &[condition.clone(), other.clone()], &mut random);
            come_to(&[other.clone(), condition.clone()], &[], &[other.clone(), condition.clone()], &mut random);
        }
        // Of all of them once more, the withdrawn one stays again.
        let with_one_more = [all.as_slice(), &[vec![]]].concat();
        come_to(&all, &others, &with_one_more, &mut random);
        come_to(&[], &[all.clone(), all.clone()].concat(), &with_one_more, &mut random);
    });
}

/// The two sheets may share bytes: one slice lent twice, and a slice inside the other. A vacant record at a sheet's end has a sheet of no lots in it.
#[test]
fn sheets_that_share_bytes() {
    let mut random = Random::new(80);
    for _ in 0..2_000 {
        let Pair { first, .. } = small(&mut random);
        let twice = merged(&first, &first, &[0xB7; 400]);
        assert_eq!(twice, merged(&first, &first.clone(), &[0xB7; 400]));
        let conditions = second::reader::accept(&first).expect("a valid sheet").conditions;
        let terms: usize = conditions.iter().map(Vec::len).sum();
        let order: Vec<usize> = (1..=terms).rev().collect();
        let sheet = sheet_bytes_among(7, &conditions, &order, terms + 1);
        let inside = &sheet[sheet.len() - 6..];
        let before = random.bytes(400);
        assert_eq!(merged(&sheet, inside, &before), merged(&sheet, &[0; 6], &before));
        assert_eq!(merged(inside, &sheet, &before), merged(&[0; 6], &sheet, &before));
    }
}

/// Conditions that differ in their last terms only, as long and as many as there is room for, all of them once more in the second sheet in reverse.
#[test]
fn long_common_beginnings() {
    with_stack(|| {
        let mut random = Random::new(81);
        for length in [2, 4, 8, 32, 128, 512] {
            let count = (MOST_TERMS / length).min(MOST_CONDITIONS);
            let ending = |number: usize| [vec![same(1, 1); length - 1], vec![same(number / 128 + 1, number % 128 + 1)]].concat();
            let conditions: Conditions = (0..count).map(ending).collect();
            let turned: Conditions = conditions.iter().rev().cloned().collect();
            come_to(&conditions, &turned, &conditions, &mut random);
            come_to(&turned, &conditions, &turned, &mut random);
        }
    });
}

/// Every two sheets of 2 lots with up to three conditions out of seven, those of up to two terms "same 1 2" and "apart 1 2". The records of the first stand
/// backwards.
#[test]
fn all_pairs_of_small_sheets() {
    all_pairs(2, &[same(1, 2), apart(1, 2)]);
}

/// As before, of 1 lot, with the terms "same 0 0", whose record has one byte that isn't zero, and "apart 0 1".
#[test]
fn all_pairs_of_small_sheets_with_lot_0() {
    all_pairs(1, &[same(0, 0), apart(0, 1)]);
}

fn all_pairs(lots: usize, terms: &[Term; 2]) {
    let sheets = lists(&lists(terms, 2), 3);
    let count = |conditions: &Conditions| conditions.iter().map(Vec::len).sum::<usize>();
    let backwards = |conditions: &Conditions| sheet_bytes_in(lots, conditions, &(1..=count(conditions)).rev().collect::<Vec<_>>());
    let firsts: Vec<Vec<u8>> = sheets.iter().map(backwards).collect();
    let seconds: Vec<Vec<u8>> = sheets.iter().map(|conditions| sheet_bytes(lots, conditions)).collect();
    for first in &firsts {
        for second in &seconds {
            let answers = compare_rules(first, second, &[0x9D; 120]).unwrap_or_else(|why| panic!("{why}\n{first:02x?}\n{second:02x?}"));
            assert_eq!(answers.archive[0], 0);
        }
    }
    say(&format!("{} pairs of sheets of {lots} lots, all with up to three conditions of up to two terms", firsts.len() * seconds.len()));
    assert_eq!(firsts.len(), 1 + 7 + 49 + 343);
}
