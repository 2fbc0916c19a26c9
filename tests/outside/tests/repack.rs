//! The repacker where the classes of input go by chance: every length of the output around the exact one, pairs of sheets that are alike or nearly so, the
//! longest sheets, and sheets with as many vacant records as there may be.
use outside::canonical::canonical;
use outside::case::{Case, canonical_length};
use outside::random::Random;
use outside::run::{run_case, say, with_stack};
use outside::sheets::{large, small, tiny, write_in_some_order};
use outside::tally::Tally;
use second::limits::{MOST_CONDITIONS, MOST_LOTS, MOST_TERMS, ZERO_LOT};
use second::reader::accept;
use second::sheet::{Sign, Term};
use second::writer::{apart, same, sheet_bytes_among, sheet_bytes_in};

/// All services on the sheet, with an output of each of these lengths.
fn with_outputs(sheet: &[u8], lengths: impl Iterator<Item = usize>, random: &mut Random, tally: &mut Tally) {
    let mut case = Case::of(sheet.to_vec(), random);
    for length in lengths {
        case.out_length = length;
        run_case(&case, tally);
    }
}

#[test]
fn every_length_of_the_output() {
    with_stack(|| {
        let (mut random, mut tally) = (Random::new(51), Tally::default());
        for _ in 0..60 {
            let sheet = tiny(&mut random);
            let exact = canonical_length(&sheet);
            with_outputs(&sheet, 0..exact + 20, &mut random, &mut tally);
        }
        for _ in 0..5 {
            let sheet = large(&mut random);
            let exact = canonical_length(&sheet);
            with_outputs(&sheet, exact - 9..exact + 9, &mut random, &mut tally);
        }
        assert!(tally.seen("repacker", 0) > 1000 && tally.seen("repacker", 16) > 1000);
    });
}

type Conditions = Vec<Vec<Term>>;

/// Lots and conditions after one edit, which may leave them as they were.
fn edited(lots: usize, mut conditions: Conditions, random: &mut Random) -> (usize, Conditions) {
    let count = conditions.len();
    match random.below(7) {
        0 => return (lots + 1, conditions),
        1 => conditions.insert(random.below(count + 1), vec![]),
        2 if count > 0 => drop(conditions.remove(random.below(count))),
        3 if count > 0 => conditions.swap(random.below(count), random.below(count)),
        4 if count > 0 => edit_terms(&mut conditions[random.below(count)], random),
        6 if count > 0 => conditions[random.below(count)].clear(),
        // The records stay in their order, and one passes to the condition after its own.
        5 if count > 1 => {
            let at = random.below(count - 1);
            let moved = conditions[at].pop();
            conditions[at + 1].splice(0..0, moved);
        }
        _ => {}
    }
    (lots, conditions)
}

fn edit_terms(condition: &mut Vec<Term>, random: &mut Random) {
    if condition.is_empty() {
        return;
    }
    let (at, other) = (random.below(condition.len()), random.below(condition.len()));
    let Term { sign, a, b } = condition[at];
    match random.below(6) {
        0 => condition[at] = Term { sign, a: b, b: a },
        1 => condition[at] = Term { sign, a: b, b },
        5 => condition[at] = random.pick(&[Term { sign, a: ZERO_LOT, b }, Term { sign, a, b: ZERO_LOT }]),
        2 => condition[at] = Term { sign: if sign == Sign::Same { Sign::Apart } else { Sign::Same }, a, b },
        3 => condition.insert(at, condition[at]),
        _ => condition.swap(at, other),
    }
}

#[test]
fn equal_bytes_mean_equal_lots_and_conditions() {
    let mut random = Random::new(52);
    let (mut alike, mut different) = (0, 0);
    for number in 0..20_000 {
        let sheet = accept(&if number % 2 == 0 { tiny(&mut random) } else { small(&mut random) }).expect("a valid sheet");
        let (lots, conditions) = edited(sheet.lots, sheet.conditions.clone(), &mut random);
        let mut written = |lots, conditions: &Conditions| canonical(&write_in_some_order(lots, conditions, &mut random));
        let (one, other) = (written(sheet.lots, &sheet.conditions), written(lots, &conditions));
        assert!(matches!((&one, &other), (Ok(Some(_)), Ok(Some(_)))), "both are accepted");
        let equal = (lots, conditions) == (sheet.lots, sheet.conditions);
        assert_eq!(one == other, equal, "{one:02x?} and {other:02x?}");
        *if equal { &mut alike } else { &mut different } += 1;
    }
    say(&format!("{alike} pairs of sheets with equal lots and conditions, {different} that differ"));
    assert!(alike > 1000 && different > 1000);
}

/// As many conditions and terms as there may be, the conditions' records one in turn from each, or all of them backwards; and all terms in one condition.
#[test]
fn longest_sheets() {
    with_stack(|| {
        let (mut random, mut tally) = (Random::new(53), Tally::default());
        let per_condition = MOST_TERMS / MOST_CONDITIONS;
        let lot = |number: usize| number % (MOST_LOTS + 1);
        let term = |number: usize| if number.is_multiple_of(3) { same(lot(number), ZERO_LOT) } else { apart(1, lot(number)) };
        let terms: Vec<Term> = (0..MOST_TERMS).map(term).collect();
        let conditions: Conditions = terms.chunks(per_condition).map(<[Term]>::to_vec).collect();
        let in_turn: Vec<usize> = (0..MOST_TERMS).map(|term| term % per_condition * MOST_CONDITIONS + term / per_condition + 1).collect();
        let backwards: Vec<usize> = (1..=MOST_TERMS).rev().collect();
        for sheet in [
            sheet_bytes_in(MOST_LOTS, &conditions, &in_turn),
            sheet_bytes_in(MOST_LOTS, &conditions, &backwards),
            sheet_bytes_in(MOST_LOTS, &[terms], &backwards),
        ] {
            let exact = canonical_length(&sheet);
            with_outputs(&sheet, [0, exact - 1, exact, exact + 1, 65_536, 65_537].into_iter(), &mut random, &mut tally);
        }
        assert_eq!((tally.seen("repacker", 0), tally.seen("repacker", 16)), (12, 6));
    });
}

/// No condition, withdrawn ones alone, or a few with terms, and vacant records up to the most: the packed sheet is shorter, and an output of its length is
/// enough.
#[test]
fn as_many_vacant_records_as_there_may_be() {
    with_stack(|| {
        let (mut random, mut tally) = (Random::new(54), Tally::default());
        let none: Conditions = vec![];
        let withdrawn = vec![vec![]; MOST_CONDITIONS];
        let few = vec![vec![], vec![same(1, 2), same(2, 3)], vec![], vec![apart(1, 3)], vec![]];
        for (conditions, packed) in [(none, 6), (withdrawn, 6 + 2 * MOST_CONDITIONS), (few, 6 + 2 * 5 + 8 * 3)] {
            let places = [MOST_TERMS, 1, 500];
            let terms = conditions.iter().map(Vec::len).sum();
            let sheet = sheet_bytes_among(3, &conditions, &places[..terms], MOST_TERMS);
            assert_eq!(canonical_length(&sheet), packed);
            with_outputs(&sheet, [0, packed - 1, packed, packed + 1, sheet.len()].into_iter(), &mut random, &mut tally);
        }
        assert_eq!((tally.seen("repacker", 0), tally.seen("repacker", 16)), (9, 6));
    });
}
