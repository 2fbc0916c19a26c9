//! The evaluator on long conditions. The grouping comes first and the terms are made for it, so that it is known which of them are true: a true term at each
//! place in turn, alone and among others. What is expected follows from that, and from no run of either implementation.
use lihumbay::raw;
use outside::case::Case;
use outside::compare::plain;
use outside::random::Random;
use outside::run::{run_case, say, with_stack};
use outside::tally::Tally;
use second::answer::numbers;
use second::limits::{MOST_LOTS, MOST_TERMS, ZERO_LOT};
use second::sheet::{Lot, Sign, Term};
use second::writer::{sheet_bytes, sheet_bytes_among, sheet_bytes_in};

/// Which terms of a condition are true, in the order of its chain. A condition with no term is withdrawn.
type Truths = Vec<bool>;

/// The terms of a long condition, how many such conditions a sheet has room for, and the one in their middle.
const FORTY: usize = 40;
const MOST_FORTIES: usize = MOST_TERMS / FORTY;
const MIDDLE: usize = MOST_FORTIES.div_ceil(2);
/// Lots that are so many apart are together in every grouping here, and no others are, but for lot 0, which is together with two of them or with none.
const HALF: usize = MOST_LOTS / 2;

/// The signs that a condition's true terms have, or its false ones.
type Signs = &'static [Sign];
const SIGNS: [Signs; 3] = [&[Sign::Same], &[Sign::Apart], &[Sign::Same, Sign::Apart]];

/// Whether a condition with terms is met, by which of them are true.
type IsMet = fn(&[bool]) -> bool;

/// Wrong evaluators. The inputs of each test have to tell every one of them from the right one, so that they can't go stale.
const WRONG: [(&str, IsMet); 9] = [
    ("the first term decides", |truths| truths[0]),
    ("the last term decides", |truths| truths[truths.len() - 1]),
    ("the first term is not looked at", |truths| truths[1..].contains(&true)),
    ("the last term is not looked at", |truths| truths[..truths.len() - 1].contains(&true)),
    ("at most 39 terms are read", |truths| truths[..truths.len().min(39)].contains(&true)),
    ("at most 32 terms are read", |truths| truths[..truths.len().min(32)].contains(&true)),
    ("an even number of true terms counts as none", |truths| truths.iter().filter(|&&truth| truth).count() % 2 == 1),
    ("every term has to be true", |truths| !truths.contains(&false)),
    ("a condition whose end is reached is met", |_| true),
];

/// What a wrong evaluator answers: 0, or the lowest condition that it finds not met.
fn wrong_answer(conditions: &[Truths], is_met: IsMet) -> usize {
    conditions.iter().position(|truths| !truths.is_empty() && !is_met(truths)).map_or(0, |at| at + 1)
}

fn truths(length: usize, is_true: impl FnMut(usize) -> bool) -> Truths {
    (1..=length).map(is_true).collect()
}

/// A true term at each of these places in turn: alone, with every later one, with every earlier one, and with some others.
fn at_places(length: usize, places: &[usize], random: &mut Random) -> Vec<Truths> {
    let mut all = Vec::new();
    for &place in places {
        all.push(truths(length, |other| other == place));
        all.push(truths(length, |other| other >= place));
        all.push(truths(length, |other| other <= place));
        for share in [5, 50, 95] {
            all.push(truths(length, |other| other == place || random.chance(share)));
        }
    }
    all
}

fn at_each_place(length: usize, random: &mut Random) -> Vec<Truths> {
    at_places(length, &(1..=length).collect::<Vec<usize>>(), random)
}

/// Each two places true, and no other.
fn at_each_pair(length: usize) -> Vec<Truths> {
    (1..=length).flat_map(|one| (1..one).map(move |other| truths(length, |place| place == one || place == other))).collect()
}

fn none_true(length: usize) -> Truths {
    vec![false; length]
}

/// As many conditions of forty terms as there is room for, each met by one term, at a place that no other condition's has.
fn met_forties() -> Vec<Truths> {
    (1..=MOST_FORTIES).map(|condition| truths(FORTY, |place| place == 7 * condition % FORTY + 1)).collect()
}

/// Lots 1 and 65 have a number that no other lot has, so have lots 2 and 66, and so on. `with_zero`, one of lots 1 to 64, and its fellow have the number 0, as
/// lot 0 has; where it is 0 no other lot has that number.
fn grouping(with_zero: Lot, random: &mut Random) -> Vec<u8> {
    let mut numbers: Vec<u8> = (1..=255).collect();
    random.shuffle(&mut numbers);
    if let Some(at) = with_zero.checked_sub(1) {
        numbers[at] = 0;
    }
    numbers[..HALF].repeat(2)
}

/// A term that is true, or false, in these groupings. Now and then it has a lot twice, or lot 0.
fn term(sign: Sign, truth: bool, with_zero: Lot, random: &mut Random) -> Term {
    let together = (sign == Sign::Same) == truth;
    if random.chance(10) {
        return term_on_zero(sign, together, with_zero, random);
    }
    let between = match together {
        true => random.pick(&[HALF, HALF, HALF, 0]),
        false => random.range(1, HALF - 1) + random.pick(&[0, HALF]),
    };
    let a = random.range(1, MOST_LOTS);
    Term { sign, a, b: (a + between - 1) % MOST_LOTS + 1 }
}

/// A term on lot 0, in either field, and a lot that is together with it, or one that isn't.
fn term_on_zero(sign: Sign, together: bool, with_zero: Lot, random: &mut Random) -> Term {
    let other = match (together, with_zero) {
        (true, ZERO_LOT) => ZERO_LOT,
        (true, lot) => random.pick(&[ZERO_LOT, lot, lot + HALF]),
        (false, ZERO_LOT) => random.range(1, MOST_LOTS),
        (false, lot) => (lot + random.range(1, HALF - 1) + random.pick(&[0, HALF]) - 1) % MOST_LOTS + 1,
    };
    let (a, b) = random.pick(&[(ZERO_LOT, other), (other, ZERO_LOT)]);
    Term { sign, a, b }
}

/// The conditions with their records in order, backwards, in random order, and in random order with vacant ones among them, where there is room.
fn sheets(conditions: &[Vec<Term>], random: &mut Random) -> [Vec<u8>; 4] {
    let terms = conditions.iter().map(Vec::len).sum();
    let backwards: Vec<usize> = (1..=terms).rev().collect();
    let mut mixed = backwards.clone();
    random.shuffle(&mut mixed);
    let count = MOST_TERMS.min(terms + terms / 2 + 1);
    let mut among: Vec<usize> = (1..=count).collect();
    random.shuffle(&mut among);
    [
        sheet_bytes(MOST_LOTS, conditions),
        sheet_bytes_in(MOST_LOTS, conditions, &backwards),
        sheet_bytes_in(MOST_LOTS, conditions, &mixed),
        sheet_bytes_among(MOST_LOTS, conditions, &among[..terms], count),
    ]
}

/// What the inputs of a test are made with, and what they come to.
struct Inputs {
    random: Random,
    tally: Tally,
    /// How often each wrong evaluator answers other than expected.
    told: [usize; WRONG.len()],
}

impl Inputs {
    fn new(seed: u64) -> Inputs {
        Inputs { random: Random::new(seed), tally: Tally::default(), told: [0; WRONG.len()] }
    }

    /// Conditions of which `unmet` is the lowest that isn't met, or all are where it is 0, with true and false terms of each sign and of both.
    fn with_all_signs(&mut self, conditions: &[Truths], unmet: usize) {
        for of_true in SIGNS {
            for of_false in SIGNS {
                self.with_signs(conditions, unmet, of_true, of_false);
            }
        }
    }

    /// As `with_all_signs`, with some of them.
    fn with_some_signs(&mut self, conditions: &[Truths], unmet: usize) {
        let (of_true, of_false) = (self.random.pick(&SIGNS), self.random.pick(&SIGNS));
        self.with_signs(conditions, unmet, of_true, of_false);
    }

    /// The conditions with true and false terms of these signs, their records in every order that `sheets` has.
    fn with_signs(&mut self, conditions: &[Truths], unmet: usize, of_true: Signs, of_false: Signs) {
        let random = &mut self.random;
        let any = random.range(1, HALF);
        let with_zero = random.pick(&[0, 1, HALF, any]);
        let mut made = |&truth: &bool| term(random.pick(if truth { of_true } else { of_false }), truth, with_zero, random);
        let terms: Vec<Vec<Term>> = conditions.iter().map(|truths| truths.iter().map(&mut made).collect()).collect();
        for sheet in sheets(&terms, &mut self.random) {
            self.evaluated(sheet, with_zero, unmet);
        }
        for (told, (_, is_met)) in self.told.iter_mut().zip(WRONG) {
            *told += usize::from(wrong_answer(conditions, is_met) != unmet);
        }
    }

    /// Both evaluators answer as expected, and all services on the sheet agree.
    fn evaluated(&mut self, sheet: Vec<u8>, with_zero: Lot, unmet: usize) {
        let case = Case { grouping: grouping(with_zero, &mut self.random), ..Case::of(sheet, &mut self.random) };
        let expected = [0, unmet as u32, 0, 0];
        assert_eq!(plain(raw::evaluate(&case.sheet, &case.grouping)), expected, "the archive\n{case}");
        assert_eq!(numbers(&second::evaluate(&case.sheet, &case.grouping)), expected, "the second implementation\n{case}");
        run_case(&case, &mut self.tally);
    }

    /// Says how many sheets there were. Each wrong evaluator answers other than expected on some.
    fn end(&self, what: &str) {
        say(&format!("{} {what}", self.tally.seen("evaluator", 0)));
        for (told, (name, _)) in self.told.iter().zip(WRONG) {
            assert!(*told > 0, "{what}: an evaluator where {name} would answer all of them as expected");
        }
    }
}

#[test]
fn forty_terms_alone_on_a_sheet() {
    with_stack(|| {
        let mut inputs = Inputs::new(71);
        for truths in at_each_place(FORTY, &mut inputs.random) {
            inputs.with_all_signs(&[truths], 0);
        }
        for truths in at_each_pair(FORTY) {
            inputs.with_all_signs(&[truths], 0);
        }
        inputs.with_all_signs(&[none_true(FORTY)], 1);
        inputs.end("sheets with one condition of forty terms");
    });
}

#[test]
fn other_lengths_alone_on_a_sheet() {
    with_stack(|| {
        let mut inputs = Inputs::new(72);
        for length in [1, 2, 3, FORTY - 1, FORTY + 1] {
            for truths in at_each_place(length, &mut inputs.random) {
                inputs.with_all_signs(&[truths], 0);
            }
            inputs.with_all_signs(&[none_true(length)], 1);
        }
        for truths in at_places(MOST_TERMS, &[1, 2, MOST_TERMS / 2, MOST_TERMS - 1, MOST_TERMS], &mut inputs.random) {
            inputs.with_all_signs(&[truths], 0);
        }
        inputs.with_all_signs(&[none_true(MOST_TERMS)], 1);
        inputs.end("sheets with one condition of another length, up to the most");
    });
}

#[test]
fn first_in_the_middle_and_last_among_met_ones() {
    with_stack(|| {
        let mut inputs = Inputs::new(73);
        for condition in [1, MIDDLE, MOST_FORTIES] {
            let mut conditions = met_forties();
            for truths in at_each_place(FORTY, &mut inputs.random) {
                conditions[condition - 1] = truths;
                inputs.with_some_signs(&conditions, 0);
            }
            conditions[condition - 1] = none_true(FORTY);
            inputs.with_all_signs(&conditions, condition);
        }
        inputs.end("sheets with 25 conditions of forty terms, of which at most one is not met");
    });
}

/// A met condition hides no unmet one, be it before or behind it; of several unmet ones the lowest is answered.
#[test]
fn before_and_behind_unmet_ones() {
    with_stack(|| {
        let mut inputs = Inputs::new(74);
        for truths in at_each_place(FORTY, &mut inputs.random) {
            for (condition, unmet) in [(1, MOST_FORTIES), (MIDDLE, MIDDLE + 1), (MIDDLE, MIDDLE - 1), (MOST_FORTIES, 1)] {
                let mut conditions = met_forties();
                conditions[condition - 1] = truths.clone();
                conditions[unmet - 1] = none_true(FORTY);
                inputs.with_some_signs(&conditions, unmet);
            }
        }
        let mut conditions = met_forties();
        for unmet in (1..=MOST_FORTIES).rev() {
            conditions[unmet - 1] = none_true(FORTY);
            inputs.with_all_signs(&conditions, unmet);
        }
        inputs.end("sheets with 25 conditions of forty terms, of which some are not met");
    });
}

/// Each condition behind so many withdrawn ones, and as many at the end. With w of them, condition c becomes condition c (w + 1).
fn behind_withdrawn(conditions: &[Truths], withdrawn: usize) -> Vec<Truths> {
    let before = vec![vec![]; withdrawn];
    let behind = |truths: &Truths| [before.clone(), vec![truths.clone()]].concat();
    conditions.iter().flat_map(behind).chain(before.clone()).collect()
}

#[test]
fn with_withdrawn_ones_between() {
    with_stack(|| {
        let mut inputs = Inputs::new(75);
        for truths in at_each_place(FORTY, &mut inputs.random) {
            let withdrawn = inputs.random.pick(&[1, 2, 8]);
            inputs.with_some_signs(&behind_withdrawn(std::slice::from_ref(&truths), withdrawn), 0);
            let mut conditions = met_forties();
            conditions[MIDDLE - 1] = truths;
            inputs.with_some_signs(&behind_withdrawn(&conditions, withdrawn), 0);
            for unmet in [MIDDLE + 1, MIDDLE - 1] {
                conditions[unmet - 1] = none_true(FORTY);
                inputs.with_some_signs(&behind_withdrawn(&conditions, withdrawn), unmet * (withdrawn + 1));
            }
        }
        inputs.end("sheets with withdrawn conditions between those of forty terms");
    });
}
