//! Pairs of sheets through both merges and all laws, and how often each answer was seen.
use crate::merge_laws::{Tried, merge_laws};
use crate::merged::compare_lengths;
use crate::pairs::Pair;
use crate::random::Random;
use crate::run::say;
use std::collections::BTreeMap;

/// How often each answer was seen: the check, the sheet that a refusal is of, and the place where the check is 18.
#[derive(Default)]
pub struct Seen {
    answers: BTreeMap<[u32; 3], usize>,
    pub tried: Tried,
}

impl Seen {
    fn add(&mut self, [check, first, second, _]: [u32; 4]) {
        let key = [check, if check == 0 { 0 } else { second }, if check == 18 { first } else { 0 }];
        *self.answers.entry(key).or_default() += 1;
    }

    pub fn at_least(&self, least: usize, check: u32, sheet: u32, place: u32) {
        let seen = self.answers.get(&[check, sheet, place]).copied().unwrap_or(0);
        assert!(seen >= least, "check {check}, sheet {sheet}, place {place} was seen {seen} times only");
    }

    fn report(&self, what: &str) {
        let answers: String = self
            .answers
            .iter()
            .map(|([check, sheet, place], count)| match (check, sheet) {
                (0, _) => format!(", {count} written"),
                (18, _) => format!(", {count} check 18 at {place}"),
                (_, 0) => format!(", {count} check {check}"),
                _ => format!(", {count} check {check} of sheet {sheet}"),
            })
            .collect();
        let Tried { met, unmet } = self.tried;
        say(&format!("{what}{answers}; {met} groupings met both sheets, {unmet} did not"));
    }
}

/// Outputs of all lengths and all laws, on one pair.
pub fn run(first: &[u8], second: &[u8], random: &mut Random, seen: &mut Seen) {
    let fails = |difference: String| -> ! { panic!("{difference}\nfirst  {first:02x?}\nsecond {second:02x?}") };
    let answers = compare_lengths(first, second, random).unwrap_or_else(|difference| fails(difference));
    answers.into_iter().for_each(|answer| seen.add(answer));
    let tried = merge_laws(first, second, random).unwrap_or_else(|difference| fails(difference));
    seen.tried.met += tried.met;
    seen.tried.unmet += tried.unmet;
}

/// So many pairs of a kind; every fourth also has its sheets turned round, and each of them merged with itself, as one slice.
pub fn run_pairs(what: &str, count: usize, seed: u64, make: fn(&mut Random) -> Pair) -> Seen {
    let (mut random, mut seen) = (Random::new(seed), Seen::default());
    for number in 0..count {
        let Pair { first, second } = make(&mut random);
        run(&first, &second, &mut random, &mut seen);
        if number % 4 == 0 {
            run(&second, &first, &mut random, &mut seen);
            run(&first, &first, &mut random, &mut seen);
            run(&second, &second, &mut random, &mut seen);
        }
    }
    seen.report(&format!("{count} {what}"));
    seen
}
