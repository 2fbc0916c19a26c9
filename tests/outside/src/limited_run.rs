//! Runs classes of input of the services with a limit, and counts how often each answer was seen. A failure names class, case and seed, and has the input in
//! hexadecimal.
use crate::limited::{Limited, LimitedAnswers, compare_limited};
use crate::limited_laws::limited_laws;
use crate::random::Random;
use crate::run::seed;
use second::limits::{CLIQUE, NODE_LENGTH};
use second::store::met;
use std::collections::BTreeMap;

/// A class of input: its name, how many there are, and how the case of a number is made.
pub struct LimitedClass {
    pub name: &'static str,
    pub count: usize,
    pub make: fn(&mut Random, usize) -> Limited,
}

/// How often each answer was seen.
#[derive(Default)]
pub struct LimitedTally {
    /// By the check, and where that is 0 by the verdict.
    search: BTreeMap<[u32; 2], usize>,
    /// By the check, and whether the list has a clique.
    check: BTreeMap<(u32, bool), usize>,
    /// Searches that are met, whose own records have a clique.
    met_after_clique: usize,
}

impl LimitedTally {
    fn add(&mut self, limited: &Limited, LimitedAnswers { search, check }: LimitedAnswers) {
        let verdict = if search[0] == 0 { search[1] } else { 0 };
        *self.search.entry([search[0], verdict]).or_default() += 1;
        let has_clique = limited.list.chunks(NODE_LENGTH).any(|record| record[0] == CLIQUE);
        *self.check.entry((check[0], has_clique)).or_default() += 1;
        self.met_after_clique += usize::from(verdict == 1 && limited.list.last_chunk() == Some(&met().to_bytes()) && has_clique);
    }

    /// How often the search was refused by this check.
    pub fn search_refused(&self, check: u32) -> usize {
        self.search.get(&[check, 0]).copied().unwrap_or(0)
    }

    /// How often the search said met (1) or cannot (2).
    pub fn searched(&self, verdict: u32) -> usize {
        self.search.get(&[0, verdict]).copied().unwrap_or(0)
    }

    pub fn met_after_clique(&self) -> usize {
        self.met_after_clique
    }

    /// How often the checker said this of a list with a clique, or of one without.
    pub fn checked(&self, check: u32, has_clique: bool) -> usize {
        self.check.get(&(check, has_clique)).copied().unwrap_or(0)
    }

    pub fn report(&self) -> String {
        let search: String = self
            .search
            .iter()
            .map(|([check, verdict], count)| match (check, verdict) {
                (0, 1) => format!(", met {count}"),
                (0, _) => format!(", cannot {count}"),
                _ => format!(", check {check} {count}"),
            })
            .collect();
        let check: String = self
            .check
            .iter()
            .map(|((check, has_clique), count)| {
                let list = if *has_clique { "with" } else { "without" };
                if *check == 0 { format!(", {count} pass {list}") } else { format!(", check {check} {count} {list}") }
            })
            .collect();
        format!("searches{search}, {} of those met after a clique; lists with and without cliques{check}", self.met_after_clique)
    }
}

pub fn run_limited(classes: &[LimitedClass]) -> LimitedTally {
    let mut tally = LimitedTally::default();
    for class in classes {
        (0..class.count).for_each(|number| run_one(class, number, &mut tally));
    }
    tally
}

fn run_one(class: &LimitedClass, number: usize, tally: &mut LimitedTally) {
    let seed = seed(class.name, number);
    let limited = (class.make)(&mut Random::new(seed), number);
    match agreed(&limited) {
        Ok(answers) => tally.add(&limited, answers),
        Err(difference) => panic!("class \"{}\", case {number}, seed {seed:#x}: {difference}\n{limited}", class.name),
    }
}

/// Both implementations agree on it, and every law stands; else what differs.
fn agreed(limited: &Limited) -> Result<LimitedAnswers, String> {
    let answers = compare_limited(limited)?;
    limited_laws(limited)?;
    Ok(answers)
}

/// An input that no seed made. Where something differs, the test ends.
pub fn run_limited_case(limited: &Limited) -> LimitedAnswers {
    agreed(limited).unwrap_or_else(|difference| panic!("{difference}\n{limited}"))
}
