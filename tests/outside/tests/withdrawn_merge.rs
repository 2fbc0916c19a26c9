//! Document 02's sentence on withdrawn conditions in a merge, on random pairs and on small universes taken whole: the archive's answer is another than by the
//! rule of request 4 exactly where the sentence says, and is there what it says.
use outside::merge_expected::{different, long};
use outside::merged::{length_by_request_4, merged_length};
use outside::pairs::{Conditions, Pair, damaged, large, lists, small};
use outside::random::Random;
use outside::run::say;
use outside::together::{Together, compare_rules};
use outside::withdrawn_pairs::{around_both_limits, around_most_conditions};
use second::limits::MOST_CONDITIONS;
use second::writer::{apart, same, sheet_bytes, sheet_bytes_in};
use std::collections::BTreeMap;

type Kind = &'static str;
const WRITTEN: Kind = "written";
const TOO_SHORT: Kind = "19";
const CONDITIONS: Kind = "18 at 2";
const TERMS: Kind = "18 at 3";
const REFUSED: Kind = "a sheet refused";

fn kind([check, place, ..]: [u32; 4]) -> Kind {
    match (check, place) {
        (0, _) => WRITTEN,
        (18, 2) => CONDITIONS,
        (18, _) => TERMS,
        (19, _) => TOO_SHORT,
        _ => REFUSED,
    }
}

/// What there can be with two or more withdrawn conditions: by the rule of request 4, and by that of request 6. In the last two rows nothing changes.
const SEVERAL: [(Kind, Kind); 8] = [
    (WRITTEN, WRITTEN),
    (WRITTEN, TOO_SHORT),
    (WRITTEN, CONDITIONS),
    (TOO_SHORT, TOO_SHORT),
    (TOO_SHORT, CONDITIONS),
    (TERMS, CONDITIONS),
    (TERMS, TERMS),
    (CONDITIONS, CONDITIONS),
];

/// Those of them that small sheets have.
const WITHIN: [(Kind, Kind); 3] = [(WRITTEN, WRITTEN), (WRITTEN, TOO_SHORT), (TOO_SHORT, TOO_SHORT)];

/// Those of them where the rule of request 4 gives something else than this.
fn several_but(kind: Kind) -> Vec<(Kind, Kind)> {
    SEVERAL.into_iter().filter(|row| row.0 != kind).collect()
}

/// How often there was what by both rules, with two or more withdrawn conditions and with fewer.
#[derive(Default)]
struct Seen {
    several: BTreeMap<(Kind, Kind), usize>,
    fewer: BTreeMap<(Kind, Kind), usize>,
    /// Pairs with two or more withdrawn conditions in the first sheet alone, in the second alone, and with some in both.
    ways: [usize; 3],
}

impl Seen {
    /// One pair, with an output of each of these lengths.
    fn run(&mut self, first: &[u8], second: &[u8], rooms: &[usize], random: &mut Random) {
        let together = Together::of(first, second);
        let several = together.is_some_and(|together| together.all_withdrawn() >= 2);
        for &room in rooms {
            let answers = compare_rules(first, second, &random.bytes(room))
                .unwrap_or_else(|why| panic!("room for {room} bytes: {why}\nfirst  {first:02x?}\nsecond {second:02x?}"));
            let seen = if several { &mut self.several } else { &mut self.fewer };
            *seen.entry((kind(answers.request_4), kind(answers.archive))).or_default() += 1;
        }
        match together.map(|together| together.withdrawn) {
            Some([(2..), 0]) => self.ways[0] += 1,
            Some([0, (2..)]) => self.ways[1] += 1,
            Some([(1..), (1..)]) => self.ways[2] += 1,
            _ => {}
        }
    }

    /// Nothing else than there can be was seen. All of `rows` was, so often at least, and pairs had withdrawn conditions in each of the three ways.
    fn end(&self, what: &str, least: usize, rows: &[(Kind, Kind)]) {
        say(&format!(
            "{what}: with two or more withdrawn conditions {:?}, with fewer {:?}; pairs with them in the first, in the second, in both {:?}",
            self.several, self.fewer, self.ways
        ));
        assert!(self.several.keys().all(|row| SEVERAL.contains(row)), "{:?}", self.several);
        assert!(self.fewer.keys().all(|(one, other)| one == other), "{:?}", self.fewer);
        for row in rows {
            let seen = self.several.get(row).copied().unwrap_or(0);
            assert!(seen >= least, "{what}: {row:?} was seen {seen} times only");
        }
        assert!(self.ways.iter().all(|&pairs| pairs > 0), "{what}: {:?}", self.ways);
    }
}

/// Outputs that are long enough by neither rule, by that of request 4 alone, and by both.
fn rooms(first: &[u8], second: &[u8], random: &mut Random) -> Vec<usize> {
    let (shorter, exact) = (length_by_request_4(first, second), merged_length(first, second));
    vec![0, shorter.saturating_sub(1), shorter, random.range(shorter, exact), exact.saturating_sub(1), exact, exact + random.below(9)]
}

/// So many pairs of a kind, and each with its sheets turned round.
fn random_pairs(count: usize, seed: u64, make: fn(&mut Random) -> Pair) -> Seen {
    let (mut random, mut seen) = (Random::new(seed), Seen::default());
    for _ in 0..count {
        let Pair { first, second } = make(&mut random);
        for (first, second) in [(&first, &second), (&second, &first)] {
            let rooms = rooms(first, second, &mut random);
            seen.run(first, second, &rooms, &mut random);
        }
    }
    seen
}

#[test]
fn small_pairs() {
    random_pairs(20_000, 84, small).end("pairs of small sheets", 10_000, &WITHIN);
}

#[test]
fn damaged_pairs() {
    let seen = random_pairs(10_000, 85, damaged);
    seen.end("pairs of damaged sheets", 1_000, &WITHIN);
    assert!(seen.fewer[&(REFUSED, REFUSED)] > 50_000);
}

#[test]
fn pairs_up_to_the_limits() {
    random_pairs(400, 86, large).end("pairs of sheets up to the limits", 100, &SEVERAL);
}

#[test]
fn pairs_around_the_most_conditions() {
    let seen = random_pairs(1_000, 87, around_most_conditions);
    seen.end("pairs with withdrawn conditions around the most", 500, &several_but(TERMS));
}

#[test]
fn pairs_around_both_limits() {
    let seen = random_pairs(1_000, 88, around_both_limits);
    seen.end("pairs with withdrawn conditions and terms around the most", 500, &several_but(CONDITIONS));
}

/// Every two sheets with up to four conditions out of three, one of them withdrawn, with outputs of every length. The records of the first stand backwards.
#[test]
fn all_pairs_of_small_sheets() {
    let (mut random, mut seen) = (Random::new(89), Seen::default());
    let sheets = lists(&[vec![], vec![same(1, 2)], vec![same(1, 2), apart(0, 1)]], 4);
    let count = |conditions: &Conditions| conditions.iter().map(Vec::len).sum::<usize>();
    let backwards = |conditions: &Conditions| sheet_bytes_in(2, conditions, &(1..=count(conditions)).rev().collect::<Vec<_>>());
    for first in sheets.iter().map(backwards) {
        for second in sheets.iter().map(|conditions| sheet_bytes(2, conditions)) {
            let rooms: Vec<usize> = (0..=merged_length(&first, &second) + 1).collect();
            seen.run(&first, &second, &rooms, &mut random);
        }
    }
    seen.end(&format!("{} pairs, all of up to four conditions", sheets.len().pow(2)), 10_000, &WITHIN);
    assert_eq!(sheets.len(), 1 + 3 + 9 + 27 + 81);
}

/// How many conditions of a kind a sheet has, near none, near half of the most, and near the most.
const COUNTS: [usize; 7] = [0, 1, 2, 128, 254, 255, 256];

/// Every two sheets with so many conditions of one term and so many withdrawn ones behind them. The second sheet's conditions of one term repeat the first's,
/// or none of them does.
#[test]
fn all_counts_of_conditions() {
    let (mut random, mut seen) = (Random::new(90), Seen::default());
    let counts = || COUNTS.iter().flat_map(|&own| COUNTS.iter().map(move |&withdrawn| (own, withdrawn)));
    let counts: Vec<(usize, usize)> = counts().filter(|(own, withdrawn)| own + withdrawn <= MOST_CONDITIONS).collect();
    let sheet = |from: usize, own: usize, withdrawn: usize| sheet_bytes(128, &[different(from, own), vec![vec![]; withdrawn]].concat());
    for &(own, withdrawn) in &counts {
        for &(other_own, other_withdrawn) in &counts {
            for from in [0, own] {
                let (first, second) = (sheet(0, own, withdrawn), sheet(from, other_own, other_withdrawn));
                let rooms = rooms(&first, &second, &mut random);
                seen.run(&first, &second, &rooms, &mut random);
            }
        }
    }
    seen.end(&format!("{} pairs, all of some counts of conditions", 2 * counts.len().pow(2)), 500, &several_but(TERMS));
}

/// Every two sheets with one long condition of so many terms each, together about as many as there may be, and withdrawn ones before it.
#[test]
fn all_counts_of_withdrawn_conditions_beside_terms() {
    let (mut random, mut seen) = (Random::new(91), Seen::default());
    let terms = [(1, 1), (512, 511), (512, 512), (512, 513), (1023, 1), (1024, 1), (1, 1024), (1024, 1024)];
    let counts = [0, 1, 2, 127, 128, 253, 254, 255];
    let sheet = |withdrawn: usize, terms: usize, lot: usize| sheet_bytes(4, &[vec![vec![]; withdrawn], long(terms, lot)].concat());
    for (one, other) in terms {
        for (withdrawn, other_withdrawn) in counts.iter().flat_map(|&one| counts.iter().map(move |&other| (one, other))) {
            let (first, second) = (sheet(withdrawn, one, 3), sheet(other_withdrawn, other, 4));
            let rooms = rooms(&first, &second, &mut random);
            seen.run(&first, &second, &rooms, &mut random);
        }
    }
    let pairs = terms.len() * counts.len().pow(2);
    seen.end(&format!("{pairs} pairs, all of some counts of withdrawn conditions"), 100, &several_but(CONDITIONS));
}
