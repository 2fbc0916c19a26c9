//! Pairs of sheets for the mergers, and what comes of a pair.
use crate::families;
use crate::random::Random;
use crate::sheets::{Condition, Sheet, Sign, Term, apart, same};

/// How the records of the two sheets stand.
#[derive(Clone, Copy)]
enum Order {
    AsConditions,
    SecondMixed,
    BothMixed,
    /// One slice is lent as both sheets.
    OneSlice,
}

/// A pair is made only where it is wanted.
pub struct Pair {
    pub key: &'static str,
    pub name: &'static str,
    order: Order,
    pub sheets: fn() -> [Sheet; 2],
}

impl Pair {
    /// The bytes of the first sheet and of the second, which are none where the first is lent twice.
    pub fn bytes(&self, [first, second]: &[Sheet; 2]) -> [Vec<u8>; 2] {
        match self.order {
            Order::AsConditions => [first.bytes(), second.bytes()],
            Order::SecondMixed => [first.bytes(), second.bytes_shuffled(2)],
            Order::BothMixed => [first.bytes_shuffled(1), second.bytes_shuffled(2)],
            Order::OneSlice => [first.bytes(), Vec::new()],
        }
    }
}

/// What the document says of the two lists of conditions: those of the first, then those of the second, each unless it has terms and an earlier one has the
/// same in the same order. It may have more conditions or terms than a sheet can.
pub fn merged([first, second]: &[Sheet; 2]) -> Sheet {
    let mut merged = Sheet::new(first.lots.max(second.lots));
    for Condition { terms, .. } in first.conditions.iter().chain(&second.conditions) {
        if terms.is_empty() || merged.conditions.iter().all(|earlier| earlier.terms != *terms) {
            merged.condition(terms.iter().copied());
        }
    }
    merged
}

fn twice(sheet: Sheet) -> [Sheet; 2] {
    [sheet.clone(), sheet]
}

fn different() -> [Sheet; 2] {
    [families::random(1, 128, 4), families::random(2, 128, 4)]
}

/// Each second condition of the second sheet is the first one's at its place.
fn half_shared() -> [Sheet; 2] {
    let [first, mut second] = different();
    for (c, condition) in first.conditions.iter().enumerate().step_by(2) {
        second.conditions[c] = condition.clone();
    }
    [first, second]
}

/// Both sheets with each `step`-th condition withdrawn, which leaves its records vacant.
pub fn some_withdrawn(sheets: [Sheet; 2], step: usize) -> [Sheet; 2] {
    sheets.map(|mut sheet| {
        sheet.withdraw_each(step);
        sheet
    })
}

fn each_second_withdrawn() -> [Sheet; 2] {
    some_withdrawn(different(), 2)
}

/// The pairs of 128 lots, each in both orders.
fn all_pairs() -> impl Iterator<Item = (usize, usize)> {
    (1..=128).flat_map(|a| (1..=128).map(move |b| (a, b)))
}

/// `conditions` of `width` terms, all but the last alike; the last is another in each, and in none of those before `from`.
fn alike(from: usize, conditions: usize, width: usize) -> Sheet {
    let mut sheet = Sheet::new(128);
    for (a, b) in all_pairs().skip(from).take(conditions) {
        sheet.condition((1..width).map(|i| same(i, i + 1)).chain([apart(a, b)]));
    }
    sheet
}

/// The product keeps a digest of each condition that stays, and compares terms only where digests are equal: h begins as 0, and with each term becomes
/// (h * 40,503 + the term's value) % 65,521. The value is (sign * 129 + second lot) * 129 + first lot, "same" being 1 and "apart" 2.
const FACTOR: usize = 40_503;
const PRIME: usize = 65_521;

fn value(term: &Term) -> usize {
    let sign = if term.sign == Sign::Same { 1 } else { 2 };
    (sign * 129 + term.b) * 129 + term.a
}

fn digest(terms: &[Term]) -> usize {
    terms.iter().fold(0, |digest, term| (digest * FACTOR + value(term)) % PRIME)
}

/// The term with this value, if one without lot 0 has it: about half of the numbers below the prime are a term's.
fn with_value(value: usize) -> Option<Term> {
    let (sign, b, a) = (value / (129 * 129), value / 129 % 129, value % 129);
    match sign {
        1 if a > 0 && b > 0 => Some(same(a, b)),
        2 if a > 0 && b > 0 => Some(apart(a, b)),
        _ => None,
    }
}

/// The term that brings the digest of some terms back to 0, if there is one.
fn making_up(terms: &[Term]) -> Option<Term> {
    with_value((PRIME - digest(terms) * FACTOR % PRIME) % PRIME)
}

/// 256 conditions of 4 terms that all have the digest 0, behind so many others of their kind. The first two terms are alike; the third is another in each, and the
/// fourth makes up for it.
///
/// Here digests part no condition from another, so that the product compares terms with every condition that stays before it. It compares at most
/// (terms + conditions that come in) * conditions that stay pairs of terms, which is 2,560 * 512 where all stay, and not the square of the terms, since a
/// comparison ends at the shorter condition's end.
fn one_digest(skipped: usize) -> Sheet {
    let conditions = all_pairs().filter_map(|(a, b)| {
        let three = [same(1, 2), apart(3, 4), same(a, b)];
        making_up(&three).map(|fourth| three.into_iter().chain([fourth]))
    });
    let mut sheet = Sheet::new(128);
    conditions.skip(skipped).take(256).for_each(|condition| sheet.condition(condition));
    sheet
}

/// The second sheet has only the last condition of the first, again and again: it stands behind all the others.
fn only_the_last(first: Sheet) -> [Sheet; 2] {
    let mut second = Sheet::new(128);
    second.conditions = vec![first.conditions[255].clone(); 256];
    [first, second]
}

/// Links of one term, and others.
fn small() -> [Sheet; 2] {
    let mut second = Sheet::new(4);
    for b in 1..=4 {
        second.condition([same(b, 1)]);
    }
    [families::chain(4), second]
}

/// What is timed.
pub fn rows() -> Vec<Pair> {
    use Order::{AsConditions, BothMixed, OneSlice, SecondMixed};
    let row = |key, name, order, sheets| Pair { key, name, order, sheets };
    vec![
        row("different", "2 x 128 conditions of 4 terms, all different, in order", AsConditions, different),
        row("different-mixed", "the same, in random order", BothMixed, different),
        row("itself", "256 conditions of 4 terms with itself, one slice", OneSlice, || twice(families::random(1, 256, 4))),
        row("itself-mixed", "the same, the second in random order", SecondMixed, || twice(families::random(1, 256, 4))),
        row("half-shared", "2 x 128 conditions of 4 terms, half shared, in order", AsConditions, half_shared),
        row("withdrawn", "2 x 128 conditions of 4 terms, half withdrawn, in order", AsConditions, each_second_withdrawn),
        row("withdrawn-mixed", "the same, half withdrawn, in random order", BothMixed, each_second_withdrawn),
        row("alike-8", "hostile: 128 of 8 terms, 7 alike, with itself", BothMixed, || twice(alike(0, 128, 8))),
        row("alike-4", "hostile: 256 of 4 terms, 3 alike, with itself", BothMixed, || twice(alike(0, 256, 4))),
        row("too-many", "hostile: 256 of 4 terms, 3 alike, with 256 others", BothMixed, || [alike(0, 256, 4), alike(256, 256, 4)]),
        row("digest", "hostile: 256 of 4 terms, one digest, with itself", BothMixed, || twice(one_digest(0))),
        row("digest-last", "hostile: the same, with its last 256 times", BothMixed, || only_the_last(one_digest(0))),
        row("digest-others", "hostile: the same, with 256 others of its digest", BothMixed, || [one_digest(0), one_digest(256)]),
        row("one-chain", "one condition of 1,024 terms with itself, one slice", OneSlice, || twice(families::longest_chain())),
        row("small", "4 conditions of 1 term with 4 others", AsConditions, small),
    ]
}

/// What random conditions are put together from: terms over some lots; or two terms with the digest 0, over 128 lots, so that all conditions of these have it,
/// withdrawn ones and those with which others begin too.
#[derive(Clone, Copy)]
enum Piece {
    Term(usize),
    Digest,
}

fn random_piece(random: &mut Random, piece: Piece) -> Vec<Term> {
    let lots = if let Piece::Term(lots) = piece { lots } else { 128 };
    loop {
        let (is_same, a, b) = (random.below(2) == 0, 1 + random.below(lots), 1 + random.below(lots));
        let term = if is_same { same(a, b) } else { apart(a, b) };
        match (piece, making_up(&[term])) {
            (Piece::Term(_), _) => return vec![term],
            (Piece::Digest, Some(second)) => return vec![term, second],
            (Piece::Digest, None) => {}
        }
    }
}

/// A condition, by the numbers of its pieces: random ones, or those of an earlier condition cut, lengthened or changed at a place.
fn random_condition(random: &mut Random, pieces: usize, width: usize, earlier: &[Vec<usize>]) -> Vec<usize> {
    let mut condition = if earlier.is_empty() { Vec::new() } else { earlier[random.below(earlier.len())].clone() };
    let length = condition.len();
    match random.below(8) {
        5 => condition.truncate(random.below(length + 1)),
        6 if length < width => condition.push(random.below(pieces)),
        7 if length > 0 => condition[random.below(length)] = random.below(pieces),
        _ => condition = (0..random.below(width + 1)).map(|_| random.below(pieces)).collect(),
    }
    condition
}

/// A sheet of conditions that are taken from some, as many as go in. One without a term is withdrawn, and leaves up to three vacant records.
fn taken(random: &mut Random, lots: usize, conditions: usize, from: &[Vec<Term>]) -> Sheet {
    let mut sheet = Sheet::new(lots);
    for _ in 0..conditions {
        let terms = &from[random.below(from.len())];
        let vacant = if terms.is_empty() { random.below(4) } else { 0 };
        if sheet.records() + terms.len() + vacant <= 1024 {
            sheet.conditions.push(Condition { terms: terms.clone(), vacant });
        }
    }
    sheet
}

/// Two sheets that take their conditions from the same ones, few or many, short or long, so that conditions repeat within a sheet and across, and others nearly
/// do. With every fourth seed all have one digest.
pub fn random_pair(seed: u64) -> [Sheet; 2] {
    let mut random = Random::new(seed);
    let (piece, lots) = if seed.is_multiple_of(4) { (Piece::Digest, 128) } else { (Piece::Term(1 + seed as usize), 1 + seed as usize) };
    let pieces: Vec<Vec<Term>> = (0..=random.below(1000)).map(|_| random_piece(&mut random, piece)).collect();
    let (width, count) = (1 + random.below(12), 1 + random.below(1500));
    let mut conditions = Vec::new();
    for _ in 0..count {
        conditions.push(random_condition(&mut random, pieces.len(), width, &conditions));
    }
    let terms = |condition: &Vec<usize>| condition.iter().flat_map(|piece| pieces[*piece].clone()).collect();
    let from: Vec<Vec<Term>> = conditions.iter().map(terms).collect();
    [(); 2].map(|()| {
        let (lots, conditions) = ((lots + random.below(9)).min(128), random.below(257));
        taken(&mut random, lots, conditions, &from)
    })
}

#[cfg(test)]
mod tests {
    use super::*;
    use std::collections::HashSet;

    #[test]
    fn sheets_of_the_rows_are_within_the_format_and_what_stays_of_them_is_known() {
        let stays = [256, 256, 256, 256, 192, 256, 256, 128, 256, 512, 256, 256, 512, 1, 8];
        let (mut keys, mut names) = (HashSet::new(), HashSet::new());
        for (pair, stays) in rows().into_iter().zip(stays) {
            let sheets = (pair.sheets)();
            assert!(sheets.iter().all(|sheet| sheet.conditions.len() <= 256 && sheet.records() <= 1024), "{}", pair.key);
            assert_eq!(merged(&sheets).conditions.len(), stays, "{}", pair.key);
            assert!(keys.insert(pair.key) && names.insert(pair.name));
        }
    }

    #[test]
    fn a_sheet_with_itself_has_its_withdrawn_conditions_once_more() {
        let [first, _] = each_second_withdrawn();
        let stays = merged(&twice(first.clone())).conditions;
        let terms = |conditions: &[Condition]| conditions.iter().map(|condition| condition.terms.clone()).collect::<Vec<_>>();
        assert_eq!(terms(&stays[..128]), terms(&first.conditions));
        assert_eq!(terms(&stays[128..]), vec![Vec::new(); 64]);
    }

    #[test]
    fn conditions_of_one_digest_differ_in_the_third_term_and_in_the_fourth() {
        let sheet = one_digest(0);
        assert_eq!(sheet.conditions.len(), 256);
        assert!(sheet.conditions.iter().all(|condition| condition.terms.len() == 4 && digest(&condition.terms) == 0));
        for place in [2, 3] {
            let values: HashSet<usize> = sheet.conditions.iter().map(|condition| value(&condition.terms[place])).collect();
            assert_eq!(values.len(), 256);
        }
    }
}
