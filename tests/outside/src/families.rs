//! Sheets whose count of nodes or depth of path is known by how they are made.
use crate::random::Random;
use second::limits::MOST_TERMS;
use second::sheet::Term;
use second::writer::{apart, same, sheet_bytes};

/// Conditions of `widths[i]` "same" terms, every term on two lots of its own, and a last one that nobody meets: every way to make them true is visited.
pub fn wide(widths: &[usize]) -> Vec<Vec<Term>> {
    let mut conditions = disjoint(widths, 1);
    conditions.push(vec![apart(1, 1)]);
    conditions
}

/// As `wide`, but the last condition asks that lots 1 and 2 differ, and a first one has the terms "same 1 2" and "same 3 4": everything under the same branch
/// of 1 2 is visited, then the apart branch is met.
pub fn wide_and_met(widths: &[usize]) -> Vec<Vec<Term>> {
    let mut conditions = vec![vec![same(1, 2), same(3, 4)]];
    conditions.extend(disjoint(widths, 5));
    conditions.push(vec![apart(1, 2)]);
    conditions
}

/// Terms on the lots from `lot` on, two new ones each.
fn disjoint(widths: &[usize], mut lot: usize) -> Vec<Vec<Term>> {
    let mut next = || {
        lot += 2;
        same(lot - 2, lot - 1)
    };
    widths.iter().map(|&width| (0..width).map(|_| next()).collect()).collect()
}

/// The lots that the terms name.
pub fn lots(conditions: &[Vec<Term>]) -> usize {
    conditions.iter().flatten().map(|term| term.a.max(term.b)).max().unwrap_or(0)
}

pub fn bytes(conditions: &[Vec<Term>]) -> Vec<u8> {
    sheet_bytes(lots(conditions), conditions)
}

/// The same conditions with every lot's number one less, so that lot 1 becomes lot 0: the search goes the same way, since the order of the lots is the same. No
/// term has lot 0 beforehand.
pub fn lowered(conditions: &[Vec<Term>]) -> Vec<Vec<Term>> {
    let lower = |term: &Term| Term { sign: term.sign, a: term.a - 1, b: term.b - 1 };
    conditions.iter().map(|condition| condition.iter().map(lower).collect()).collect()
}

/// The nodes of `wide`: under each of w splits the rest, and a ground where all w are apart.
pub fn wide_count(widths: &[usize]) -> usize {
    widths.iter().rev().fold(1, |rest, width| width * (1 + rest) + 1)
}

/// The nodes of `wide_and_met`: the split on 1 2, everything under its same branch, the split on 3 4, one split for each condition, and the met node.
pub fn wide_and_met_count(widths: &[usize]) -> usize {
    1 + wide_count(widths) + 1 + widths.len() + 1
}

/// The most splits that a path of a search has: a sheet of "same" terms alone is met with all lots together, so one of its records has another term.
pub const DEEPEST: usize = MOST_TERMS - 1;

/// One condition of `width` "same" terms on different pairs, and one that nobody meets, which takes a record of its own: the path with all of them apart has
/// `width` splits.
pub fn deep(lots: usize, width: usize, random: &mut Random) -> Vec<Vec<Term>> {
    let mut pairs: Vec<Term> = (1..=lots).flat_map(|a| (1..a).map(move |b| same(a, b))).collect();
    random.shuffle(&mut pairs);
    pairs.truncate(width);
    let withdrawn = vec![vec![]; random.below(2)];
    [vec![pairs], withdrawn, vec![vec![apart(1, 1)]]].concat()
}

/// Each lot the same as the one before, and the first apart from the last: a path with all of them joined.
pub fn joined(lots: usize) -> Vec<Vec<Term>> {
    let mut conditions: Vec<Vec<Term>> = (1..lots).map(|lot| vec![same(lot, lot + 1)]).collect();
    conditions.push(vec![apart(1, lots)]);
    conditions
}

/// A first condition multiplies nodes, the next sets up to `pairs` random pairs apart, and one further has `terms` over these pairs, with an "apart" term that
/// is false and now and then a pair of its own: at many nodes terms are false by many pairs. Joins before them give some of the lots another class.
pub fn marked(lots: usize, pairs: usize, terms: usize, random: &mut Random) -> Vec<Vec<Term>> {
    let mut all: Vec<(usize, usize)> = (1..=lots).flat_map(|a| (1..a).map(move |b| (a, b))).collect();
    random.shuffle(&mut all);
    let (set, others) = all.split_at(pairs.min(all.len()));
    let joins: Vec<Vec<Term>> = (0..random.below(4)).map(|_| vec![same(random.range(1, lots), random.range(1, lots))]).collect();
    let multiplies = (1..=random.range(1, 3)).map(|own| same(lots + 1, lots + 1 + own)).collect();
    let either_way = |(a, b): (usize, usize), turned: bool| if turned { same(b, a) } else { same(a, b) };
    let mut last: Vec<Term> = (0..terms).map(|_| either_way(random.pick(set), random.chance(50))).collect();
    last.insert(random.below(terms + 1), apart(1, 1));
    if random.chance(30) && !others.is_empty() {
        let (a, b) = random.pick(others);
        last.insert(random.below(terms + 1), same(a, b));
    }
    [joins, vec![multiplies, set.iter().map(|&(a, b)| same(a, b)).collect(), last, vec![apart(1, 1)]]].concat()
}
