//! The sheets that the searches run on, with the answer and the count that each is known to have.
use crate::families::{chain, circ, colouring, from_zero, half_withdrawn, long_condition, mixed, phe, random, two_ways, worst_case};
use crate::records::MOST;
use crate::sheets::Sheet;
use crate::slow::{self, First};

#[derive(Clone, Copy, Debug, PartialEq, Eq)]
pub enum Answer {
    Met,
    Cannot,
    Full,
}

pub struct Case {
    /// A short name for commands and data, and the name in words.
    pub key: String,
    pub name: String,
    pub family: &'static str,
    pub sheet: Sheet,
    pub answer: Answer,
    /// The nodes of the whole search, of which a full store has only the first.
    pub nodes: usize,
}

pub fn case(key: &str, name: &str, family: &'static str, sheet: Sheet, answer: Answer, nodes: usize) -> Case {
    Case { key: key.into(), name: name.into(), family, sheet, answer, nodes }
}

fn long_conditions() -> Vec<Case> {
    let one = |terms: usize| {
        let (key, name) = (format!("long-{terms}"), format!("one condition of {terms} terms"));
        case(&key, &name, "long condition", long_condition(terms), Answer::Cannot, 2 * terms + 1)
    };
    [255, 511, 1023].map(one).into()
}

/// With G = 1 + w + .. + w^r the tree has G grounds and G - 1 splits.
fn worst_cases() -> Vec<Case> {
    let one = |(r, w): (usize, usize)| {
        let nodes = 2 * (0..=r as u32).map(|i| w.pow(i)).sum::<usize>() - 1;
        let (answer, note) = if nodes > MOST { (Answer::Full, ", full") } else { (Answer::Cannot, "") };
        case(&format!("worst-{r}-{w}"), &format!("worst case r = {r}, w = {w}{note}"), "worst case", worst_case(r, w), answer, nodes)
    };
    [(5, 7), (5, 8), (3, 31), (3, 40)].map(one).into()
}

fn of_document_001() -> Vec<Case> {
    let ring = |n: usize| case(&format!("circ-{n}"), &format!("circ({n})"), "document 001", circ(n), Answer::Cannot, n * n - n + 1);
    let hole = |n: usize| case(&format!("phe-{n}"), &format!("phe({n})"), "document 001", phe(n), Answer::Cannot, n * n + n - 1);
    vec![ring(22), ring(23), hole(22)]
}

fn random_sheets() -> Vec<Case> {
    let fixed = |(seed, conditions, width, nodes): (u64, usize, usize, usize)| {
        let (key, name) = (format!("random-{conditions}-{width}-{seed}"), format!("random {conditions} x {width}, seed {seed}"));
        case(&key, &name, "random", random(seed, conditions, width), Answer::Met, nodes)
    };
    let mix = |(seed, lots, answer, nodes): (u64, usize, Answer, usize)| {
        let (key, name) = (format!("mixed-{lots}-{seed}"), format!("random 256 x 2 to 4, {lots} lots, seed {seed}"));
        case(&key, &name, "random", mixed(seed, lots), answer, nodes)
    };
    let mut all: Vec<Case> = [(5, 208, 2, 5195), (10, 256, 3, 2117), (6, 256, 3, 8212)].map(fixed).into();
    let (met, cannot) = (Answer::Met, Answer::Cannot);
    all.extend([(31, 128, met, 32688), (49, 128, met, 59392), (53, 48, met, 36001)].map(mix));
    all.extend([(16, 16, cannot, 41209), (98, 20, cannot, 54975)].map(mix));
    all
}

fn colourings() -> Vec<Case> {
    let one = |(seed, groups, members, edges, answer, nodes): (u64, usize, usize, usize, Answer, usize)| {
        let (key, name) = (format!("colours-{groups}-{members}-{edges}"), format!("{members} lots in {groups} groups, {edges} apart"));
        case(&key, &name, "colouring", colouring(seed, groups, members, edges), answer, nodes)
    };
    let met = [(13, 3, 40, 80, Answer::Met, 31915), (35, 5, 40, 195, Answer::Met, 54857)];
    let cannot = [(1, 3, 26, 90, Answer::Cannot, 35521), (14, 4, 20, 100, Answer::Cannot, 37225)];
    met.into_iter().chain(cannot).map(one).collect()
}

/// A link more doubles the two-way chain's tree: 10 * 2^links - 9 nodes.
fn chains() -> Vec<Case> {
    let two = |links: usize| {
        let (key, name) = (format!("two-ways-{links}"), format!("chain of {links} links by two ways"));
        case(&key, &name, "chain", two_ways(links), Answer::Cannot, 10 * (1 << links) - 9)
    };
    vec![case("chain-128", "chain of 128 lots", "chain", chain(128), Answer::Cannot, 255), two(8), two(12)]
}

pub const SLOW: &str = "made to be slow";

/// Hundreds of terms are false by hundreds of pairs at many nodes: the condition that multiplies nodes, the pairs and the terms differ.
fn slow_products() -> Vec<Case> {
    let before = |(width, pairs, marked, terms): (usize, usize, usize, usize)| {
        let (key, name) = (format!("slow-before-{pairs}-{terms}"), format!("slow: {width}, then {pairs} pairs, {terms} terms"));
        let sheet = slow::product(First::Multiplies, width, pairs, marked, terms);
        case(&key, &name, SLOW, sheet, Answer::Cannot, slow::product_nodes(width, pairs))
    };
    let after = |(width, pairs, marked, terms): (usize, usize, usize, usize)| {
        let (key, name) = (format!("slow-after-{pairs}-{terms}"), format!("slow: {pairs} pairs, then {width}, {terms} terms"));
        let sheet = slow::product(First::SetsApart, width, pairs, marked, terms);
        case(&key, &name, SLOW, sheet, Answer::Cannot, slow::product_nodes(pairs, width))
    };
    let mut all: Vec<Case> = [(50, 500, 250, 250), (50, 100, 50, 500)].map(before).into();
    all.extend([(50, 500, 250, 250), (20, 900, 100, 100), (20, 400, 1, 500)].map(after));
    all
}

/// Pairs that all stand set apart at nearly every node, marks on classes of several lots, and marks that another pair makes in each branch.
fn slow_others() -> Vec<Case> {
    let steady = case(
        "slow-steady-200-500",
        "slow: 200 pairs at each node, 500 terms",
        SLOW,
        slow::all_apart(200, 50, 500),
        Answer::Cannot,
        slow::steady_nodes(200, 2, 50),
    );
    let classes = case(
        "slow-classes-276-400",
        "slow: 276 pairs of classes of 4, 400 terms",
        SLOW,
        slow::of_classes(4, 31, 276, 138, 400),
        Answer::Cannot,
        slow::of_classes_nodes(4, 31, 276),
    );
    let star = case(
        "slow-star-400-400",
        "slow: 400 pairs of a star, 400 terms",
        SLOW,
        slow::star(50, 8, 3, 400),
        Answer::Cannot,
        slow::star_nodes(50, 8, 3),
    );
    let few = |(few, latest, word): (usize, bool, &str)| {
        let (key, name) = (format!("slow-{word}-200-{few}"), format!("slow: 200 pairs, {few} terms by the {word}"));
        case(&key, &name, SLOW, slow::few_false(200, 5, 7, few, latest), Answer::Cannot, slow::steady_nodes(200, 5, 7))
    };
    vec![steady, classes, star, few((9, true, "latest")), few((3, false, "earliest"))]
}

/// Two of the sheets above with as many withdrawn conditions among their own: these cost what differs from the sheet's own row.
fn withdrawn() -> Vec<Case> {
    let (colours, links) = (half_withdrawn(colouring(14, 4, 20, 100)), half_withdrawn(chain(128)));
    vec![
        case("withdrawn-colours", "20 lots in 4 groups, as many withdrawn", "withdrawn", colours, Answer::Cannot, 37225),
        case("withdrawn-chain", "chain of 128 lots, as many withdrawn", "withdrawn", links, Answer::Cannot, 255),
    ]
}

/// One of the sheets above with lot 0 for the first of its groups, and the other lots by one number less: lot 0 costs what differs from the sheet's own row.
fn of_zero() -> Vec<Case> {
    let colours = from_zero(colouring(14, 4, 20, 100));
    vec![case("zero-colours", "20 lots in 4 groups, lot 0 a group", "lot 0", colours, Answer::Cannot, 37225)]
}

pub fn all() -> Vec<Case> {
    let of_before = [long_conditions(), worst_cases(), of_document_001(), random_sheets(), colourings(), chains()];
    of_before.into_iter().chain([slow_products(), slow_others(), withdrawn(), of_zero()]).flatten().collect()
}

/// Sheets of one kind for the cost of a node against sizes: a condition of 4 terms multiplies nodes, and each false term is over the pair that was set apart first. The
/// terms and the pairs, and the sheet.
pub fn sizes() -> Vec<(usize, usize, Case)> {
    let one = |(terms, pairs): (usize, usize)| {
        let (key, name) = (format!("sizes-{terms}-{pairs}"), format!("{terms} terms false, {pairs} pairs apart"));
        let sheet = slow::product(First::SetsApart, 4, pairs, 1, terms);
        (terms, pairs, case(&key, &name, SLOW, sheet, Answer::Cannot, slow::product_nodes(pairs, 4)))
    };
    [125, 250, 500].into_iter().flat_map(|terms| [125, 250, 500].map(|pairs| (terms, pairs))).map(one).collect()
}

#[cfg(test)]
mod tests {
    use super::*;
    use std::collections::HashSet;

    #[test]
    fn sheets_are_within_the_format_and_have_names_of_their_own() {
        let (mut keys, mut names) = (HashSet::new(), HashSet::new());
        for case in all().into_iter().chain(sizes().into_iter().map(|(_, _, case)| case)) {
            let (lots, conditions, records) = (case.sheet.lots, case.sheet.conditions.len(), case.sheet.records());
            assert!(
                lots <= 128 && conditions <= 256 && records <= 1024,
                "{}: {lots} lots, {conditions} conditions, {records} records",
                case.key
            );
            assert!((case.nodes > MOST) == (case.answer == Answer::Full), "{}: {} nodes", case.key, case.nodes);
            assert!(keys.insert(case.key) && names.insert(case.name));
        }
    }
}
