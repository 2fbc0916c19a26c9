//! Sheets made to be slow: at many nodes hundreds of terms of the condition taken are false, and hundreds of pairs stand set apart. A long condition sets its
//! pairs apart one after the other, one with "same" terms over lots of its own multiplies nodes, and one further has the terms that are false.
use crate::families::from_zero;
use crate::sheets::{Sheet, Term, apart, same};

/// Which stands first: the condition that multiplies nodes, or the one whose pairs come to be set apart.
#[derive(Clone, Copy, PartialEq, Eq)]
pub enum First {
    Multiplies,
    SetsApart,
}

/// The first `count` pairs a < b of as few lots as have so many, and the number of these lots.
fn pairs(count: usize) -> (usize, Vec<(usize, usize)>) {
    let lots = (1..).find(|lots| lots * (lots - 1) / 2 >= count).unwrap_or(1);
    (lots, (1..=lots).flat_map(|a| (a + 1..=lots).map(move |b| (a, b))).take(count).collect())
}

/// "same" terms over some pairs, gone over again and again until there are `terms`.
fn again(pairs: &[(usize, usize)], terms: usize) -> Vec<Term> {
    pairs.iter().cycle().take(terms).map(|&(a, b)| same(a, b)).collect()
}

/// Terms "same hub b" over the lots after the hub.
fn spokes(hub: usize, width: usize) -> Vec<Term> {
    (hub + 1..=hub + width).map(|b| same(hub, b)).collect()
}

/// A condition of `width` terms that multiplies nodes and one of `apart_pairs`, in this order or the other; one of `terms` over the first `marked` of those pairs; and
/// "apart 1 1". Under the same branch of a pair after these all `terms` are false.
pub fn product(first: First, width: usize, apart_pairs: usize, marked: usize, terms: usize) -> Sheet {
    let (lots, pairs) = pairs(apart_pairs);
    let mut sheet = Sheet::new(lots + 1 + width);
    let mut both = [spokes(lots + 1, width), again(&pairs, apart_pairs)];
    if first == First::SetsApart {
        both.reverse();
    }
    for condition in both {
        sheet.condition(condition);
    }
    sheet.condition(again(&pairs[..marked], terms));
    sheet.condition([apart(1, 1)]);
    sheet
}

/// The nodes of `product`, by the lengths of its first two conditions: in the same branches of both stands a ground.
pub fn product_nodes(first: usize, second: usize) -> usize {
    first * (2 * second + 2) + 1
}

/// Every node but those of the first path stands under all of `apart_pairs`: a condition of one "apart" term for each ends the same branches of the long one, all
/// but its last. Below come `r` conditions that multiply nodes, of `width` terms each after those of `lead`, and a last condition, neither of which knows a lot
/// that isn't in a pair. `lead` and `last` are given the pairs.
fn steady(
    apart_pairs: usize,
    lead: impl Fn(&[(usize, usize)]) -> Vec<Term>,
    r: usize,
    width: usize,
    last: impl Fn(&[(usize, usize)]) -> Vec<Term>,
) -> Sheet {
    let (lots, pairs) = pairs(apart_pairs);
    let hub = lots + 3;
    let mut sheet = Sheet::new(hub + r * width);
    sheet.condition(again(&pairs, apart_pairs).into_iter().chain([same(lots + 1, lots + 2)]));
    for &(a, b) in &pairs {
        sheet.condition([apart(a, b)]);
    }
    for i in 0..r {
        let own = (1..=width).map(|b| same(hub, hub + i * width + b));
        sheet.condition(lead(&pairs).into_iter().chain(own));
    }
    sheet.condition(last(&pairs));
    sheet
}

/// The nodes of such a sheet where no term of `lead` and `last` is open.
pub fn steady_nodes(apart_pairs: usize, r: usize, width: usize) -> usize {
    2 * apart_pairs + 1 + 2 * (0..=r as u32).map(|i| width.pow(i)).sum::<usize>()
}

/// Two conditions of `width` multiply nodes, and below each of their branches stands a ground of `terms` terms over all pairs.
pub fn all_apart(apart_pairs: usize, width: usize, terms: usize) -> Sheet {
    steady(apart_pairs, |_| Vec::new(), 2, width, |pairs| again(pairs, terms))
}

/// `r` conditions of `width` multiply nodes, and each has a few false terms before its own: over the latest pairs or over the earliest.
pub fn few_false(apart_pairs: usize, r: usize, width: usize, few: usize, latest: bool) -> Sheet {
    let lead = |pairs: &[(usize, usize)]| if latest { again(&pairs[pairs.len() - few..], few) } else { again(&pairs[..few], few) };
    steady(apart_pairs, lead, r, width, |_| vec![apart(1, 1)])
}

/// For a limit one below `classes`: the lots from 0 on, so many, come to be apart pairwise, and below stand `r` conditions that multiply nodes, of `width`
/// terms each. Where they are met there is a clique under all pairs.
pub fn cliques(classes: usize, r: usize, width: usize) -> Sheet {
    let mut sheet = steady(classes * (classes - 1) / 2, |_| Vec::new(), r, width, |_| Vec::new());
    // The last condition has no terms here, and takes no record.
    sheet.conditions.pop();
    from_zero(sheet)
}

/// As `product`, but the pairs lie between classes of `members` lots, which conditions of one "same" term join first: the long condition names the last lot of each class and
/// the terms that are false the first.
pub fn of_classes(members: usize, width: usize, apart_pairs: usize, marked: usize, terms: usize) -> Sheet {
    let (classes, pairs) = pairs(apart_pairs);
    let named = |lot: usize| move |&(x, y): &(usize, usize)| (members * (x - 1) + lot, members * (y - 1) + lot);
    let mut sheet = Sheet::new(members * classes + 1 + width);
    for first in (0..classes).map(|class| members * class + 1) {
        for other in first + 1..first + members {
            sheet.condition([same(first, other)]);
        }
    }
    sheet.condition(spokes(members * classes + 1, width));
    sheet.condition(again(&pairs.iter().map(named(members)).collect::<Vec<_>>(), apart_pairs));
    sheet.condition(again(&pairs[..marked].iter().map(named(1)).collect::<Vec<_>>(), terms));
    sheet.condition([apart(1, 1)]);
    sheet
}

/// The joins of the classes, each a split whose apart branch is a ground, and then a `product`.
pub fn of_classes_nodes(members: usize, width: usize, apart_pairs: usize) -> usize {
    2 * (members - 1) * pairs(apart_pairs).0 + product_nodes(width, apart_pairs)
}

/// The pair that makes a term false is another in each branch: all of `rim` lots b come to be apart from `far` lots c, those of the first c first; then lot 1 is the same as one of
/// the b; then come `terms` terms "same 1 c" over the first `marked` c; and "apart 1 1".
pub fn star(rim: usize, far: usize, marked: usize, terms: usize) -> Sheet {
    let c = |k: usize| 1 + rim + k;
    let mut sheet = Sheet::new(c(far));
    sheet.condition((1..=far).flat_map(|k| (2..=1 + rim).map(move |b| same(b, c(k)))));
    sheet.condition(spokes(1, rim));
    sheet.condition(again(&(1..=marked).map(|k| (1, c(k))).collect::<Vec<_>>(), terms));
    sheet.condition([apart(1, 1)]);
    sheet
}

/// As a `product`, and where a pair with one of the marked c is joined, the terms over the c after it are open, but where lot 1 joins that class.
pub fn star_nodes(rim: usize, far: usize, marked: usize) -> usize {
    product_nodes(rim * far, rim) + rim * (rim - 1) * marked * (marked - 1)
}

/// The lots that no pair of `grounds` has: one more than a tree of grounds can be deep.
pub const FREE_LOTS: usize = 17;

/// The pairs of `grounds`, over the lots after the free ones.
pub fn ground_pairs(count: usize) -> Vec<(usize, usize)> {
    pairs(count).1.into_iter().map(|(a, b)| (FREE_LOTS + a, FREE_LOTS + b)).collect()
}

/// For the checker's lists: a condition of `terms` "same" terms over the first of some pairs, and one "apart 1 1".
pub fn grounds(terms: usize, apart_pairs: usize) -> Sheet {
    let mut sheet = Sheet::new(FREE_LOTS + pairs(apart_pairs).0);
    sheet.condition(again(&ground_pairs(apart_pairs), terms));
    sheet.condition([apart(1, 1)]);
    sheet
}
