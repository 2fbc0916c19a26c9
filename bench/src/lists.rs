//! Lists of records for the checker to walk.
use crate::random::Random;
use crate::records::{self, MOST};
use crate::slow::FREE_LOTS;
use lihumbay::raw::Numbers;

/// The splits that stand above the tree of a deep list, without a limit and with one.
pub const CHAIN: usize = 1009;
pub const LIMITED_CHAIN: usize = 8241;

#[derive(Default)]
struct List(Vec<[u8; 8]>);

impl List {
    /// A split; the place of its record, for its next.
    fn split(&mut self, a: usize, b: usize) -> usize {
        self.0.push(records::split(a, b));
        self.0.len() - 1
    }

    fn ground(&mut self, condition: usize) {
        self.0.push(records::ground(condition));
    }

    /// The apart branch of a split begins with the record that comes.
    fn turn(&mut self, split: usize) {
        let next = self.0.len() + 1;
        records::set_next(&mut self.0[split], next);
    }

    /// So many of a ground or clique with as few splits above each as can be. The splits at a depth, which counts from 1, name the same lots.
    fn tree(&mut self, count: usize, leaf: [u8; 8], depth: usize, lots: fn(usize) -> (usize, usize)) {
        if count == 1 {
            return self.0.push(leaf);
        }
        let (a, b) = lots(depth);
        let split = self.split(a, b);
        self.tree(count - count / 2, leaf, depth + 1, lots);
        self.turn(split);
        self.tree(count / 2, leaf, depth + 1, lots);
    }

    /// A random tree of so many splits over some lots, for the sheet that has a condition for each term of these.
    fn random_tree(&mut self, random: &mut Random, splits: usize, leaves: &Leaves) {
        let lots = leaves.lots;
        if splits == 0 {
            return self.0.push(leaves.one(random));
        }
        let [a, b] = [(); 2].map(|()| lots[random.below(lots.len())]);
        let (split, under) = (self.split(a, b), random.below(splits));
        self.random_tree(random, under, leaves);
        self.turn(split);
        self.random_tree(random, splits - 1 - under, leaves);
    }

    /// Each pair set apart, one split for each; the grounds in their same branches name condition 2, which is "apart 1 1".
    fn set_apart(&mut self, pairs: impl IntoIterator<Item = (usize, usize)>) {
        for (a, b) in pairs {
            let split = self.split(a, b);
            self.ground(2);
            self.turn(split);
        }
    }

    /// A tree of as many of these as a list can still have, where the path above it has only turned splits.
    fn fill(&mut self, leaf: [u8; 8], lots: fn(usize) -> (usize, usize)) {
        self.tree((MOST - self.0.len()).div_ceil(2), leaf, 1, lots);
    }

    fn bytes(self) -> Vec<u8> {
        assert!(self.0.len() <= MOST, "a list has at most {MOST} records");
        self.0.concat()
    }
}

/// What ends the branches of a random tree. Of the grounds three in four name a condition that no assignment meets, so that the walk goes on; the others any
/// condition.
struct Leaves {
    lots: [usize; 6],
    conditions: usize,
    /// One in so many is a clique; none where it is 0.
    clique_in: usize,
}

impl Leaves {
    fn one(&self, random: &mut Random) -> [u8; 8] {
        if self.clique_in > 0 && random.below(self.clique_in) == 0 {
            return records::clique();
        }
        let among = if random.below(4) < 3 { self.lots.len() } else { self.conditions };
        records::ground(1 + random.below(among))
    }
}

/// What a search writes for a sheet that cannot be met: the sheet's own refutation.
pub fn own(search: impl Fn(&[u8], &mut [u8], &mut [u8]) -> Numbers, sheet: &[u8]) -> Vec<u8> {
    let (mut grouping, mut store) = (vec![0; 128], vec![0; 8 * MOST]);
    let numbers = search(sheet, &mut grouping, &mut store);
    assert!((numbers.check, numbers.first) == (0, 2), "the sheet isn't one that cannot be met");
    store.truncate(8 * numbers.second as usize);
    store
}

/// Splits that name lot 1 twice: they decide nothing, and the classes stay as they are.
fn no_join(_: usize) -> (usize, usize) {
    (1, 1)
}

/// The first pairs a < b of 128 lots.
fn first_pairs() -> impl Iterator<Item = (usize, usize)> {
    (1..=128).flat_map(|a| (a + 1..=128).map(move |b| (a, b)))
}

/// For a sheet whose condition 2 is "apart 1 1": `chain` splits, and below them, in their same branches, a tree of as many grounds as a list can still have;
/// 65,535 records. With 1,009 splits there are 31,759 grounds, each under 1,023 or 1,024 splits; with 8,241 there are 24,527, each under 8,255 or 8,256. The
/// first `joins` of the splits join two lots each, the other splits name lot 1 twice.
pub fn deep(chain: usize, joins: usize) -> Vec<u8> {
    let mut list = List::default();
    let splits: Vec<usize> = (0..chain).map(|i| if i < joins { list.split(i + 1, i + 2) } else { list.split(1, 1) }).collect();
    list.tree((MOST - 2 * chain).div_ceil(2), records::ground(2), 1, no_join);
    for split in splits.into_iter().rev() {
        list.turn(split);
        list.ground(2);
    }
    list.bytes()
}

/// For the same sheet: the first `pairs` pairs of 128 lots set apart, and below them grounds that all name condition 1, under the same classes.
pub fn apart(pairs: usize) -> Vec<u8> {
    let mut list = List::default();
    list.set_apart(first_pairs().take(pairs));
    list.fill(records::ground(1), no_join);
    list.bytes()
}

/// What the splits above two cliques that follow each other join, in the tree below the pairs.
#[derive(Clone, Copy, PartialEq, Eq)]
pub enum Between {
    Nothing,
    /// Lots that don't count.
    Others,
    /// A lot that counts with one that doesn't.
    Counted,
}

/// For a sheet of 128 lots whose condition 2 is "apart 1 1", under the limit `classes` - 1: each two of the lots from 0 on, so many, set apart, and below them
/// at most `most` cliques.
pub fn cliques(classes: usize, most: usize, between: Between) -> Vec<u8> {
    let mut list = List::default();
    list.set_apart((0..classes).flat_map(|a| (a + 1..classes).map(move |b| (a, b))));
    let lots = match between {
        Between::Nothing => no_join,
        Between::Others => |depth| (100, 100 + depth),
        Between::Counted => |depth| (depth, 100 + depth),
    };
    list.tree(most.min((MOST - list.0.len()).div_ceil(2)), records::clique(), 1, lots);
    list.bytes()
}

/// For the same sheet, under the same classes too, but pairs come to be set apart between the grounds: the first `pairs`, and then one more after each 64 grounds.
pub fn growing(pairs: usize, more: usize) -> Vec<u8> {
    let mut list = List::default();
    list.set_apart(first_pairs().take(pairs));
    for pair in first_pairs().skip(pairs).take(more) {
        let split = list.split(1, 1);
        list.tree(64, records::ground(1), 1, no_join);
        list.turn(split);
        list.set_apart([pair]);
    }
    list.ground(1);
    list.bytes()
}

/// What the splits above two grounds that follow each other join, in the tree below the pairs.
#[derive(Clone, Copy, PartialEq, Eq)]
pub enum Joins {
    /// Lots that no pair has.
    Free,
    /// A lot of many pairs with a smaller one, so that its class has another number and its marks lie elsewhere.
    Marked,
}

/// For `slow::grounds`: its pairs set apart, and below them grounds that all name condition 1; of two that follow each other no one has the other's classes.
pub fn joined(pairs: impl IntoIterator<Item = (usize, usize)>, joins: Joins) -> Vec<u8> {
    let mut list = List::default();
    list.set_apart(pairs);
    match joins {
        Joins::Free => list.fill(records::ground(1), |depth| (1, 1 + depth)),
        Joins::Marked => list.fill(records::ground(1), |depth| (depth, FREE_LOTS + depth)),
    }
    list.bytes()
}

/// For `families::each_term_of` these lots, which has so many conditions: a list of up to `most` splits with right nexts, without cliques or with one in so
/// many leaves.
pub fn random(seed: u64, lots: [usize; 6], conditions: usize, most: usize, clique_in: usize) -> Vec<u8> {
    let (mut list, mut random) = (List::default(), Random::new(seed));
    let splits = 1 + random.below(most);
    list.random_tree(&mut random, splits, &Leaves { lots, conditions, clique_in });
    list.bytes()
}
