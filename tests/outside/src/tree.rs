//! Refutations as trees, without a limit on the classes or with one, so that other hands than the search's can write and change them and every next is still
//! right.
use crate::random::Random;
use second::class_limit::{Limit, Limited};
use second::limits::SPLIT;
use second::node::{Decision, Known, Truth};
use second::sheet::{Sheet, Term, is_withdrawn};
use second::store::{Record, clique, ground, split};

#[derive(Clone)]
pub enum Tree {
    /// A ground or, with a limit, a clique.
    Leaf(Record),
    Split(usize, usize, Box<Tree>, Box<Tree>),
}

impl Tree {
    pub fn records(&self) -> Vec<Record> {
        let mut records = Vec::new();
        self.write(&mut records);
        records
    }

    /// "In the list a split is followed by everything under its equal branch, then everything under its different branch".
    fn write(&self, records: &mut Vec<Record>) {
        match self {
            Tree::Leaf(record) => records.push(*record),
            Tree::Split(a, b, same, apart) => {
                let at = records.len();
                records.push(split(*a, *b, 0));
                same.write(records);
                records[at].next = (records.len() + 1) as u16;
                apart.write(records);
            }
        }
    }

    /// The tree of a list that passes.
    pub fn read(records: &[Record]) -> Tree {
        Tree::read_from(records, &mut 0)
    }

    fn read_from(records: &[Record], at: &mut usize) -> Tree {
        let record = records[*at];
        *at += 1;
        if record.kind != SPLIT {
            return Tree::Leaf(record);
        }
        let same = Tree::read_from(records, at);
        let apart = Tree::read_from(records, at);
        Tree::Split(usize::from(record.first), usize::from(record.second), Box::new(same), Box::new(apart))
    }

    fn size(&self) -> usize {
        match self {
            Tree::Leaf(_) => 1,
            Tree::Split(_, _, same, apart) => 1 + same.size() + apart.size(),
        }
    }

    /// The node that is record `number` of the list.
    fn node(&mut self, number: usize) -> &mut Tree {
        if number == 1 {
            return self;
        }
        match self {
            Tree::Leaf(_) => unreachable!("the number is at most the tree's size"),
            Tree::Split(_, _, same, apart) => {
                let below = same.size();
                if number - 1 <= below { same.node(number - 1) } else { apart.node(number - 1 - below) }
            }
        }
    }

    /// Another hand changes one node. The list's form stays right; whether its leaves do is for the checker to say.
    pub fn change(&mut self, sheet: &Sheet, limit: Limit, random: &mut Random) {
        let number = random.range(1, self.size());
        let (a, b) = any_pair(sheet.lots, random);
        let way = random.below(4);
        let node = self.node(number);
        *node = match (node.clone(), way) {
            (Tree::Leaf(_), 0) => Tree::Leaf(any_leaf(sheet, limit, random)),
            (Tree::Split(x, y, same, apart), 0) => Tree::Split(x, y, apart, same),
            (Tree::Split(_, _, same, apart), 1) => Tree::Split(a, b, same, apart),
            (Tree::Split(_, _, same, _), 2) => *same,
            (node, _) => Tree::Split(a, b, Box::new(node.clone()), Box::new(node)),
        };
    }
}

/// Any two lots, half of the time none of them lot 0.
fn any_pair(lots: usize, random: &mut Random) -> (usize, usize) {
    let lowest = random.below(2).min(lots);
    (random.range(lowest, lots), random.range(lowest, lots))
}

/// A ground that names any condition or, with a limit, now and then a clique.
fn any_leaf(sheet: &Sheet, limit: Limit, random: &mut Random) -> Record {
    if limit.is_some() && random.chance(40) { clique() } else { ground(random.range(1, sheet.conditions.len())) }
}

/// The leaf that ends a path, if one does: mostly one that passes there, a clique or a ground; now and then a ground that names a withdrawn condition. With no
/// splits left, some leaf, which need not pass.
fn leaf(sheet: &Sheet, limit: Limit, known: &Known, splits_left: usize, random: &mut Random) -> Option<Record> {
    let numbers_where = |test: &dyn Fn(&[Term]) -> bool| -> Vec<usize> {
        (1..=sheet.conditions.len()).filter(|number| test(&sheet.conditions[number - 1])).collect()
    };
    let withdrawn = numbers_where(&|condition| is_withdrawn(condition));
    if !withdrawn.is_empty() && random.chance(2) {
        return Some(ground(random.pick(&withdrawn)));
    }
    if limit.is_some_and(|limit| Limited::of(limit, known) == Limited::Clique) && random.chance(70) {
        return Some(clique());
    }
    let grounds = numbers_where(&|condition| known.ground_passes(condition));
    if !grounds.is_empty() && random.chance(85) {
        return Some(ground(random.pick(&grounds)));
    }
    match splits_left {
        0 => Some(grounds.first().map_or_else(|| any_leaf(sheet, limit, random), |&condition| ground(condition))),
        _ => None,
    }
}

/// A tree that splits on arbitrary pairs, also on pairs that are decided and on a lot twice, until a leaf passes. `budget` is the most splits. The sheet has a
/// condition.
pub fn grow(sheet: &Sheet, limit: Limit, decisions: &mut Vec<Decision>, budget: &mut usize, random: &mut Random) -> Tree {
    let known = Known::from(sheet.lots, decisions);
    if let Some(leaf) = leaf(sheet, limit, &known, *budget, random) {
        return Tree::Leaf(leaf);
    }
    *budget -= 1;
    let (a, b) = pair(sheet, limit, &known, random);
    let mut branch = |decision| {
        decisions.push(decision);
        let tree = grow(sheet, limit, decisions, budget, random);
        decisions.pop();
        Box::new(tree)
    };
    let same = branch(Decision::Same(a, b));
    let apart = branch(Decision::Apart(a, b));
    Tree::Split(a, b, same, apart)
}

/// Mostly the pair of some open term or, with a limit, the pair that it asks for, lots in either order; else any pair.
fn pair(sheet: &Sheet, limit: Limit, known: &Known, random: &mut Random) -> (usize, usize) {
    let mut open: Vec<(usize, usize)> = Vec::new();
    if let Some(Limited::Pair(lower, higher)) = limit.map(|limit| Limited::of(limit, known)) {
        open.extend([(lower, higher); 3]);
    }
    let terms = sheet.conditions.iter().flatten();
    open.extend(terms.filter(|term| known.truth(term) == Truth::Open).map(|term| (term.a, term.b)));
    if open.is_empty() || random.chance(15) {
        return any_pair(sheet.lots, random);
    }
    let (a, b) = random.pick(&open);
    if random.chance(50) { (a, b) } else { (b, a) }
}
