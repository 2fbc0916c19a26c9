//! One node of the search: decisions, classes, the truth of a term, and what the node is, without a limit on the classes or with one.
use crate::class_limit::{Limit, Limited};
use crate::limits::ZERO_LOT;
use crate::sheet::{Lot, Sheet, Sign, Term, is_withdrawn};

/// "A node has a list of decisions: pairs set same and pairs set apart."
#[derive(Clone, Copy, Debug, PartialEq, Eq)]
pub enum Decision {
    Same(Lot, Lot),
    Apart(Lot, Lot),
}

#[derive(Clone, Copy, Debug, PartialEq, Eq)]
pub enum Truth {
    True,
    False,
    Open,
}

/// What a list of decisions says about the lots 0 to n.
pub struct Known {
    lots: usize,
    /// Entry i: the smallest lot of lot i's class. Document 02: "The smallest lot of a consignment may thus be 0".
    class: Vec<Lot>,
    /// Entry a * (n + 1) + b: the classes with smallest lots a and b are marked apart.
    marked: Vec<bool>,
}

impl Known {
    /// "The same pairs split the lots into consignments; each is known by its smallest lot."
    pub fn from(lots: usize, decisions: &[Decision]) -> Known {
        let side = lots + 1;
        let mut known = Known { lots, class: (ZERO_LOT..=lots).collect(), marked: vec![false; side * side] };
        for decision in decisions {
            if let Decision::Same(a, b) = *decision {
                known.join(a, b);
            }
        }
        for decision in decisions {
            if let Decision::Apart(a, b) = *decision {
                known.mark(a, b);
            }
        }
        known
    }

    /// "Joining two consignments gives every lot of both the smaller of the two numbers." Lot 0 is among the lots, and its number is smaller than any other.
    fn join(&mut self, a: Lot, b: Lot) {
        let (one, other) = (self.class[a], self.class[b]);
        for lot in ZERO_LOT..=self.lots {
            if self.class[lot] == one || self.class[lot] == other {
                self.class[lot] = one.min(other);
            }
        }
    }

    /// "Two consignments are marked apart when some pair set apart has one lot in each." All joins are made before the first mark.
    fn mark(&mut self, a: Lot, b: Lot) {
        let side = self.lots + 1;
        let (one, other) = (self.class[a], self.class[b]);
        self.marked[one * side + other] = true;
        self.marked[other * side + one] = true;
    }

    /// The smallest lot of a lot's class.
    pub fn smallest(&self, lot: Lot) -> Lot {
        self.class[lot]
    }

    /// The smallest lots of the classes, rising: "each is known by its smallest lot". They are the classes of lots 0 to n, named in a term or not, so that lot
    /// 0's is always the first.
    pub fn classes(&self) -> Vec<Lot> {
        (ZERO_LOT..=self.lots).filter(|&lot| self.smallest(lot) == lot).collect()
    }

    fn share(&self, a: Lot, b: Lot) -> bool {
        self.class[a] == self.class[b]
    }

    pub fn marked_apart(&self, a: Lot, b: Lot) -> bool {
        self.marked[self.class[a] * (self.lots + 1) + self.class[b]]
    }

    /// ""same a b": true if a and b share a consignment, false if theirs are marked apart, otherwise open. "apart a b": false if they share one, true if theirs
    /// are marked apart, otherwise open. For both signs sharing is looked at first."
    pub fn truth(&self, term: &Term) -> Truth {
        let (shared, apart) = match term.sign {
            Sign::Same => (Truth::True, Truth::False),
            Sign::Apart => (Truth::False, Truth::True),
        };
        if self.share(term.a, term.b) {
            shared
        } else if self.marked_apart(term.a, term.b) {
            apart
        } else {
            Truth::Open
        }
    }

    /// "A ground passes when every term of its condition is false by the node rules under that path." Document 02, of a withdrawn condition: "a ground naming
    /// it is refused by 12".
    pub fn ground_passes(&self, condition: &[Term]) -> bool {
        !is_withdrawn(condition) && condition.iter().all(|term| self.truth(term) == Truth::False)
    }

    /// "has no true term and no open "apart" term". Document 02, of a withdrawn condition: "the search passes it over".
    fn is_taken(&self, condition: &[Term]) -> bool {
        if is_withdrawn(condition) {
            return false;
        }
        let truths = || condition.iter().map(|term| (term.sign, self.truth(term)));
        !truths().any(|(_, truth)| truth == Truth::True) && !truths().any(|found| found == (Sign::Apart, Truth::Open))
    }
}

#[derive(Clone, Copy, Debug, PartialEq, Eq)]
pub enum Node {
    Met,
    /// The condition's number.
    Ground(usize),
    Split(Lot, Lot),
    Clique,
}

/// "The node takes the lowest-numbered condition that has no true term and no open "apart" term."
pub fn node(sheet: &Sheet, limit: Limit, known: &Known) -> Node {
    let Some(taken) = sheet.conditions.iter().position(|condition| known.is_taken(condition)) else {
        return no_condition_taken(limit, known);
    };
    match sheet.conditions[taken].iter().find(|term| known.truth(term) == Truth::Open) {
        // "It has no open term: the node is a *ground*, naming the condition."
        None => Node::Ground(taken + 1),
        // "Otherwise it is a *split* on its first open term (a "same" term), lots as written in the term"
        Some(term) => Node::Split(term.a, term.b),
    }
}

/// Without a limit: "No such condition: the node is *met*." With one, document 02: "When no condition is taken and at most g consignments are left, the node is
/// met. With more, .. split on their first pair not marked apart, .. recorded in that order. If all are marked, the node is a crowd".
fn no_condition_taken(limit: Limit, known: &Known) -> Node {
    match limit.map(|limit| Limited::of(limit, known)) {
        None | Some(Limited::Within) => Node::Met,
        Some(Limited::Pair(lower, higher)) => Node::Split(lower, higher),
        Some(Limited::Clique) => Node::Clique,
    }
}
