//! An accepted sheet: its conditions, each the terms of its chain in the chain's order.

/// "Lot numbers ... count from 1". Document 02: "Lot 0 now stands for the hold and may appear in terms and in splits".
pub type Lot = usize;

#[derive(Clone, Copy, Debug, PartialEq, Eq)]
pub enum Sign {
    Same,
    Apart,
}

#[derive(Clone, Copy, Debug, PartialEq, Eq)]
pub struct Term {
    pub sign: Sign,
    pub a: Lot,
    pub b: Lot,
}

#[derive(Clone, Debug, PartialEq, Eq)]
pub struct Sheet {
    /// n: the lots are 1 to n, and beside them there is always lot 0.
    pub lots: usize,
    /// The term records, of which some may be vacant: "k, read or printed, still counts them".
    pub records: usize,
    /// Condition c is entry c - 1. A condition with head zero has no term.
    pub conditions: Vec<Vec<Term>>,
}

/// Document 02: "A zero head therefore means struck". A head that isn't zero leads to a term, so the withdrawn conditions of an accepted sheet are those with
/// no term.
pub fn is_withdrawn(condition: &[Term]) -> bool {
    condition.is_empty()
}
