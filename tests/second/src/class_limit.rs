//! The limit on the number of classes, and check 20: document 02's job 7.
use crate::answer::{Refusal, refuse};
use crate::limits::{GREATEST_LIMIT, LEAST_LIMIT};
use crate::node::Known;
use crate::sheet::Lot;

/// No limit, or "a cap g from 1 to 129".
pub type Limit = Option<usize>;

/// 20: "cap 0 or above 129, right after 7; place is the cap". The number is compared in all its 32 bits, as it was given.
pub fn admitted(limit: u32) -> Result<usize, Refusal> {
    let limit = limit as usize;
    if (LEAST_LIMIT..=GREATEST_LIMIT).contains(&limit) { Ok(limit) } else { refuse(20, limit) }
}

/// What a limit says of the classes that are left.
#[derive(Clone, Copy, Debug, PartialEq, Eq)]
pub enum Limited {
    /// "at most g consignments are left"
    Within,
    /// With more, "the g + 1 consignments with the smallest lots": "their first pair not marked apart, by lower then higher smallest lot".
    Pair(Lot, Lot),
    /// "all are marked"
    Clique,
}

impl Limited {
    pub fn of(limit: usize, known: &Known) -> Limited {
        let classes = known.classes();
        if classes.len() <= limit {
            return Limited::Within;
        }
        let smallest = &classes[..limit + 1];
        for (i, &lower) in smallest.iter().enumerate() {
            for &higher in &smallest[i + 1..] {
                if !known.marked_apart(lower, higher) {
                    return Limited::Pair(lower, higher);
                }
            }
        }
        Limited::Clique
    }
}
