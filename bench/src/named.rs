//! Sheets for the reassigners: those of `first_true`, with one lot named by as many conditions as a row says, in the first term of each or in the last.
use crate::first_true::{self, NUMBERS, Shape};
use crate::sheets::Sheet;

/// The lot that is reassigned, and its new number, which other lots have.
pub const LOT: usize = 128;
pub const VALUE: u8 = NUMBERS as u8 / 2;

/// The term of a condition that names the lot.
#[derive(Clone, Copy, Debug, PartialEq, Eq)]
pub enum At {
    First,
    Last,
}

/// The shape of the sheet, how many of its conditions name the lot, and where.
#[derive(Clone, Copy, Debug)]
pub struct Naming {
    pub shape: Shape,
    pub conditions: usize,
    pub at: At,
}

/// Another lot with the number that the lot has before.
const TWIN: usize = LOT - NUMBERS;

impl Naming {
    /// The twin takes the lot's place in all terms. Then a term of each condition that is to name the lot has both its lots moved on by as much as makes the
    /// first one that lot. Numbers are remainders, so that true terms stay true and false ones false.
    pub fn sheet(self) -> Sheet {
        let mut sheet = self.shape.sheet().renumbered(LOT, |lot| if lot == LOT { TWIN } else { lot });
        let step = self.shape.conditions / self.conditions.max(1);
        for condition in sheet.conditions.iter_mut().step_by(step.max(1)).take(self.conditions) {
            let i = if self.at == At::First { 0 } else { self.shape.terms - 1 };
            let term = &mut condition.terms[i];
            (term.a, term.b) = (LOT, first_true::moved_on(term.b, LOT - term.a));
        }
        sheet
    }

    fn at_word(self) -> &'static str {
        if self.at == At::First { "first" } else { "last" }
    }

    pub fn key(self) -> String {
        let key = self.shape.key();
        if self.conditions == 0 { format!("{key}-lot-0") } else { format!("{key}-lot-{}-{}", self.conditions, self.at_word()) }
    }

    pub fn name(self) -> String {
        let (name, at) = (self.shape.name(), self.at_word());
        match self.conditions {
            0 => format!("{name}, lot in none"),
            1 if self.shape.conditions == 1 => format!("{name}, lot in the {at}"),
            some if some == self.shape.conditions => format!("{name}, lot in the {at} of all"),
            some => format!("{name}, lot in the {at} of {some}"),
        }
    }
}

/// What is timed: the largest sheets with the lot in none, two and all of the conditions; short conditions; long ones; and a single one.
pub fn rows() -> Vec<Naming> {
    let row = |(conditions, terms, place, named, at)| Naming { shape: Shape { conditions, terms, place }, conditions: named, at };
    let largest = [
        (256, 4, Some(2), 0, At::First),
        (256, 4, Some(2), 2, At::First),
        (256, 4, Some(4), 2, At::Last),
        (256, 4, Some(2), 256, At::First),
        (256, 4, Some(4), 256, At::First),
        (256, 4, None, 256, At::Last),
    ];
    let short = [(256, 2, Some(2), 2, At::First)];
    let long =
        [(25, 40, Some(2), 2, At::First), (25, 40, Some(40), 2, At::Last), (25, 40, Some(2), 25, At::First), (25, 40, None, 25, At::Last)];
    let single = [(1, 1024, Some(2), 1, At::First), (1, 1024, None, 1, At::Last)];
    largest.into_iter().chain(short).chain(long).chain(single).map(row).collect()
}

#[cfg(test)]
mod tests {
    use super::*;
    use crate::sheets::{Sign, Term};

    #[test]
    fn the_lot_is_named_as_often_and_where_a_row_says_and_truths_are_those_of_the_shape() {
        let numbers = [vec![0], first_true::grouping()].concat();
        assert!(numbers[LOT] == numbers[TWIN] && numbers[LOT] != VALUE && numbers.contains(&VALUE));
        let is_true = |term: &Term| (numbers[term.a] == numbers[term.b]) == (term.sign == Sign::Same);
        for row in rows() {
            let (sheet, shape) = (row.sheet(), row.shape);
            let places =
                |term: &dyn Fn(&Term) -> bool, terms: &[Term]| (1..=shape.terms).filter(|i| term(&terms[i - 1])).collect::<Vec<_>>();
            let (mut named, wanted) = (0, if row.at == At::First { 1 } else { shape.terms });
            for condition in &sheet.conditions {
                assert!(places(&is_true, &condition.terms) == Vec::from_iter(shape.place), "{}", row.key());
                let own = places(&|term| term.a == LOT || term.b == LOT, &condition.terms);
                assert!(own.is_empty() || own == [wanted], "{}", row.key());
                named += own.len();
            }
            assert!(named == row.conditions && sheet.lots == LOT && sheet.records() <= 1024, "{}", row.key());
        }
    }
}
