//! Sheets as Rust values, built within the limits.
use crate::limits::{LOWEST_LOT, MOST_CONDITIONS, MOST_LOTS, MOST_TERMS};
use crate::term::{Condition, Term};
use std::error::Error;
use std::fmt;

/// A sheet: the number of lots, lot 0 not counted, and the conditions, numbered from 1, withdrawn ones included. It is within the limits, so that it has bytes
/// which the reader accepts.
///
/// [`to_bytes`](Sheet::to_bytes) and [`from_bytes`](Sheet::from_bytes) go to the bytes and back, [`Display`](fmt::Display) and
/// [`FromStr`](std::str::FromStr) to text and back.
#[derive(Clone, Debug, Default, PartialEq, Eq, Hash)]
pub struct Sheet {
    lots: u16,
    conditions: Vec<Condition>,
}

impl Sheet {
    /// A sheet whose bytes the reader has accepted, and which is within the limits therefore.
    pub(crate) fn accepted(lots: u16, conditions: Vec<Condition>) -> Sheet {
        Sheet { lots, conditions }
    }

    /// The number of lots, from lot 1 on: lot 0 isn't counted.
    pub fn lots(&self) -> u16 {
        self.lots
    }

    /// The conditions in order.
    pub fn conditions(&self) -> &[Condition] {
        &self.conditions
    }

    /// The condition with this number, from 1: a ground's, or the evaluator's.
    pub fn condition(&self, number: impl Into<u32>) -> Option<&Condition> {
        let index = number.into().checked_sub(1)?;
        self.conditions.get(index as usize)
    }

    /// Whether a term names this lot.
    ///
    /// ```
    /// let sheet: lihumbay::Sheet = "lots 3\nsame 0 1 | apart 1 2".parse()?;
    /// assert!(sheet.names_lot(lihumbay::ZERO_LOT) && sheet.names_lot(2) && !sheet.names_lot(3));
    /// # Ok::<(), lihumbay::TextError>(())
    /// ```
    pub fn names_lot(&self, lot: u16) -> bool {
        self.conditions.iter().flat_map(|condition| condition.terms()).any(|term| term.lots().contains(&lot))
    }

    /// The number of terms over all conditions. Bytes that the sheet came from may have more records: the vacant ones.
    pub fn term_count(&self) -> usize {
        self.conditions.iter().map(|condition| condition.terms().len()).sum()
    }
}

/// Builds a [`Sheet`] condition by condition. What would break a limit is refused, and the builder stays as it was.
///
/// ```
/// use lihumbay::{SheetBuilder, Term};
/// let mut builder = SheetBuilder::new(3)?;
/// builder.condition([Term::Same(1, 2), Term::Same(1, 3)])?.condition([Term::Apart(1, 2)])?;
/// let sheet = builder.finish();
/// assert_eq!(lihumbay::read(&sheet.to_bytes())?.records, 3);
/// assert!(SheetBuilder::new(129).is_err());
/// # Ok::<(), Box<dyn std::error::Error>>(())
/// ```
#[derive(Clone, Debug, Default)]
pub struct SheetBuilder {
    sheet: Sheet,
    terms: usize,
}

/// A limit that a sheet would break. Conditions, and terms within one, count from 1.
#[derive(Clone, Copy, Debug, PartialEq, Eq, Hash)]
#[non_exhaustive]
pub enum LimitError {
    /// More lots than a sheet can have.
    Lots {
        /// The lots asked for.
        lots: u16,
    },
    /// A condition more than a sheet can have.
    Conditions,
    /// A term more than a sheet can have.
    Terms {
        /// The condition that has the term.
        condition: usize,
        /// The term within it.
        term: usize,
    },
    /// A term names a lot that the sheet doesn't have.
    Lot {
        /// The condition that has the term.
        condition: usize,
        /// The term within it.
        term: usize,
        /// The lot that it names.
        lot: u16,
        /// The lots that the sheet has, beside lot 0.
        lots: u16,
    },
}

impl SheetBuilder {
    /// A sheet with lots 1 to `lots`, and lot 0, which is always there; no condition yet.
    pub fn new(lots: u16) -> Result<Self, LimitError> {
        if usize::from(lots) > MOST_LOTS {
            return Err(LimitError::Lots { lots });
        }
        Ok(SheetBuilder { sheet: Sheet { lots, conditions: Vec::new() }, terms: 0 })
    }

    /// Adds a condition with these terms; with none it is withdrawn, and everything meets it.
    pub fn condition(&mut self, terms: impl IntoIterator<Item = Term>) -> Result<&mut Self, LimitError> {
        if self.sheet.conditions.len() == MOST_CONDITIONS {
            return Err(LimitError::Conditions);
        }
        let mut added = Vec::new();
        for term in terms {
            self.admit(added.len(), term)?;
            added.push(term);
        }
        self.terms += added.len();
        self.sheet.conditions.push(added.into());
        Ok(self)
    }

    /// The sheet as built.
    pub fn finish(self) -> Sheet {
        self.sheet
    }

    /// Whether a term can follow so many others of the condition that is being added.
    fn admit(&self, before: usize, term: Term) -> Result<(), LimitError> {
        let (condition, number, lots) = (self.sheet.conditions.len() + 1, before + 1, self.sheet.lots);
        if self.terms + before == MOST_TERMS {
            return Err(LimitError::Terms { condition, term: number });
        }
        match term.lots().into_iter().find(|lot| !(LOWEST_LOT..=lots).contains(lot)) {
            Some(lot) => Err(LimitError::Lot { condition, term: number, lot, lots }),
            None => Ok(()),
        }
    }
}

impl LimitError {
    /// What is wrong, without the place.
    pub(crate) fn reason(self) -> String {
        match self {
            LimitError::Lots { lots } => format!("{lots} lots: a sheet has at most {MOST_LOTS}"),
            LimitError::Conditions => format!("a sheet has at most {MOST_CONDITIONS} conditions"),
            LimitError::Terms { .. } => format!("a sheet has at most {MOST_TERMS} terms"),
            LimitError::Lot { lot, lots, .. } => format!("lot {lot} is out of range: lots count from {LOWEST_LOT} to {lots}"),
        }
    }
}

impl fmt::Display for LimitError {
    fn fmt(&self, f: &mut fmt::Formatter) -> fmt::Result {
        if let LimitError::Terms { condition, term } | LimitError::Lot { condition, term, .. } = self {
            write!(f, "condition {condition}, term {term}: ")?;
        }
        f.write_str(&self.reason())
    }
}

impl Error for LimitError {}

#[cfg(test)]
mod tests {
    use super::*;

    #[test]
    fn each_limit_is_reached_and_not_passed() {
        let mut builder = SheetBuilder::new(128).unwrap();
        assert!(builder.condition([Term::Same(128, 1)]).is_ok());
        let many = std::iter::repeat_n(Term::Apart(1, 2), 1023);
        assert!(builder.condition(many).is_ok());
        let one_more = builder.condition([Term::Same(1, 1)]).err();
        assert_eq!(one_more, Some(LimitError::Terms { condition: 3, term: 1 }));
        for _ in 0..254 {
            assert!(builder.condition([]).is_ok());
        }
        assert_eq!(builder.condition([]).err(), Some(LimitError::Conditions));
        let sheet = builder.finish();
        assert_eq!((sheet.lots(), sheet.conditions().len(), sheet.term_count()), (128, 256, 1024));
        assert!(crate::read(&sheet.to_bytes()).is_ok());
    }

    #[test]
    fn a_refused_condition_leaves_no_trace() {
        let mut builder = SheetBuilder::new(2).unwrap();
        let refused = builder.condition([Term::Same(1, 2), Term::Apart(3, 1)]).err();
        assert_eq!(refused, Some(LimitError::Lot { condition: 1, term: 2, lot: 3, lots: 2 }));
        assert!(builder.condition(std::iter::repeat(Term::Same(1, 1))).is_err());
        assert_eq!(builder.finish().conditions(), []);
    }

    #[test]
    fn lot_0_is_in_every_sheet_and_is_not_counted() {
        let mut builder = SheetBuilder::new(0).unwrap();
        assert!(builder.condition([Term::Same(0, 0), Term::Apart(0, 0)]).is_ok());
        let refused = builder.condition([Term::Same(0, 1)]).err();
        assert_eq!(refused, Some(LimitError::Lot { condition: 2, term: 1, lot: 1, lots: 0 }));
        assert_eq!(refused.unwrap().to_string(), "condition 2, term 1: lot 1 is out of range: lots count from 0 to 0");
        let reading = crate::read(&builder.finish().to_bytes()).unwrap();
        assert_eq!((reading.lots, reading.conditions, reading.records), (0, 1, 2));

        let mut builder = SheetBuilder::new(128).unwrap();
        assert!(builder.condition([Term::Same(0, 128), Term::Apart(128, 0)]).is_ok());
        assert!(builder.condition([Term::Apart(0, 129)]).is_err());
        assert!(crate::read(&builder.finish().to_bytes()).is_ok());
    }
}
