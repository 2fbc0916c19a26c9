//! The reader, the evaluator and the refutation checker, with typed answers.
use crate::raw;
use crate::refusal::Refusal;

/// What the reader answers of an accepted sheet.
#[derive(Clone, Copy, Debug, PartialEq, Eq, Hash)]
pub struct Reading {
    /// The number of lots, from lot 1 on: lot 0 isn't counted.
    pub lots: u32,
    /// The number of conditions.
    pub conditions: u32,
    /// The number of term records, vacant ones included.
    pub records: u32,
}

/// What the evaluator answers.
#[derive(Clone, Copy, Debug, PartialEq, Eq, Hash)]
pub enum Evaluation {
    /// The grouping meets every condition.
    AllMet,
    /// The lowest condition that the grouping doesn't meet.
    Unmet(u32),
}

/// Reads a sheet: its counts, or the first check that it fails.
///
/// ```
/// let reading = lihumbay::read(&[2, 0, 1, 0, 1, 0, 1, 0, 1, 0, 1, 0, 2, 0, 0, 0])?;
/// assert_eq!((reading.lots, reading.conditions, reading.records), (2, 1, 1));
/// # Ok::<(), lihumbay::Refusal>(())
/// ```
pub fn read(sheet: &[u8]) -> Result<Reading, Refusal> {
    let numbers = Refusal::or_numbers(raw::read(sheet))?;
    Ok(Reading { lots: numbers.first, conditions: numbers.second, records: numbers.third })
}

/// Evaluates a grouping: lot i has byte i − 1 as its number, and lot 0, which has no byte, the number 0. A withdrawn condition is met by every grouping. A
/// grouping longer than the number of lots may have anything in the rest.
///
/// ```
/// use lihumbay::{Evaluation, Sheet};
/// let sheet = "same 1 2\napart 1 3".parse::<Sheet>()?.to_bytes();
/// assert_eq!(lihumbay::evaluate(&sheet, &[7, 7, 4])?, Evaluation::AllMet);
/// assert_eq!(lihumbay::evaluate(&sheet, &[7, 7, 7])?, Evaluation::Unmet(2));
/// let sheet = "same 0 1\napart 0 2".parse::<Sheet>()?.to_bytes();
/// assert_eq!(lihumbay::evaluate(&sheet, &[0, 4])?, Evaluation::AllMet);
/// assert_eq!(lihumbay::evaluate(&sheet, &[7, 4])?, Evaluation::Unmet(1));
/// # Ok::<(), Box<dyn std::error::Error>>(())
/// ```
pub fn evaluate(sheet: &[u8], grouping: &[u8]) -> Result<Evaluation, Refusal> {
    let numbers = Refusal::or_numbers(raw::evaluate(sheet, grouping))?;
    Ok(match numbers.first {
        0 => Evaluation::AllMet,
        condition => Evaluation::Unmet(condition),
    })
}

/// Checks a list of records from any hand. Where it passes, no assignment of numbers to lots meets the sheet, whichever number lot 0 has.
///
/// ```
/// use lihumbay::{Sheet, Verdict};
/// let sheet = "same 1 2\napart 1 2".parse::<Sheet>()?.to_bytes();
/// if let Verdict::Cannot { refutation } = lihumbay::search(&sheet)? {
///     lihumbay::check(&sheet, refutation.as_bytes())?;
///     assert_eq!(lihumbay::check(&sheet, &[]).unwrap_err().check.number(), 10);
/// }
/// # Ok::<(), Box<dyn std::error::Error>>(())
/// ```
pub fn check(sheet: &[u8], list: &[u8]) -> Result<(), Refusal> {
    Refusal::or_numbers(raw::check(sheet, list)).map(drop)
}
