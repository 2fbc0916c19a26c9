//! A condition withdrawn in a sheet's bytes.
use crate::bytes::{Chain, head_place};
use crate::limits::{HEAD_LENGTH, TERM_LENGTH};
use crate::refusal::Refusal;
use crate::services::read;
use std::error::Error;
use std::fmt;

/// Why a condition can't be withdrawn.
#[derive(Clone, Copy, Debug, PartialEq, Eq, Hash)]
#[non_exhaustive]
pub enum WithdrawError {
    /// The reader refuses the sheet.
    Refused(Refusal),
    /// The sheet has no condition with this number.
    NoCondition {
        /// The number asked for.
        condition: u32,
        /// The conditions that the sheet has.
        conditions: u32,
    },
}

/// Withdraws the condition with this number, from 1: its head is zero, and the records of its chain are vacant. Every other byte is as it was, so that the
/// other conditions keep their numbers and the sheet its length; [`repack`](crate::repack) drops the vacant records. Where the condition is withdrawn already,
/// no byte changes.
///
/// ```
/// use lihumbay::{Sheet, Verdict};
/// let sheet = "same 1 2\napart 1 2".parse::<Sheet>()?.to_bytes();
/// let without = lihumbay::withdraw(&sheet, 1)?;
/// assert_eq!(without, [2, 0, 2, 0, 2, 0, 0, 0, 2, 0, 0, 0, 0, 0, 0, 0, 0, 0, 2, 0, 1, 0, 2, 0, 0, 0]);
/// assert!(matches!(lihumbay::search(&without)?, Verdict::Met { .. }));
/// assert_eq!(lihumbay::withdraw(&without, 1)?, without);
/// let error = lihumbay::withdraw(&sheet, 3).unwrap_err();
/// assert_eq!(error.to_string(), "there is no condition 3: conditions count from 1 to 2");
/// # Ok::<(), Box<dyn std::error::Error>>(())
/// ```
pub fn withdraw(sheet: &[u8], condition: u32) -> Result<Vec<u8>, WithdrawError> {
    let conditions = read(sheet)?.conditions;
    if !(1..=conditions).contains(&condition) {
        return Err(WithdrawError::NoCondition { condition, conditions });
    }
    let mut bytes = sheet.to_vec();
    bytes[head_place(condition)..][..HEAD_LENGTH].fill(0);
    for at in Chain::of(sheet, conditions, condition) {
        bytes[at..][..TERM_LENGTH].fill(0);
    }
    Ok(bytes)
}

impl From<Refusal> for WithdrawError {
    fn from(refusal: Refusal) -> Self {
        WithdrawError::Refused(refusal)
    }
}

impl fmt::Display for WithdrawError {
    fn fmt(&self, f: &mut fmt::Formatter) -> fmt::Result {
        match self {
            WithdrawError::Refused(refusal) => write!(f, "{refusal}"),
            WithdrawError::NoCondition { condition, conditions: 0 } => write!(f, "there is no condition {condition}: the sheet has none"),
            WithdrawError::NoCondition { condition, conditions } => {
                write!(f, "there is no condition {condition}: conditions count from 1 to {conditions}")
            }
        }
    }
}

/// The refusal is said whole, and is no source beside that.
impl Error for WithdrawError {}

#[cfg(test)]
mod tests {
    use super::*;

    /// Sheet C: condition 1 has records 3 and 1, condition 2 has record 2.
    const SHUFFLED: &[u8] = include_bytes!("../../samples/c-in-another-order.sheet");

    #[test]
    fn the_chain_is_blanked_and_nothing_else() {
        let mut expected = SHUFFLED.to_vec();
        [6..8, 10..18, 26..34].into_iter().for_each(|part| expected[part].fill(0));
        assert_eq!(withdraw(SHUFFLED, 1), Ok(expected.clone()));
        [8..10, 18..26].into_iter().for_each(|part| expected[part].fill(0));
        assert_eq!(withdraw(SHUFFLED, 1).and_then(|bytes| withdraw(&bytes, 2)), Ok(expected));
    }

    /// The record of "same 0 0" has one byte that isn't zero; withdrawn, it is vacant.
    #[test]
    fn a_term_over_lot_0_alone_is_blanked() {
        let (sheet, without) = ([0, 0, 1, 0, 1, 0, 1, 0, 1, 0, 0, 0, 0, 0, 0, 0], [0, 0, 1, 0, 1, 0, 0, 0, 0, 0, 0, 0, 0, 0, 0, 0]);
        assert_eq!(withdraw(&sheet, 1), Ok(without.to_vec()));
        assert_eq!(withdraw(&without, 1), Ok(without.to_vec()));
    }

    #[test]
    fn numbers_out_of_range_name_no_condition() {
        for condition in [0, 3, 257, 65_537, u32::MAX] {
            assert_eq!(withdraw(SHUFFLED, condition), Err(WithdrawError::NoCondition { condition, conditions: 2 }));
        }
        assert_eq!(withdraw(&[0; 6], 1).unwrap_err().to_string(), "there is no condition 1: the sheet has none");
    }

    #[test]
    fn a_refused_sheet_is_refused_before_the_number_is_looked_at() {
        for condition in [0, 1, 3] {
            assert_eq!(withdraw(&SHUFFLED[..33], condition), Err(WithdrawError::Refused(read(&SHUFFLED[..33]).unwrap_err())));
        }
    }
}
