//! The merge of two sheets, with an output of its own or a lent one.
use crate::limits::MOST_SHEET_LENGTH;
use crate::raw::{self, Numbers};
use crate::refusal::Refusal;
use std::error::Error;
use std::fmt;

/// Why two sheets can't be merged: which sheet the refusal is of.
#[derive(Clone, Copy, Debug, PartialEq, Eq, Hash)]
pub enum MergeRefusal {
    /// The reader refuses the first sheet. The second has not been looked at.
    First(Refusal),
    /// The reader accepts the first sheet and refuses the second.
    Second(Refusal),
    /// Both sheets are accepted. What they make together is above a limit (check 18), or longer than the lent output (check 19).
    Merged(Refusal),
}

/// Merges two sheets into one, which is met exactly by what meets both. It has the larger number of lots, and the conditions of the first sheet in their
/// order, then those of the second in theirs. Lot 0, which no sheet counts, is one lot for both. The bytes are packed, as [`repack`](crate::repack) has them.
///
/// A condition with terms is left out where it repeats an earlier one, of either sheet: the same terms in the same order, each with the same sign and the same
/// lots in the same order. A withdrawn condition, which has no term, is never left out, also where an earlier one is withdrawn. So a condition that stays has
/// its number in the two lists one behind the other, less the repeats left out before it. Check 18 refuses what has more conditions or terms than a sheet can
/// have once repeats are left out; the withdrawn conditions of both sheets count, and each merge with such a sheet adds them once more.
///
/// ```
/// use lihumbay::{MergeRefusal, Sheet};
/// let first = "same 1 2 | same 1 3\napart 1 2".parse::<Sheet>()?.to_bytes();
/// let second = "apart 1 2\nsame 1 3 | same 1 2\nsame 3 4".parse::<Sheet>()?.to_bytes();
/// let merged = Sheet::from_bytes(&lihumbay::merge(&first, &second)?)?;
/// assert_eq!(merged.to_string(), "lots 4\nsame 1 2 | same 1 3\napart 1 2\nsame 1 3 | same 1 2\nsame 3 4\n");
///
/// let without = lihumbay::withdraw(&first, 1)?;
/// let merged = Sheet::from_bytes(&lihumbay::merge(&without, &without)?)?;
/// assert_eq!(merged.to_string(), "lots 3\nwithdrawn\napart 1 2\nwithdrawn\n");
///
/// let refused = lihumbay::merge(&first, &second[..5]).unwrap_err();
/// assert!(matches!(refused, MergeRefusal::Second(refusal) if refusal.check.number() == 1));
/// assert_eq!(refused.to_string(), "second sheet: check 1, the sheet is shorter than its header of 6 bytes");
/// # Ok::<(), Box<dyn std::error::Error>>(())
/// ```
pub fn merge(first: &[u8], second: &[u8]) -> Result<Vec<u8>, MergeRefusal> {
    // A merged sheet has no more conditions and terms than the two together, and is no longer than the longest sheet.
    let mut out = vec![0; (first.len() + second.len()).min(MOST_SHEET_LENGTH)];
    let length = merge_into(first, second, &mut out)?;
    out.truncate(length);
    Ok(out)
}

/// Merges two sheets into a lent output, and answers the bytes written. The rest of the output stays as it was, and a refusal writes nothing. Check 19 refuses
/// an output that is shorter than the merged sheet, and its place is the length needed; [`MOST_SHEET_LENGTH`] bytes are always enough.
///
/// ```
/// use lihumbay::MergeRefusal;
/// let mut out = [7; 8];
/// assert_eq!(lihumbay::merge_into(&[9, 0, 0, 0, 0, 0], &[5, 0, 0, 0, 0, 0], &mut out)?, 6);
/// assert_eq!(out, [9, 0, 0, 0, 0, 0, 7, 7]);
/// let refused = lihumbay::merge_into(&[9, 0, 0, 0, 0, 0], &[5, 0, 0, 0, 0, 0], &mut out[..5]).unwrap_err();
/// assert!(matches!(refused, MergeRefusal::Merged(refusal) if (refusal.check.number(), refusal.place) == (19, 6)));
/// # Ok::<(), MergeRefusal>(())
/// ```
pub fn merge_into(first: &[u8], second: &[u8], out: &mut [u8]) -> Result<usize, MergeRefusal> {
    let numbers = raw::merge(first, second, out);
    match Refusal::or_numbers(numbers) {
        Ok(written) => Ok(written.first as usize),
        Err(refusal) => Err(MergeRefusal::of(numbers, refusal)),
    }
}

impl MergeRefusal {
    /// The numbers of a refused merge say in `second` which sheet was read, or 0 where both were accepted.
    fn of(numbers: Numbers, refusal: Refusal) -> Self {
        match numbers.second {
            1 => MergeRefusal::First(refusal),
            2 => MergeRefusal::Second(refusal),
            _ => MergeRefusal::Merged(refusal),
        }
    }

    /// The check that refused, and its place, whichever sheet it is of.
    pub fn refusal(self) -> Refusal {
        match self {
            MergeRefusal::First(refusal) | MergeRefusal::Second(refusal) | MergeRefusal::Merged(refusal) => refusal,
        }
    }
}

impl fmt::Display for MergeRefusal {
    fn fmt(&self, f: &mut fmt::Formatter) -> fmt::Result {
        match self {
            MergeRefusal::First(refusal) => write!(f, "first sheet: {refusal}"),
            MergeRefusal::Second(refusal) => write!(f, "second sheet: {refusal}"),
            // The sentences of checks 18 and 19 name the merged sheet.
            MergeRefusal::Merged(refusal) => write!(f, "{refusal}"),
        }
    }
}

/// The refusal is said whole, and is no source beside that.
impl Error for MergeRefusal {}

#[cfg(test)]
mod tests {
    use super::*;

    fn refused(check: u32, first: u32, second: u32) -> MergeRefusal {
        let numbers = Numbers { check, first, second, third: 0 };
        MergeRefusal::of(numbers, Refusal::or_numbers(numbers).unwrap_err())
    }

    #[test]
    fn the_second_number_says_which_sheet() {
        assert!(matches!(refused(5, 3, 1), MergeRefusal::First(_)));
        assert!(matches!(refused(5, 3, 2), MergeRefusal::Second(_)));
        assert!(matches!(refused(19, 34, 0), MergeRefusal::Merged(_)));
        assert_eq!((refused(5, 3, 2).refusal().check.number(), refused(5, 3, 2).refusal().place), (5, 3));
    }

    #[test]
    fn the_sheet_is_said_in_words() {
        assert_eq!(refused(7, 3, 1).to_string(), "first sheet: check 7, a term's record is reached from no condition: record 3");
        assert_eq!(refused(7, 3, 2).to_string(), "second sheet: check 7, a term's record is reached from no condition: record 3");
        assert_eq!(refused(18, 2, 0).to_string(), "check 18, a count of the merged sheet is above its most: conditions, at most 256");
    }

    #[test]
    fn what_is_no_sheet_is_refused_where_it_stands() {
        assert!(matches!(merge(&[], &[]), Err(MergeRefusal::First(_))));
        assert!(matches!(merge(&[0; 6], &[]), Err(MergeRefusal::Second(_))));
        assert_eq!(merge(&[0; 6], &[0; 6]), Ok(vec![0; 6]));
    }
}
