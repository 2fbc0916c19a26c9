//! The count of unmet conditions, and a grouping that it goes along with.
use crate::grouping::Grouping;
use crate::raw;
use crate::refusal::Refusal;
use crate::services::{Evaluation, evaluate, read};

/// Counts the conditions that a grouping doesn't meet. The grouping is taken as by [`evaluate`], by the same checks; the count is 0 exactly where that answers
/// [`Evaluation::AllMet`]. A withdrawn condition is met by every grouping.
///
/// ```
/// use lihumbay::Sheet;
/// let sheet = "same 1 2\napart 1 3\nsame 0 3\nwithdrawn".parse::<Sheet>()?.to_bytes();
/// assert_eq!(lihumbay::count_unmet(&sheet, &[7, 7, 0])?, 0);
/// assert_eq!(lihumbay::count_unmet(&sheet, &[7, 7, 7])?, 2);
/// assert_eq!(lihumbay::count_unmet(&sheet, &[7, 7]).unwrap_err().check.number(), 8);
/// # Ok::<(), Box<dyn std::error::Error>>(())
/// ```
pub fn count_unmet(sheet: &[u8], grouping: &[u8]) -> Result<u32, Refusal> {
    Refusal::or_numbers(raw::count_unmet(sheet, grouping)).map(|numbers| numbers.first)
}

/// A sheet, a grouping of its lots, and the running count: the number of conditions that the grouping doesn't meet. Lots are reassigned one by one, and for each
/// of them only the conditions that name it are evaluated.
///
/// The count is made when the value is, and only [`reassign`](Running::reassign) changes it, together with the grouping; so it is always the one that
/// [`count_unmet`] would answer. [`raw::reassign`](crate::raw::reassign) takes the three from the caller.
///
/// ```
/// use lihumbay::{Evaluation, Running, Sheet};
/// let sheet = "same 1 2 | same 1 3\napart 1 2".parse::<Sheet>()?.to_bytes();
/// let mut running = Running::new(sheet, vec![7, 7, 7])?;
/// assert_eq!((running.count(), running.evaluate()), (1, Evaluation::Unmet(2)));
/// assert_eq!(running.reassign(2, 8)?, 0);
/// assert!(running.all_met());
/// assert_eq!(running.reassign(3, 0)?, 1);
/// assert_eq!(running.grouping().as_bytes(), [7, 8, 0]);
/// # Ok::<(), Box<dyn std::error::Error>>(())
/// ```
#[derive(Clone, Debug, PartialEq, Eq, Hash)]
pub struct Running {
    sheet: Vec<u8>,
    grouping: Grouping<'static>,
    count: u32,
}

impl Running {
    /// Counts the conditions that the grouping doesn't meet, and begins with that. Sheet and grouping are refused as by [`count_unmet`]. The grouping may be
    /// bytes or a [`Grouping`], a search's for one; of a longer one the first bytes are taken, one for each of the sheet's lots.
    ///
    /// ```
    /// use lihumbay::{Running, Sheet, Verdict};
    /// let sheet = "same 1 2\napart 2 3".parse::<Sheet>()?.to_bytes();
    /// if let Verdict::Met { grouping, .. } = lihumbay::search(&sheet)? {
    ///     assert_eq!(Running::new(sheet.as_slice(), grouping)?.count(), 0);
    /// }
    /// let running = Running::new(sheet.as_slice(), [4, 4, 4, 9].as_slice())?;
    /// assert_eq!((running.count(), running.grouping().as_bytes()), (1, [4, 4, 4].as_slice()));
    /// assert_eq!(Running::new(sheet, vec![4, 4]).unwrap_err().check.number(), 8);
    /// # Ok::<(), Box<dyn std::error::Error>>(())
    /// ```
    pub fn new<'a>(sheet: impl Into<Vec<u8>>, grouping: impl Into<Grouping<'a>>) -> Result<Running, Refusal> {
        let (sheet, grouping) = (sheet.into(), grouping.into());
        let count = count_unmet(&sheet, grouping.as_bytes())?;
        let lots = read(&sheet)?.lots as usize;
        Ok(Running { sheet, grouping: grouping.as_bytes()[..lots].to_vec().into(), count })
    }

    /// Gives a lot another number, or the one that it has, and answers the new count. Check 21 refuses lot 0, whose number is always 0, and a lot that the sheet
    /// doesn't have; then grouping and count stay as they were. No other check can refuse it.
    ///
    /// ```
    /// use lihumbay::{Running, Sheet};
    /// let mut running = Running::new("same 0 1\napart 1 2".parse::<Sheet>()?.to_bytes(), vec![5, 5])?;
    /// assert_eq!((running.count(), running.reassign(1, 0)?), (2, 0));
    /// let before = running.clone();
    /// let refusal = running.reassign(3, 1).unwrap_err();
    /// assert_eq!((refusal.check.number(), refusal.place), (21, 3));
    /// assert_eq!(running, before);
    /// # Ok::<(), Box<dyn std::error::Error>>(())
    /// ```
    pub fn reassign(&mut self, lot: u32, value: u8) -> Result<u32, Refusal> {
        let numbers = Refusal::or_numbers(raw::reassign(&self.sheet, self.grouping.bytes_mut(), self.count, lot, value))?;
        self.count = numbers.first;
        Ok(self.count)
    }

    /// The running count: the number of conditions that the grouping doesn't meet.
    pub fn count(&self) -> u32 {
        self.count
    }

    /// Whether the grouping meets every condition.
    pub fn all_met(&self) -> bool {
        self.count == 0
    }

    /// What the evaluator answers of the grouping as it is: the lowest condition that isn't met, if there is one. It goes over all conditions up to that one.
    pub fn evaluate(&self) -> Evaluation {
        evaluate(&self.sheet, self.grouping.as_bytes()).expect("sheet and grouping were accepted when they were counted")
    }

    /// The grouping as it is, with a byte for each of the sheet's lots.
    pub fn grouping(&self) -> &Grouping<'static> {
        &self.grouping
    }

    /// The sheet's bytes.
    pub fn sheet(&self) -> &[u8] {
        &self.sheet
    }

    /// The sheet's bytes and the grouping as it is.
    pub fn into_parts(self) -> (Vec<u8>, Grouping<'static>) {
        (self.sheet, self.grouping)
    }
}
