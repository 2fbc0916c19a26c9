//! The search and the refutation checker under a limit on the number of classes.
use crate::limits::{LIMITED_SEARCH_STACK, MOST_RECORDS};
use crate::raw;
use crate::refusal::Refusal;
use crate::search::{Verdict, with_lent_buffers, with_own_buffers};

/// Searches under a limit, with room for the most records that a store can have: the sheet is to be met with at most `limit` different numbers among those of
/// lots 0 to n. Lot 0 has the number 0, which counts as one of them also where no other lot has it. A limit from 1 to [`MOST_LIMIT`](crate::MOST_LIMIT) is
/// admitted, and any other refused by check 20.
///
/// The search runs on a thread of its own, with the stack that it needs, so this may be called from any thread. For many small searches, to which starting a
/// thread is much, there is [`search_limited_into`].
///
/// ```
/// use lihumbay::{Sheet, Verdict};
/// let sheet = "apart 1 2\napart 2 3\napart 1 3".parse::<Sheet>()?.to_bytes();
/// match lihumbay::search_limited(&sheet, 3)? {
///     Verdict::Met { grouping, .. } => assert_eq!(grouping.groups(), [vec![0, 1], vec![2], vec![3]]),
///     other => panic!("{other:?}"),
/// }
/// match lihumbay::search_limited(&sheet, 2)? {
///     Verdict::Cannot { refutation } => lihumbay::check_limited(&sheet, 2, refutation.as_bytes())?,
///     other => panic!("{other:?}"),
/// }
/// let refusal = lihumbay::search_limited(&sheet, 0).unwrap_err();
/// assert_eq!((refusal.check.number(), refusal.place), (20, 0));
/// # Ok::<(), Box<dyn std::error::Error>>(())
/// ```
///
/// # Panics
/// If the system can't start a thread, as [`std::thread::spawn`] does. [`search_limited_into`] starts none.
pub fn search_limited(sheet: &[u8], limit: u32) -> Result<Verdict<'static>, Refusal> {
    search_limited_within(sheet, limit, MOST_RECORDS)
}

/// Searches under a limit with room for `capacity` records; above [`MOST_RECORDS`] it is taken for that number. Otherwise as [`search_limited`].
///
/// # Panics
/// As [`search_limited`].
pub fn search_limited_within(sheet: &[u8], limit: u32, capacity: usize) -> Result<Verdict<'static>, Refusal> {
    with_own_buffers(sheet, capacity, LIMITED_SEARCH_STACK, |grouping, store| raw::search_limited(sheet, limit, grouping, store))
}

/// Searches under a limit with lent buffers, which are taken and written as by [`search_into`](crate::search_into).
///
/// The caller's thread needs [`LIMITED_SEARCH_STACK`] bytes of stack: threads started with the standard library's own size have less.
///
/// ```
/// use lihumbay::{LIMITED_SEARCH_STACK, RECORD_LENGTH, Sheet, Verdict};
/// let sheet = "apart 0 1".parse::<Sheet>()?.to_bytes();
/// let searched = std::thread::Builder::new().stack_size(LIMITED_SEARCH_STACK).spawn(move || {
///     let (mut grouping, mut store) = ([0; 1], [0; 10 * RECORD_LENGTH]);
///     lihumbay::search_limited_into(&sheet, 1, &mut grouping, &mut store).map(|verdict| match verdict {
///         Verdict::Cannot { refutation } => refutation.count(),
///         other => panic!("{other:?}"),
///     })
/// })?;
/// assert_eq!(searched.join().unwrap()?, 3);
/// # Ok::<(), Box<dyn std::error::Error>>(())
/// ```
pub fn search_limited_into<'a>(sheet: &[u8], limit: u32, grouping: &'a mut [u8], store: &'a mut [u8]) -> Result<Verdict<'a>, Refusal> {
    with_lent_buffers(sheet, grouping, store, |grouping, store| raw::search_limited(sheet, limit, grouping, store))
}

/// Checks a list of records from any hand under a limit, which is admitted as by [`search_limited`]. Where it passes, no assignment with at most `limit`
/// different numbers among those of lots 0 to n meets the sheet, lot 0's number counted, whichever that is. Beside splits and grounds the list may have
/// cliques; a list that [`check`](crate::check) passes, passes here under each limit.
///
/// ```
/// use lihumbay::{Record, Sheet};
/// let sheet = "apart 0 1".parse::<Sheet>()?.to_bytes();
/// let records = [Record::Split { a: 0, b: 1, next: 3 }, Record::Ground { condition: 1 }, Record::Clique];
/// let list: Vec<u8> = records.into_iter().filter_map(Record::to_bytes).flatten().collect();
/// lihumbay::check_limited(&sheet, 1, &list)?;
/// let refused = |limit| lihumbay::check_limited(&sheet, limit, &list).map_err(|refusal| (refusal.check.number(), refusal.place));
/// assert_eq!((refused(2), refused(130)), (Err((12, 3)), Err((20, 130))));
/// # Ok::<(), Box<dyn std::error::Error>>(())
/// ```
pub fn check_limited(sheet: &[u8], limit: u32, list: &[u8]) -> Result<(), Refusal> {
    Refusal::or_numbers(raw::check_limited(sheet, limit, list)).map(drop)
}
