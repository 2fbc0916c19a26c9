//! The search, with buffers of its own or lent ones.
use crate::grouping::Grouping;
use crate::limits::{MOST_LOTS, MOST_RECORDS, RECORD_LENGTH, SEARCH_STACK};
use crate::list::RecordList;
use crate::raw::{self, Numbers};
use crate::refusal::Refusal;
use std::thread;

/// The check that says that a search's store is full.
const STORE_FULL: u32 = 9;
/// The case numbers of an ended search.
const MET: u32 = 1;
const CANNOT: u32 = 2;
/// Beyond what a search needs, so that a thread of our own never has too little.
const SPARE_STACK: usize = 1 << 20;

/// What a search of an accepted sheet comes to, without a limit on the number of classes or with one.
#[derive(Clone, Debug, PartialEq, Eq)]
pub enum Verdict<'a> {
    /// Every condition can be met; under a limit, with no more classes than it admits.
    Met {
        /// A byte for each lot from lot 1 on, and with it every condition is met. It is the smallest lot that the lot is together with, so 0 exactly where
        /// that is lot 0. Under a limit these bytes and lot 0's number, 0, are no more different numbers than it admits.
        grouping: Grouping<'a>,
        /// The nodes visited, the last one met.
        records: RecordList<'a>,
    },
    /// Nothing meets the sheet; under a limit, nothing with no more classes than it admits.
    Cannot {
        /// The nodes visited, which [`check`](crate::check) passes, or [`check_limited`](crate::check_limited) under the same limit.
        refutation: RecordList<'a>,
    },
    /// The search visits more nodes than the store has records. Nothing is known of the sheet.
    Full {
        /// The records that the store has room for.
        capacity: usize,
    },
}

/// Searches with room for the most records that a store can have.
///
/// The search runs on a thread of its own, with the stack that it needs, so this may be called from any thread. For many small searches, to which starting a
/// thread is much, there is [`search_into`].
///
/// ```
/// use lihumbay::{Sheet, Verdict};
/// let sheet = "same 1 2 | same 1 3\napart 1 2".parse::<Sheet>()?.to_bytes();
/// match lihumbay::search(&sheet)? {
///     Verdict::Met { grouping, .. } => assert_eq!(grouping.groups(), [vec![1, 3], vec![2]]),
///     other => panic!("{other:?}"),
/// }
/// # Ok::<(), Box<dyn std::error::Error>>(())
/// ```
///
/// # Panics
/// If the system can't start a thread, as [`std::thread::spawn`] does. [`search_into`] starts none.
pub fn search(sheet: &[u8]) -> Result<Verdict<'static>, Refusal> {
    search_within(sheet, MOST_RECORDS)
}

/// Searches with room for `capacity` records; above [`MOST_RECORDS`] it is taken for that number. Otherwise as [`search`].
///
/// # Panics
/// As [`search`].
pub fn search_within(sheet: &[u8], capacity: usize) -> Result<Verdict<'static>, Refusal> {
    with_own_buffers(sheet, capacity, SEARCH_STACK, |grouping, store| raw::search(sheet, grouping, store))
}

/// Searches with lent buffers, on the caller's thread: nothing is allocated, and the verdict borrows what was written. The store's capacity is its length
/// divided by [`RECORD_LENGTH`], at most [`MOST_RECORDS`]. Met and cannot write the records counted and nothing else of the store; the grouping is written only
/// on met; a full store is zeroed.
///
/// The caller's thread needs [`SEARCH_STACK`] bytes of stack: the main thread and threads started with the standard library's own size have more.
///
/// ```
/// use lihumbay::{RECORD_LENGTH, Sheet, Verdict};
/// let sheet = "same 1 2\napart 1 2".parse::<Sheet>()?.to_bytes();
/// let (mut grouping, mut store) = ([0; 2], [0; 10 * RECORD_LENGTH]);
/// match lihumbay::search_into(&sheet, &mut grouping, &mut store)? {
///     Verdict::Cannot { refutation } => assert_eq!(refutation.count(), 3),
///     other => panic!("{other:?}"),
/// }
/// # Ok::<(), Box<dyn std::error::Error>>(())
/// ```
pub fn search_into<'a>(sheet: &[u8], grouping: &'a mut [u8], store: &'a mut [u8]) -> Result<Verdict<'a>, Refusal> {
    with_lent_buffers(sheet, grouping, store, |grouping, store| raw::search(sheet, grouping, store))
}

/// A search by this call, which is lent a grouping and a store with room for `capacity` records, and runs on a thread of its own with so many bytes of stack.
pub(crate) fn with_own_buffers(
    sheet: &[u8],
    capacity: usize,
    stack: usize,
    call: impl FnOnce(&mut [u8], &mut [u8]) -> Numbers + Send,
) -> Result<Verdict<'static>, Refusal> {
    let mut grouping = vec![0; MOST_LOTS];
    let mut store = vec![0; capacity.min(MOST_RECORDS) * RECORD_LENGTH];
    let numbers = on_own_thread(stack, || call(&mut grouping, &mut store));
    Ok(match Outcome::of(numbers, sheet)? {
        Outcome::Met { lots, length } => {
            grouping.truncate(lots);
            Verdict::Met { grouping: grouping.into(), records: shortened(store, length).into() }
        }
        Outcome::Cannot { length } => Verdict::Cannot { refutation: shortened(store, length).into() },
        Outcome::Full { capacity } => Verdict::Full { capacity },
    })
}

/// A search by this call, on the caller's thread and with its buffers.
pub(crate) fn with_lent_buffers<'a>(
    sheet: &[u8],
    grouping: &'a mut [u8],
    store: &'a mut [u8],
    call: impl FnOnce(&mut [u8], &mut [u8]) -> Numbers,
) -> Result<Verdict<'a>, Refusal> {
    let numbers = call(grouping, store);
    Ok(match Outcome::of(numbers, sheet)? {
        Outcome::Met { lots, length } => Verdict::Met { grouping: grouping[..lots].into(), records: store[..length].into() },
        Outcome::Cannot { length } => Verdict::Cannot { refutation: store[..length].into() },
        Outcome::Full { capacity } => Verdict::Full { capacity },
    })
}

/// An ended search, with the bytes that it wrote of either buffer.
enum Outcome {
    Met { lots: usize, length: usize },
    Cannot { length: usize },
    Full { capacity: usize },
}

impl Outcome {
    fn of(numbers: Numbers, sheet: &[u8]) -> Result<Outcome, Refusal> {
        if numbers.check == STORE_FULL {
            return Ok(Outcome::Full { capacity: numbers.first as usize });
        }
        let ended = Refusal::or_numbers(numbers)?;
        let length = ended.second as usize * RECORD_LENGTH;
        match ended.first {
            MET => Ok(Outcome::Met { lots: Refusal::or_numbers(raw::read(sheet))?.first as usize, length }),
            CANNOT => Ok(Outcome::Cannot { length }),
            case => unreachable!("the archive's contract has cases {MET} and {CANNOT}, not {case}"),
        }
    }
}

fn shortened(mut store: Vec<u8>, length: usize) -> Vec<u8> {
    store.truncate(length);
    store.shrink_to_fit();
    store
}

/// Runs the work where the stack is large enough, whatever the caller's is.
fn on_own_thread<T: Send>(stack: usize, work: impl FnOnce() -> T + Send) -> T {
    thread::scope(|scope| {
        let worker = thread::Builder::new().stack_size(stack + SPARE_STACK).spawn_scoped(scope, work);
        let ended = worker.expect("the system starts a thread for a search").join();
        ended.unwrap_or_else(|panic| std::panic::resume_unwind(panic))
    })
}
