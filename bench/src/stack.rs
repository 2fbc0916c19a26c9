//! How much stack a search takes on the longest path that it can have, 1,023 splits, a check on the longest that a list can have, 1,024 and under a limit
//! 8,256, an evaluation, a count of unmet conditions, a reassignment and a repacking on the longest chain, and a merge on as many conditions as can come in and
//! stay, all of one digest: the call runs on a painted stack of 8 MB, and what was painted over is counted. Of a limited search no sheet is known whose path is
//! as long as it may be, 8,256 splits: what that would take follows from what a split takes on shorter ones.
use crate::first_true::{self, Shape};
use crate::jobs::{self, Buffers, Service, packed_length};
use crate::named::{self, At, Naming};
use crate::reassign::Reassignment;
use crate::records::{answered, depth};
use crate::{check, count, evaluate, families, lists, merge, reassign, repack, search};
use lihumbay::raw::Numbers;
use std::alloc::{Layout, alloc, dealloc};
use std::ffi::c_void;
use std::hint::black_box;
use std::ptr;

const SIZE: usize = 8 << 20;
const PAINT: u8 = 0xA5;

/// At least as large, and as aligned, as the C library's own.
#[repr(C, align(16))]
struct Attributes([u64; 16]);

type Body = extern "C" fn(*mut c_void) -> *mut c_void;

unsafe extern "C" {
    fn pthread_attr_init(attributes: *mut Attributes) -> i32;
    fn pthread_attr_setstack(attributes: *mut Attributes, stack: *mut c_void, size: usize) -> i32;
    fn pthread_create(thread: *mut usize, attributes: *const Attributes, body: Body, argument: *mut c_void) -> i32;
    fn pthread_join(thread: usize, result: *mut *mut c_void) -> i32;
}

/// What runs on the painted stack.
struct Call<'a>(&'a mut dyn FnMut());

extern "C" fn body(argument: *mut c_void) -> *mut c_void {
    // SAFETY: `used` hands over a `Call` that it doesn't touch until the thread has ended.
    let call = unsafe { &mut *argument.cast::<Call>() };
    (call.0)();
    ptr::null_mut()
}

/// The bytes from the top of the stack down to the lowest that was written.
fn used(call: &mut dyn FnMut()) -> usize {
    let layout = Layout::from_size_align(SIZE, 4096).expect("a layout");
    let (mut attributes, mut thread, mut call) = (Attributes([0; 16]), 0, Call(call));
    // SAFETY: the stack is ours, page-aligned and large enough, and is given back only when the thread has ended; so is the call.
    unsafe {
        let stack = alloc(layout);
        assert!(!stack.is_null(), "no memory for a stack");
        stack.write_bytes(PAINT, SIZE);
        assert!(pthread_attr_init(&mut attributes) == 0 && pthread_attr_setstack(&mut attributes, stack.cast(), SIZE) == 0);
        assert!(pthread_create(&mut thread, &attributes, body, (&raw mut call).cast()) == 0 && pthread_join(thread, ptr::null_mut()) == 0);
        let untouched = (0..SIZE).take_while(|&i| *stack.add(i) == PAINT).count();
        dealloc(stack, layout);
        SIZE - untouched
    }
}

/// The stack of each merger, by name.
fn of_merges(thread: usize) -> Vec<(String, usize)> {
    let job = jobs::one(Service::Merge, "digest").expect("a merge of one digest");
    let one = |(name, merge): (&str, merge::Merge)| {
        let mut out = Buffers::new().out;
        let bytes = used(&mut || assert!(merge(&job.bytes, job.second(), &mut out) == job.known));
        (format!("merge, {name}"), bytes - thread)
    };
    merge::ALL.map(one).into()
}

/// A sheet whose limited search has a long path: how many splits that has, and the answer.
struct Path {
    sheet: Vec<u8>,
    limit: u32,
    splits: usize,
    known: Numbers,
}

/// Splits on the terms of a condition, all but the last.
fn of_terms(terms: usize) -> Path {
    Path { sheet: families::long_limited(terms).bytes(), limit: 1, splits: terms + 1, known: answered(2, 4 * terms as u32 + 1, 0) }
}

/// Splits on pairs of classes that the limit takes.
fn of_pairs(classes: usize) -> Path {
    let (sheet, splits) = (families::from_zero(families::all_apart(classes, classes)), classes * (classes - 1) / 2);
    Path { sheet: sheet.bytes(), limit: classes as u32 - 1, splits, known: answered(2, 2 * splits as u32 + 1, 0) }
}

fn of_path(search: search::Limited, path: &Path) -> usize {
    let mut buffers = Buffers::new();
    used(&mut || assert!(search(&path.sheet, path.limit, &mut buffers.grouping, &mut buffers.store) == path.known))
}

/// The most splits on a path of a limited search: as many as there are pairs of lots 0 to 128.
const MOST_SPLITS: usize = 8256;

/// What a path of that many splits would take, by two paths of one kind.
fn of_longest(search: search::Limited, [short, long]: [Path; 2]) -> usize {
    let (less, more) = (of_path(search, &short), of_path(search, &long));
    let split = (more - less).div_ceil(long.splits - short.splits);
    more + split * (MOST_SPLITS - long.splits)
}

/// The stack of each limited search and checker, by name, and of the product's search on other paths.
fn of_limited(thread: usize) -> Vec<(String, usize)> {
    let searches = search::LIMITED.map(|(name, search)| (format!("search_limited, {name}"), of_path(search, &of_terms(1023)) - thread));
    let product = search::LIMITED[0].1;
    let on_pairs = ("search_limited, product, 253 splits on pairs".to_string(), of_path(product, &of_pairs(23)) - thread);
    let longest = of_longest(product, [511, 1023].map(of_terms)).max(of_longest(product, [12, 23].map(of_pairs)));
    let longest = ("search_limited, product, 8,256 splits, by arithmetic".to_string(), longest - thread);
    let sheet = families::long_condition(1023).bytes();
    let walks = [(1, lists::deep(lists::LIMITED_CHAIN, 127)), (127, lists::cliques(128, 2000, lists::Between::Nothing))];
    let checks = check::LIMITED.map(|(name, check)| {
        let bytes = walks.iter().map(|(limit, list)| used(&mut || assert!(check(&sheet, *limit, list) == answered(0, 0, 0))));
        (format!("check_limited, {name}"), bytes.max().unwrap_or(thread) - thread)
    });
    searches.into_iter().chain([on_pairs, longest]).chain(checks).collect()
}

/// The stack of each evaluator, counter of unmet conditions and reassigner, by name, on the longest chain, whose last term is the true one and doesn't name the
/// lot.
fn of_groupings(thread: usize) -> Vec<(String, usize)> {
    let shape = Shape { conditions: 1, terms: 1024, place: Some(1024) };
    let sheet = Naming { shape, conditions: 1, at: At::First }.sheet().bytes_shuffled(1);
    let (grouping, met) = (first_true::grouping(), answered(0, 0, 0));
    let same = Reassignment { count: 0, lot: named::LOT as u32, value: grouping[named::LOT - 1] };
    let evaluator = |service: &str, (name, evaluate): (&str, evaluate::Evaluate)| {
        (format!("{service}, {name}"), used(&mut || assert!(evaluate(&sheet, &grouping) == met)) - thread)
    };
    let reassigner = |(name, reassign): (&str, reassign::Reassign)| {
        let mut grouping = grouping.clone();
        (format!("reassign, {name}"), used(&mut || assert!(reassign(&sheet, &mut grouping, same) == met)) - thread)
    };
    let mut rows: Vec<_> = evaluate::ALL.map(|one| evaluator("evaluate", one)).into();
    rows.extend(count::ALL.map(|one| evaluator("count_unmet", one)));
    rows.extend(reassign::ALL.map(reassigner));
    rows
}

/// The stack of each search, checker, evaluator, counter, reassigner, repacker and merger, by name.
pub fn all() -> Vec<(String, usize)> {
    let thread = used(&mut || {});
    let (sheet, list) = (families::long_condition(1023).bytes(), lists::deep(lists::CHAIN, 127));
    let chain = families::longest_chain();
    let (mixed, packed) = (chain.bytes_shuffled(1), packed_length(&chain));
    let mut rows = Vec::new();
    for (name, search) in search::ALL {
        let mut buffers = Buffers::new();
        let bytes = used(&mut || assert!(search(&sheet, &mut buffers.grouping, &mut buffers.store) == answered(2, 2047, 0)));
        rows.push((format!("search, {name}"), bytes - thread));
    }
    for (name, check) in check::ALL {
        rows.push((format!("check, {name}"), used(&mut || assert!(check(&sheet, &list).check == 0)) - thread));
    }
    rows.extend(of_limited(thread));
    rows.extend(of_groupings(thread));
    for (name, repack) in repack::ALL {
        let mut out = Buffers::new().out;
        let bytes = used(&mut || assert!(repack(&mixed, &mut out) == packed));
        rows.push((format!("repack, {name}"), bytes - thread));
    }
    rows.extend(of_merges(thread));
    rows
}

/// What the product's limited search takes on a path of as many splits as one can have. It is called with a sheet that has more terms than the reader admits,
/// so that it says something only where `bench/deepest.sh` has put another reader into the archive.
pub fn deepest() {
    let (thread, sheet) = (used(&mut || {}), families::each_pair().bytes());
    let (mut buffers, mut answer) = (Buffers::new(), answered(0, 0, 0));
    let bytes = used(&mut || answer = search::LIMITED[0].1(&sheet, 1, &mut buffers.grouping, &mut buffers.store));
    assert!(answer.check == 0 && answer.first == 2, "{answer:?}: the reader is the product's own, or the store is full");
    let splits = depth(&buffers.store[..8 * answer.second as usize]);
    assert!(splits == MOST_SPLITS, "a path of {splits} splits");
    println!("search_limited, product, {splits} splits: {} bytes of stack", bytes - thread);
}

/// The product's search and check once on the program's own stack, without a limit on classes and with one, so that a limit set by the shell is tried.
pub fn on_own() {
    let (sheet, list) = (families::long_condition(1023).bytes(), lists::deep(lists::CHAIN, 127));
    let mut buffers = Buffers::new();
    assert!(search::ALL[0].1(&sheet, &mut buffers.grouping, &mut buffers.store) == answered(2, 2047, 0));
    black_box(&buffers);
    assert!(check::ALL[0].1(&sheet, &list).check == 0);
    let path = of_terms(1023);
    assert!(search::LIMITED[0].1(&path.sheet, path.limit, &mut buffers.grouping, &mut buffers.store) == path.known);
    black_box(&buffers);
    assert!(check::LIMITED[0].1(&sheet, 1, &lists::deep(lists::LIMITED_CHAIN, 127)).check == 0);
}

#[cfg(test)]
mod tests {
    use super::*;

    #[test]
    fn limited_searches_have_paths_as_long_as_is_said() {
        for path in [of_terms(511), of_terms(1023), of_pairs(12), of_pairs(23)] {
            let mut buffers = Buffers::new();
            let answer = search::tuned_limited::search(&path.sheet, path.limit, &mut buffers.grouping, &mut buffers.store);
            assert!(answer == path.known && depth(&buffers.store[..8 * answer.second as usize]) == path.splits);
        }
    }
}
