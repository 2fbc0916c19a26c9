//! Two threads in the services at once: a call touches only what it is lent.
use outside::case::Case;
use outside::compare::{Repacked, Searched, plain, repacked, searched};
use outside::limited::{Limited, searched as searched_with_limit};
use outside::merged::{Merged, merged};
use outside::random::Random;
use outside::reassigned::{Reassigned, Reassignment, reassigned};
use outside::sheets;
use std::sync::Barrier;
use std::thread;

const CASES: usize = 400;
const ROUNDS: usize = 5;
/// A limit that most of the sheets pass.
const LIMIT: u32 = 4;

/// What the services that search, check, count or write give on a case: searches and checks without a limit, and with one.
#[derive(PartialEq)]
struct Given {
    searched: [Searched; 2],
    checked: [[u32; 4]; 2],
    counted: [u32; 4],
    reassigned: Reassigned,
    repacked: Repacked,
    merged: Merged,
}

/// The last lot of a case gets the number 1, with the count of unmet conditions as the running count.
fn last_lot(case: &Case, count: u32) -> Reassignment {
    Reassignment { sheet: case.sheet.clone(), grouping: case.grouping.clone(), count, lot: u32::from(case.sheet[0]), value: 1 }
}

/// All of it on each case; each sheet is merged with the one before it.
fn all(cases: &[Case]) -> Vec<Given> {
    let before = |number: usize| &cases[number.checked_sub(1).unwrap_or(CASES - 1)];
    let one = |(number, case): (usize, &Case)| {
        let limited = Limited { store_length: case.store_length, ..Limited::with_list(case.sheet.clone(), LIMIT, 0, case.list.clone()) };
        let checked =
            [lihumbay::raw::check(&case.sheet, &case.list), lihumbay::raw::check_limited(&case.sheet, LIMIT, &case.list)].map(plain);
        let counted = plain(lihumbay::raw::count_unmet(&case.sheet, &case.grouping));
        let reassigned = reassigned(&last_lot(case, counted[1]));
        let merged = merged(&before(number).sheet, &case.sheet, &[case.fill; 6000]);
        let searched = [searched(case), searched_with_limit(&limited)];
        Given { searched, checked, counted, reassigned, repacked: repacked(case), merged }
    };
    cases.iter().enumerate().map(one).collect()
}

#[test]
fn two_threads_at_once_answer_as_one() {
    let mut random = Random::new(21);
    let cases: Vec<Case> = (0..CASES).map(|_| sheets::medium(&mut random)).map(|sheet| Case::of(sheet, &mut Random::new(22))).collect();
    let expected = all(&cases);
    let start = Barrier::new(2);
    let work = || {
        start.wait();
        (0..ROUNDS).for_each(|_| assert!(all(&cases) == expected, "an answer changed while another thread was in the services"));
    };
    thread::scope(|scope| {
        let worker = || thread::Builder::new().stack_size(16 << 20).spawn_scoped(scope, work).expect("a thread can be started");
        let (one, other) = (worker(), worker());
        one.join().expect("the first thread");
        other.join().expect("the second thread");
    });
}
