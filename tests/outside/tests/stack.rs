//! The services on small stacks: the header says what a search needs, without a limit and with one, what the checker needs with a limit, and what each of the
//! others needs. A call that needs more ends this program, and so the test.
use lihumbay::raw;
use outside::compare::plain;
use outside::depth::depth;
use outside::families::{DEEPEST, deep, joined, lowered};
use outside::limited_families::{DEEPEST_LIMITED, Deep, MOST_APART, all_apart};
use outside::lists::spine;
use outside::random::Random;
use second::limits::{HEAD_LENGTH, MOST_CONDITIONS, MOST_NODES, MOST_SPLITS_ABOVE_LIMITED, MOST_TERMS, NODE_LENGTH};
use second::reader::accept;
use second::store::list_bytes;
use second::writer::{apart, same, sheet_bytes, sheet_bytes_in};
use std::thread;

const SEARCH: usize = 900_000;
/// The search and the checker with a limit, at 8,256 splits on a path.
const SEARCH_LIMITED: usize = 6_800_000;
const CHECK_LIMITED: usize = 200_000;
const OTHERS: usize = 48_000;

/// Does the work on so much stack, and a little for the thread itself.
fn on_stack<T: Send + 'static>(bytes: usize, work: impl FnOnce() -> T + Send + 'static) -> T {
    thread::Builder::new().stack_size(bytes + 32_768).spawn(work).expect("a thread can be started").join().expect("work that ends")
}

/// The search's four numbers, and the records that it wrote.
fn searched(sheet: Vec<u8>) -> ([u32; 4], Vec<u8>) {
    on_stack(SEARCH, move || {
        let (mut grouping, mut store) = (vec![0; 128], vec![0; NODE_LENGTH * MOST_NODES]);
        let answer = plain(raw::search(&sheet, &mut grouping, &mut store));
        store.truncate(NODE_LENGTH * answer[2] as usize);
        (answer, store)
    })
}

/// The services that don't search: the checker on the list that the search wrote, the others on its sheet.
fn others(sheet: Vec<u8>, list: Vec<u8>) {
    // Merged with itself, the sheet has the heads of its withdrawn conditions once more.
    let withdrawn = accept(&sheet).expect("a valid sheet").conditions.iter().filter(|condition| condition.is_empty()).count();
    let twice = sheet.len() + HEAD_LENGTH * withdrawn;
    on_stack(OTHERS, move || {
        assert_eq!(plain(raw::read(&sheet))[0], 0);
        assert_eq!(plain(raw::check(&sheet, &list)), [0; 4]);
        let mut grouping = [1; 128];
        assert_eq!(plain(raw::evaluate(&sheet, &grouping))[0], 0);
        let [check, count, ..] = plain(raw::count_unmet(&sheet, &grouping));
        assert_eq!(check, 0);
        assert_eq!(plain(raw::reassign(&sheet, &mut grouping, count, 1, 2))[0], 0);
        let mut out = vec![0; twice];
        assert_eq!(plain(raw::repack(&sheet, &mut out)), [0, sheet.len() as u32, 0, 0]);
        assert_eq!(plain(raw::merge(&sheet, &sheet, &mut out)), [0, twice as u32, 0, 0]);
    });
}

/// As many conditions and terms as two sheets can have, all conditions alike but for the last term: the second sheet's are all repeats, or all new.
#[test]
fn merges_of_the_longest_sheets_fit() {
    let ending = |number: usize| [vec![same(1, 1); 3], vec![same(number / 128 + 1, number % 128 + 1)]].concat();
    let sheet = |from: usize| sheet_bytes(128, &(from..from + MOST_CONDITIONS).map(ending).collect::<Vec<_>>());
    let (first, second) = (sheet(0), sheet(MOST_CONDITIONS));
    on_stack(OTHERS, move || {
        let mut out = vec![0; first.len()];
        assert_eq!(plain(raw::merge(&first, &first, &mut out)), [0, first.len() as u32, 0, 0]);
        assert_eq!(plain(raw::merge(&first, &second, &mut out)), [18, 2, 0, 0]);
    });
}

/// As many conditions and terms as there may be, each with the first lot and the last, and one condition with all terms: counted, and reassigned.
#[test]
fn counts_and_reassignments_on_the_longest_sheets_fit() {
    let short = sheet_bytes(128, &vec![vec![same(1, 128); MOST_TERMS / MOST_CONDITIONS]; MOST_CONDITIONS]);
    let long = sheet_bytes(128, &[vec![same(128, 1); MOST_TERMS]]);
    for (sheet, conditions) in [(short, MOST_CONDITIONS as u32), (long, 1)] {
        on_stack(OTHERS, move || {
            let mut grouping = [1; 128];
            assert_eq!(plain(raw::count_unmet(&sheet, &grouping)), [0; 4]);
            assert_eq!(plain(raw::reassign(&sheet, &mut grouping, 0, 128, 2)), [0, conditions, 0, 0]);
            assert_eq!(plain(raw::count_unmet(&sheet, &grouping)), [0, conditions, 0, 0]);
            assert_eq!(plain(raw::reassign(&sheet, &mut grouping, conditions, 1, 2)), [0; 4]);
        });
    }
}

/// As many conditions as there may be, all of them withdrawn but one, which has as many terms as there may be; and as many withdrawn ones in each of two
/// sheets.
#[test]
fn merges_of_the_most_withdrawn_conditions_fit() {
    let with_terms = sheet_bytes(128, &[vec![same(1, 2); MOST_TERMS]]);
    let withdrawn = |count: usize| sheet_bytes(128, &vec![vec![]; count]);
    let (others, all) = (withdrawn(MOST_CONDITIONS - 1), withdrawn(MOST_CONDITIONS));
    let longest = with_terms.len() + HEAD_LENGTH * (MOST_CONDITIONS - 1);
    on_stack(OTHERS, move || {
        let mut out = vec![0; longest];
        assert_eq!(plain(raw::merge(&with_terms, &others, &mut out)), [0, longest as u32, 0, 0]);
        assert_eq!(plain(raw::merge(&others, &with_terms, &mut out)), [0, longest as u32, 0, 0]);
        assert_eq!(plain(raw::merge(&all, &with_terms, &mut out)), [18, 2, 0, 0]);
        assert_eq!(plain(raw::merge(&all, &all, &mut out)), [18, 2, 0, 0]);
    });
}

#[test]
fn deepest_searches_fit_and_so_do_the_others_on_them() {
    let mut random = Random::new(41);
    let backwards: Vec<usize> = (1..=MOST_TERMS).rev().collect();
    for sheet in [
        sheet_bytes(46, &deep(46, DEEPEST, &mut random)),
        sheet_bytes_in(128, &deep(128, DEEPEST, &mut random), &backwards),
        sheet_bytes(128, &joined(128)),
        // With lot 0 among them it is one lot more.
        sheet_bytes_in(128, &lowered(&deep(129, DEEPEST, &mut random)), &backwards),
        sheet_bytes(128, &lowered(&joined(129))),
    ] {
        let (answer, list) = searched(sheet.clone());
        assert_eq!(answer[..2], [0, 2]);
        others(sheet, list);
    }
}

/// The four numbers of the search with a limit, and the records that it wrote, on so much stack.
fn searched_limited(bytes: usize, sheet: Vec<u8>, limit: u32) -> ([u32; 4], Vec<u8>) {
    on_stack(bytes, move || {
        let (mut grouping, mut store) = (vec![0; 128], vec![0; NODE_LENGTH * MOST_NODES]);
        let answer = plain(raw::search_limited(&sheet, limit, &mut grouping, &mut store));
        store.truncate(NODE_LENGTH * answer[2] as usize);
        (answer, store)
    })
}

/// No sheet is known whose search has a path of 8,256 splits, and none that comes near. A path costs the same for each split, beside what a search needs on its
/// own: so the longest path that is known has to fit its share of the stack for 8,256, whatever the limit that it is searched with.
#[test]
fn deepest_searches_with_a_limit_fit_their_share() {
    let mut random = Random::new(42);
    let deep = Deep { free: 30, named: 46, width: 1023 };
    let backwards: Vec<usize> = (1..=MOST_TERMS).rev().collect();
    for (sheet, limit) in [
        (sheet_bytes(deep.lots(), &deep.conditions(&mut random)), 1),
        (sheet_bytes_in(DEEPEST_LIMITED.lots(), &DEEPEST_LIMITED.conditions(), &backwards), 1),
        (sheet_bytes(MOST_APART, &all_apart(MOST_APART, &mut random)), MOST_APART as u32),
    ] {
        let (answer, list) = searched_limited(SEARCH_LIMITED, sheet.clone(), limit);
        assert_eq!(answer[..2], [0, 2]);
        let share = OTHERS + (SEARCH_LIMITED - OTHERS) * depth(&list) / MOST_SPLITS_ABOVE_LIMITED;
        assert_eq!(searched_limited(share, sheet.clone(), limit), (answer, list.clone()));
        on_stack(CHECK_LIMITED, move || assert_eq!(plain(raw::check_limited(&sheet, limit, &list)), [0; 4]));
    }
}

/// Searches that are met with all lots joined, and with as many classes as there may be.
#[test]
fn searches_with_a_limit_of_sheets_without_conditions_fit() {
    for limit in [1, 2, 128, 129] {
        let (answer, _) = searched_limited(SEARCH_LIMITED, sheet_bytes(128, &[]), limit);
        assert_eq!(answer, [0, 1, 130 - limit, 0]);
    }
}

/// Lists with a path of 8,256 splits, over few lots and over as many as there may be, in same branches, in apart branches and in both, and with a split more.
#[test]
fn deepest_lists_with_a_limit_fit() {
    let mut random = Random::new(43);
    for (lots, percent) in [2, 128].into_iter().flat_map(|lots| [(lots, 0), (lots, 50), (lots, 100)]) {
        let sheet = sheet_bytes(lots, &[vec![apart(1, 1)]]);
        let directions: Vec<bool> = (0..=MOST_SPLITS_ABOVE_LIMITED).map(|_| random.chance(percent)).collect();
        let (passes, deeper) = (spine(&(0..=lots), &directions[1..], &mut random), spine(&(0..=lots), &directions, &mut random));
        let (passes, place) =
            (list_bytes(&passes), 1 + directions[..MOST_SPLITS_ABOVE_LIMITED].iter().map(|&same| if same { 1 } else { 2 }).sum::<u32>());
        on_stack(CHECK_LIMITED, move || {
            assert_eq!(plain(raw::check_limited(&sheet, 1, &passes)), [0; 4]);
            assert_eq!(plain(raw::check_limited(&sheet, 1, &list_bytes(&deeper))), [15, place, 0, 0]);
        });
    }
}
