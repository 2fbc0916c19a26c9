//! The second implementation on the cases of other implementations, which the tests from outside give the archive.
use second::answer::numbers;
use second::cases::{Case, cases, count_lot_and_value, limit_and_sheet, line};
use second::merge::merge_numbers;
use second::{check, check_limited, count_unmet, evaluate, merge, read, reassign, repack, search, search_limited};
use std::thread;

const CASES: &[u8] = include_bytes!("../../outside/vectors/cases.bin");
const EXPECTED: &str = include_str!("../../outside/vectors/expected.txt");

/// The four numbers of the service; the buffers are then as it left them.
fn called(case: &mut Case) -> [u32; 4] {
    let [first, second, third] = &mut case.buffers;
    match case.service {
        0 => numbers(&read(first)),
        1 => numbers(&search(first, second, third)),
        2 => numbers(&check(first, second)),
        3 => numbers(&evaluate(first, second)),
        4 => numbers(&repack(first, second)),
        5 => merge_numbers(&merge(first, second, third)),
        6 => {
            let (limit, sheet) = limit_and_sheet(first);
            numbers(&search_limited(sheet, limit, second, third))
        }
        7 => {
            let (limit, sheet) = limit_and_sheet(first);
            numbers(&check_limited(sheet, limit, second))
        }
        8 => numbers(&count_unmet(first, second)),
        9 => {
            let (count, lot, value) = count_lot_and_value(third);
            numbers(&reassign(first, second, count, lot, value))
        }
        service => panic!("there is no service {service}"),
    }
}

fn every_case() {
    let mut cases = cases(CASES);
    let lines: Vec<&str> = EXPECTED.lines().collect();
    assert_eq!(cases.len(), lines.len(), "one line for each case");
    for (number, (case, expected)) in cases.iter_mut().zip(lines).enumerate() {
        let answer = called(case);
        assert_eq!(line(case, answer), expected, "case {number}");
    }
}

/// A search calls itself for each split of a path: more stack than a test's thread has by itself.
#[test]
fn every_case_is_answered_as_others_do() {
    let worker = thread::Builder::new().stack_size(64 << 20).spawn(every_case).expect("a thread can be started");
    if let Err(panic) = worker.join() {
        std::panic::resume_unwind(panic);
    }
}
