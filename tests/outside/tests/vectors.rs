//! Cases and answers made by implementations of documents 01 and 02 that share nothing with the product. `vectors/cases.bin` has the cases, and
//! `vectors/expected.txt` a line for each, in the form that `second::cases` describes.
use lihumbay::raw;
use outside::compare::plain;
use outside::run::{say, with_stack};
use second::cases::{Case, cases, count_lot_and_value, limit_and_sheet, line};

const CASES: &[u8] = include_bytes!("../vectors/cases.bin");
const EXPECTED: &str = include_str!("../vectors/expected.txt");

/// Calls the service; the buffers are then as it left them.
fn called(case: &mut Case) -> raw::Numbers {
    let [first, second, third] = &mut case.buffers;
    match case.service {
        0 => raw::read(first),
        1 => raw::search(first, second, third),
        2 => raw::check(first, second),
        3 => raw::evaluate(first, second),
        4 => raw::repack(first, second),
        5 => raw::merge(first, second, third),
        6 => {
            let (limit, sheet) = limit_and_sheet(first);
            raw::search_limited(sheet, limit, second, third)
        }
        7 => {
            let (limit, sheet) = limit_and_sheet(first);
            raw::check_limited(sheet, limit, second)
        }
        8 => raw::count_unmet(first, second),
        9 => {
            let (count, lot, value) = count_lot_and_value(third);
            raw::reassign(first, second, count, lot, value)
        }
        service => panic!("there is no service {service}"),
    }
}

#[test]
fn every_case_is_answered_as_others_do() {
    with_stack(|| {
        let mut cases = cases(CASES);
        let lines: Vec<&str> = EXPECTED.lines().collect();
        assert_eq!(cases.len(), lines.len(), "one line for each case");
        for (number, (case, expected)) in cases.iter_mut().zip(lines).enumerate() {
            let answer = plain(called(case));
            assert_eq!(line(case, answer), expected, "case {number}");
        }
        say(&format!("{} cases of other implementations", cases.len()));
    });
}
