//! The count of unmet conditions, and reassignments of lots, through the package's types.
use lihumbay::{
    Evaluation, Grouping, MOST_CONDITIONS, MOST_LOTS, MOST_TERMS, Refusal, Running, Sheet, SheetBuilder, Subject, Term, Verdict, raw,
};

fn sheet(text: &str) -> Vec<u8> {
    text.parse::<Sheet>().expect("a test's sheet is well written").to_bytes()
}

fn running(text: &str, grouping: &[u8]) -> Running {
    Running::new(sheet(text), grouping).expect("sheet and grouping are accepted")
}

fn place<T>(answer: Result<T, Refusal>) -> Result<T, (u32, u32)> {
    answer.map_err(|refusal| (refusal.check.number(), refusal.place))
}

const A: &str = "same 1 2\nsame 2 3\napart 1 3";
const C: &str = "same 1 2 | same 1 3\napart 1 2";
/// Conditions over lot 0, and one that is withdrawn.
const Z: &str = "same 0 1\nsame 1 2 | same 3 0\nwithdrawn\napart 2 0\napart 0 0";

#[test]
fn unmet_conditions_are_counted() {
    let count = |text: &str, grouping: &[u8]| lihumbay::count_unmet(&sheet(text), grouping);
    assert_eq!((count(A, &[7, 7, 7]), count(A, &[7, 7, 8]), count(A, &[7, 8, 7])), (Ok(1), Ok(1), Ok(3)));
    assert_eq!((count(C, &[7, 8, 7]), count(C, &[7, 8, 9]), count(C, &[7, 7, 7])), (Ok(0), Ok(1), Ok(1)));
    assert_eq!(count("", &[]), Ok(0));
    assert_eq!(count("withdrawn\nwithdrawn", &[]), Ok(0));
    // Lot 0 has the number 0 whatever the bytes are, and "apart 0 0" is never met.
    assert_eq!((count(Z, &[0, 2, 0]), count(Z, &[7, 2, 7]), count(Z, &[7, 0, 7])), (Ok(1), Ok(3), Ok(4)));
    // The same condition twice is two conditions, and what stands past the lots is not looked at.
    assert_eq!(count("apart 1 1\napart 1 1", &[5, 6, 6]), Ok(2));
}

#[test]
fn the_count_is_0_exactly_where_the_evaluator_says_that_all_is_met() {
    for number in 0..27 {
        let grouping = [number / 9, number / 3 % 3, number % 3];
        let all_met = lihumbay::evaluate(&sheet(C), &grouping) == Ok(Evaluation::AllMet);
        assert_eq!(lihumbay::count_unmet(&sheet(C), &grouping) == Ok(0), all_met, "{grouping:?}");
        let running = running(C, &grouping);
        assert_eq!((running.all_met(), running.evaluate() == Evaluation::AllMet), (all_met, all_met));
    }
}

#[test]
fn the_count_goes_along_with_the_lots() {
    let mut running = running(A, &[7, 8, 9]);
    assert_eq!(running.count(), 2);
    let moves = [(2, 7, 1), (3, 7, 1), (3, 9, 1), (1, 9, 3), (1, 9, 3), (2, 9, 1), (1, 0, 1)];
    for (lot, value, count) in moves {
        assert_eq!(running.reassign(lot, value), Ok(count), "lot {lot} to {value}");
        assert_eq!(lihumbay::count_unmet(running.sheet(), running.grouping().as_bytes()), Ok(count));
    }
    assert_eq!((running.grouping().as_bytes(), running.evaluate()), ([0, 9, 9].as_slice(), Evaluation::Unmet(1)));
    assert_eq!(running.grouping().groups(), [vec![0, 1], vec![2, 3]]);
    assert_eq!(running.into_parts(), (sheet(A), Grouping::from(vec![0, 9, 9])));
}

#[test]
fn a_condition_counts_once_however_often_it_names_the_lot() {
    let mut running = running("apart 1 1 | same 1 2 | same 2 1\nsame 3 1 | same 1 3\nsame 2 3", &[1, 2, 3]);
    assert_eq!(running.count(), 3);
    assert_eq!(running.reassign(1, 2), Ok(2));
    assert_eq!(running.reassign(1, 3), Ok(2));
    assert_eq!(running.reassign(1, 4), Ok(3));
    assert_eq!(running.reassign(3, 2), Ok(2));
}

#[test]
fn lots_can_join_lot_0_and_leave_it() {
    let mut running = running(Z, &[7, 0, 7]);
    assert_eq!((running.count(), running.reassign(1, 0), running.reassign(2, 9)), (4, Ok(2), Ok(2)));
    assert_eq!((running.reassign(3, 0), running.reassign(2, 0), running.reassign(1, 1)), (Ok(1), Ok(2), Ok(3)));
    assert_eq!(running.evaluate(), Evaluation::Unmet(1));
}

#[test]
fn lot_0_and_lots_that_the_sheet_does_not_have_are_refused() {
    let mut running = running(Z, &[7, 0, 7]);
    let before = running.clone();
    for lot in [0, 4, 255, 256, 257, 259, 65_537, u32::MAX] {
        assert_eq!(place(running.reassign(lot, 1)), Err((21, lot)));
        assert_eq!(running, before);
    }
    assert_eq!(running.reassign(0, 0).unwrap_err().check.subject(), Some(Subject::Lot));
    let mut nothing = self::running("lots 0\napart 0 0", &[]);
    assert_eq!((nothing.count(), place(nothing.reassign(1, 0))), (1, Err((21, 1))));
}

#[test]
fn what_is_not_accepted_is_not_counted() {
    let bytes = sheet(C);
    let refused = |sheet: &[u8], grouping: &[u8]| {
        let counted = place(lihumbay::count_unmet(sheet, grouping));
        assert_eq!(place(Running::new(sheet, grouping).map(|running| running.count())), counted);
        assert_eq!(place(lihumbay::evaluate(sheet, grouping)).map(|_| 0), counted);
        counted.unwrap_err()
    };
    assert_eq!(refused(&bytes[..5], &[]), (1, 0));
    assert_eq!(refused(&bytes[..33], &[1, 2, 3]), (3, 0));
    assert_eq!(refused(&bytes, &[1, 2]), (8, 3));
    assert_eq!(refused(&bytes, &[]), (8, 3));
}

#[test]
fn a_grouping_may_be_a_verdicts_or_longer_than_the_lots() {
    let Ok(Verdict::Met { grouping, .. }) = lihumbay::search(&sheet(C)) else { panic!("the sheet can be met") };
    assert_eq!(Running::new(sheet(C), grouping.clone()).map(Running::into_parts), Ok((sheet(C), grouping)));
    let mut longer = running(C, &[7, 7, 7, 1, 2]);
    assert_eq!((longer.grouping().lots(), place(longer.reassign(4, 7))), (3, Err((21, 4))));
}

/// All limits reached: each condition names lot 1 in four terms, and is met where lot 1 has lot 128's number.
#[test]
fn the_largest_sheet_is_counted() {
    let mut builder = SheetBuilder::new(MOST_LOTS as u16).unwrap();
    for _ in 0..MOST_CONDITIONS {
        builder.condition([Term::Same(1, 128), Term::Apart(1, 1), Term::Same(128, 1), Term::Same(1, 128)]).unwrap();
    }
    let largest = builder.finish();
    assert_eq!(largest.term_count(), MOST_TERMS);
    let mut running = Running::new(largest.to_bytes(), vec![0; MOST_LOTS]).unwrap();
    assert_eq!((running.count(), running.reassign(128, 255), running.reassign(2, 9)), (0, Ok(256), Ok(256)));
    assert_eq!(running.reassign(1, 255), Ok(0));
}

/// The numbers that are answered, and the bytes of the grouping afterwards.
fn reassigned(text: &str, grouping: &[u8], count: u32, lot: u32, value: u8) -> ([u32; 4], Vec<u8>) {
    let mut bytes = grouping.to_vec();
    let numbers = raw::reassign(&sheet(text), &mut bytes, count, lot, value);
    ([numbers.check, numbers.first, numbers.second, numbers.third], bytes)
}

#[test]
fn one_byte_is_written_and_on_a_refusal_none() {
    assert_eq!(reassigned(C, &[7, 7, 7, 5, 6], 1, 2, 8), ([0, 0, 0, 0], vec![7, 8, 7, 5, 6]));
    assert_eq!(reassigned(C, &[7, 7, 7], 1, 3, 7), ([0, 1, 0, 0], vec![7, 7, 7]));
    assert_eq!(reassigned(C, &[7, 7, 7, 5], 1, 4, 8), ([21, 4, 0, 0], vec![7, 7, 7, 5]));
    assert_eq!(reassigned(C, &[7, 7, 7], 0, 2, 8), ([22, 0, 0, 0], vec![7, 7, 7]));
    assert_eq!(reassigned(C, &[7, 7], 0, 0, 8), ([8, 3, 0, 0], vec![7, 7]));
    // The lot is looked at before the count.
    assert_eq!(reassigned(C, &[7, 7, 7], 3, 0, 8), ([21, 0, 0, 0], vec![7, 7, 7]));
}

#[test]
fn a_wrong_count_is_refused_or_gives_what_the_equation_gives() {
    // Of two conditions, the one that names lot 2 and is unmet may not be missing from the count.
    let counted = |count| reassigned(C, &[7, 7, 7], count, 2, 8).0;
    assert_eq!((counted(0), counted(1), counted(2)), ([22, 0, 0, 0], [0, 0, 0, 0], [0, 1, 0, 0]));
    assert_eq!((counted(3), counted(257), counted(u32::MAX)), ([22, 3, 0, 0], [22, 257, 0, 0], [22, u32::MAX, 0, 0]));
    // No unmet condition names lot 3 before, so that 0 is admitted, and 2 may come to be more than there are.
    assert_eq!(reassigned(C, &[7, 8, 7], 0, 3, 9).0, [0, 1, 0, 0]);
    assert_eq!(reassigned(C, &[7, 8, 7], 2, 3, 9).0, [0, 3, 0, 0]);
    assert_eq!(reassigned("withdrawn", &[], 1, 1, 9).0, [21, 1, 0, 0]);
    assert_eq!(reassigned("lots 1\nwithdrawn", &[1], 1, 1, 9).0, [0, 1, 0, 0]);
}
