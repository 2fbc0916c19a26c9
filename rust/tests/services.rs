//! The services through the package's types, on the sheets of document 01 and on sheets that name lot 0.
use lihumbay::{
    Evaluation, MOST_CONDITIONS, MOST_RECORDS, MOST_TERMS, MergeRefusal, RECORD_LENGTH, Record, RecordList, SEARCH_STACK, Sheet,
    SheetBuilder, Subject, Term, Verdict,
};

fn sheet(text: &str) -> Vec<u8> {
    text.parse::<Sheet>().expect("a test's sheet is well written").to_bytes()
}

const A: &str = "same 1 2\nsame 2 3\napart 1 3";
const B: &str = "same 1 2 | apart 2 3\nsame 1 3 | apart 1 2 | same 2 3\napart 1 3";
const C: &str = "same 1 2 | same 1 3\napart 1 2";
const D: &str = "apart 1 2 | apart 2 3 | apart 3 1\nsame 1 2 | same 2 3\nsame 1 2 | same 3 1\nsame 2 3 | same 3 1";

/// A search's records as the printing program has them, and how it ends.
fn searched(text: &str) -> String {
    let verdict = lihumbay::search(&sheet(text)).expect("a test's sheet is accepted");
    let (list, end) = match &verdict {
        Verdict::Met { grouping, records } => (records, format!("met {:?}", grouping.as_bytes())),
        Verdict::Cannot { refutation } => (refutation, "cannot".to_string()),
        Verdict::Full { .. } => panic!("{text}: full"),
    };
    let records = list.records().map(|read| match read.expect("a search writes records").1 {
        Record::Split { a, b, next } => format!("split {a} {b} {next}, "),
        Record::Ground { condition } => format!("ground {condition}, "),
        _ => String::new(),
    });
    format!("{}{end} of {}", records.collect::<String>(), list.count())
}

#[test]
fn the_starred_sheets() {
    assert_eq!(searched(A), "split 1 2 5, split 2 3 4, ground 3, ground 2, ground 1, cannot of 5");
    assert_eq!(searched(B), "met [1, 2, 3] of 1");
    assert_eq!(searched(C), "split 1 2 3, ground 2, split 1 3 0, met [1, 2, 1] of 4");
    assert_eq!(searched(D), "split 1 2 5, split 2 3 4, ground 1, ground 4, split 2 3 7, ground 3, ground 2, cannot of 7");
    assert_eq!(searched(""), "met [] of 1");
    // The zero head, as document 02 has it.
    assert_eq!(searched("withdrawn"), "met [] of 1");
    assert_eq!(searched("same 1 1"), "met [1] of 1");
    assert_eq!(searched("apart 1 1"), "ground 1, cannot of 1");
}

#[test]
fn sheet_c_has_the_bytes_of_document_01() {
    assert_eq!(sheet(C), include_bytes!("../../samples/c.sheet"));
}

#[test]
fn a_full_store_is_a_verdict_of_its_own() {
    assert_eq!(lihumbay::search_within(&sheet(C), 3), Ok(Verdict::Full { capacity: 3 }));
    assert_eq!(lihumbay::search_within(&sheet(""), 0), Ok(Verdict::Full { capacity: 0 }));
    assert!(matches!(lihumbay::search_within(&sheet(C), 4), Ok(Verdict::Met { .. })));
    // More than the most is taken for the most: nothing of that size is allocated.
    assert!(matches!(lihumbay::search_within(&sheet(C), usize::MAX), Ok(Verdict::Met { .. })));
}

#[test]
fn lent_buffers_are_written_only_where_the_verdict_says() {
    let (mut grouping, mut store) = ([9; 5], [9; 6 * RECORD_LENGTH]);
    let met = lihumbay::search_into(&sheet(C), &mut grouping, &mut store).unwrap();
    assert!(matches!(met, Verdict::Met { grouping, records } if grouping.as_bytes() == [1, 2, 1] && records.count() == 4));
    assert_eq!((&grouping[3..], &store[4 * RECORD_LENGTH..]), ([9; 2].as_slice(), [9; 2 * RECORD_LENGTH].as_slice()));

    let (mut grouping, mut store) = ([9; 3], [9; 3 * RECORD_LENGTH + 1]);
    let full = lihumbay::search_into(&sheet(C), &mut grouping, &mut store).unwrap();
    assert_eq!(full, Verdict::Full { capacity: 3 });
    assert_eq!(grouping, [9; 3]);
    assert!(store[..3 * RECORD_LENGTH].iter().all(|&byte| byte == 0) && store[3 * RECORD_LENGTH] == 9);
}

#[test]
fn a_lent_grouping_too_short_is_refused() {
    let refusal = lihumbay::search_into(&sheet(A), &mut [0; 2], &mut [0; 80]).unwrap_err();
    assert_eq!((refusal.check.number(), refusal.place), (8, 3));
}

/// The splits of the longest path. A sheet of "same" terms alone is met with all lots together, so one term is another.
const DEEPEST: usize = MOST_TERMS - 1;

/// A sheet with the longest path, a split for each "same" term: one condition of such terms, and one that nothing meets.
fn deepest() -> Vec<u8> {
    let mut builder = SheetBuilder::new(128).unwrap();
    let pairs = (1..=128).flat_map(|a| (a + 1..=128).map(move |b| Term::Same(a, b)));
    builder.condition(pairs.take(DEEPEST)).unwrap().condition([Term::Apart(1, 1)]).unwrap();
    builder.finish().to_bytes()
}

#[test]
fn a_deep_search_runs_from_a_thread_with_a_small_stack() {
    let verdict = std::thread::Builder::new().stack_size(64 << 10).spawn(|| lihumbay::search(&deepest())).unwrap().join().unwrap().unwrap();
    let Verdict::Cannot { refutation } = verdict else { panic!("nothing meets the sheet") };
    assert_eq!(refutation.walk().map(|step| step.unwrap().depth).max(), Some(DEEPEST));
    assert_eq!(lihumbay::check(&deepest(), refutation.as_bytes()), Ok(()));
}

#[test]
fn lent_buffers_need_the_stack_that_is_said() {
    let search = || {
        lihumbay::search_into(&deepest(), &mut [0; 128], &mut vec![0; 3000 * RECORD_LENGTH])
            .map(|verdict| matches!(verdict, Verdict::Cannot { .. }))
    };
    let ended = std::thread::Builder::new().stack_size(SEARCH_STACK).spawn(search).unwrap().join().unwrap();
    assert_eq!(ended, Ok(true));
}

#[test]
fn refusals_of_a_sheet_have_their_numbers_and_places() {
    let refused = |bytes: &[u8]| lihumbay::read(bytes).map_err(|refusal| (refusal.check.number(), refusal.place)).unwrap_err();
    let changed = |at: usize, to: u8| {
        let mut bytes = sheet(C);
        bytes[at] = to;
        bytes
    };
    assert_eq!(refused(&[0; 5]), (1, 0));
    assert_eq!(refused(&changed(0, 129)), (2, 1));
    assert_eq!(refused(&changed(3, 2)), (2, 2));
    assert_eq!(refused(&changed(5, 5)), (2, 3));
    assert_eq!(refused(&sheet(C)[..33]), (3, 0));
    assert_eq!(refused(&changed(8, 4)), (4, 2));
    assert_eq!(refused(&changed(10, 3)), (5, 1));
    assert_eq!(refused(&changed(16, 1)), (6, 1));
    assert_eq!(refused(&changed(8, 0)), (7, 3));
    let mut blanked = sheet(C);
    blanked[18..26].fill(0);
    assert_eq!(refused(&blanked), (17, 2));
    blanked[25] = 1;
    assert_eq!(refused(&blanked), (5, 2));
}

#[test]
fn refusals_of_a_list_have_their_numbers_and_places() {
    let list_of = |records: &[Record]| records.iter().flat_map(|record| record.to_bytes().unwrap()).collect::<Vec<u8>>();
    let refused = |list: &[u8]| lihumbay::check(&sheet(A), list).map_err(|refusal| (refusal.check.number(), refusal.place));
    let split = |a, b, next| Record::Split { a, b, next };
    let ground = |condition| Record::Ground { condition };
    let right = [split(1, 2, 5), split(2, 3, 4), ground(3), ground(2), ground(1)];
    assert_eq!(refused(&list_of(&right)), Ok(()));
    assert_eq!(refused(&[]), Err((10, 0)));
    assert_eq!(refused(&vec![0; (MOST_RECORDS + 1) * RECORD_LENGTH]), Err((10, 0)));
    assert_eq!(refused(&list_of(&[split(1, 4, 3)])), Err((11, 1)));
    assert_eq!(refused(&list_of(&[ground(1)])), Err((12, 1)));
    assert_eq!(refused(&list_of(&[split(1, 2, 4), right[1], right[2], right[3], right[4]])), Err((13, 1)));
    assert_eq!(refused(&list_of(&right[..4])), Err((14, 5)));
    assert_eq!(refused(&list_of(&[split(1, 2, 0); 1025])), Err((15, 1025)));
    // A ground on a condition that is withdrawn, whatever the splits above it.
    let without = lihumbay::withdraw(&sheet(A), 2).unwrap();
    let refusal = lihumbay::check(&without, &list_of(&right)).unwrap_err();
    assert_eq!((refusal.check.number(), refusal.place), (12, 4));
}

#[test]
fn the_evaluator_names_the_lowest_condition() {
    assert_eq!(lihumbay::evaluate(&sheet(C), &[1, 2, 1, 77]), Ok(Evaluation::AllMet));
    assert_eq!(lihumbay::evaluate(&sheet(C), &[1, 2, 3]), Ok(Evaluation::Unmet(1)));
    assert_eq!(lihumbay::evaluate(&sheet("withdrawn"), &[]), Ok(Evaluation::AllMet));
    assert_eq!(lihumbay::evaluate(&sheet("withdrawn\nwithdrawn\napart 1 1"), &[7]), Ok(Evaluation::Unmet(3)));
    assert_eq!(lihumbay::evaluate(&sheet(C), &[1, 2]).unwrap_err().place, 3);
}

/// Sheet C with its records in another order.
const C_IN_ANOTHER_ORDER: &[u8] = include_bytes!("../../samples/c-in-another-order.sheet");

#[test]
fn repacking_puts_the_records_in_order() {
    assert_eq!(lihumbay::repack(C_IN_ANOTHER_ORDER), Ok(sheet(C)));
    assert_eq!(lihumbay::repack(&sheet(C)), Ok(sheet(C)));
    assert_eq!(lihumbay::repack(&sheet("")), Ok(vec![0; 6]));
    assert_eq!(lihumbay::repack(&deepest()), Ok(deepest()));
    assert_ne!(lihumbay::repack(&sheet("lots 4\nsame 1 2 | same 1 3\napart 1 2")), Ok(sheet(C)));
}

#[test]
fn a_lent_output_is_written_only_as_far_as_the_packed_sheet_goes() {
    let mut out = [9; 36];
    assert_eq!(lihumbay::repack_into(C_IN_ANOTHER_ORDER, &mut out), Ok(34));
    assert_eq!((&out[..34], &out[34..]), (sheet(C).as_slice(), [9; 2].as_slice()));
    let mut short = [9; 33];
    let refusal = lihumbay::repack_into(C_IN_ANOTHER_ORDER, &mut short).unwrap_err();
    assert_eq!((refusal.check.number(), refusal.place, short), (16, 34, [9; 33]));
    assert_eq!(refusal.check.subject(), Some(Subject::Output));
}

#[test]
fn a_refused_sheet_is_not_repacked() {
    let number = |sheet: &[u8]| lihumbay::repack(sheet).map_err(|refusal| refusal.check.number());
    assert_eq!(number(&[]), Err(1));
    assert_eq!(number(&C_IN_ANOTHER_ORDER[..33]), Err(3));
    // Longer than any sheet: the output that is made for it is not.
    assert_eq!(number(&[C_IN_ANOTHER_ORDER, &[0; 20_000]].concat()), Err(3));
    assert_eq!(lihumbay::repack_into(&[], &mut []).unwrap_err().check.number(), 1);
}

#[test]
fn a_withdrawn_condition_asks_nothing_and_the_others_keep_their_numbers() {
    let without = lihumbay::withdraw(&sheet(A), 1).unwrap();
    assert_eq!(lihumbay::read(&without), lihumbay::read(&sheet(A)));
    assert_eq!(lihumbay::evaluate(&without, &[1, 2, 2]), Ok(Evaluation::AllMet));
    assert_eq!(lihumbay::evaluate(&without, &[1, 2, 1]), Ok(Evaluation::Unmet(2)));
    assert_eq!(lihumbay::evaluate(&without, &[1, 1, 1]), Ok(Evaluation::Unmet(3)));
    assert!(matches!(lihumbay::search(&without), Ok(Verdict::Met { grouping, .. }) if grouping.as_bytes() == [1, 2, 2]));
    let read = Sheet::from_bytes(&without).unwrap();
    assert_eq!(read.to_string(), "lots 3\nwithdrawn\nsame 2 3\napart 1 3\n");
    assert!(read.conditions()[0].is_withdrawn());
}

#[test]
fn packing_drops_the_vacant_records() {
    let without = lihumbay::withdraw(C_IN_ANOTHER_ORDER, 1).unwrap();
    let packed = sheet("lots 3\nwithdrawn\napart 1 2");
    assert_eq!((without.len(), packed.len()), (34, 18));
    assert_eq!(lihumbay::repack(&without), Ok(packed.clone()));
    let mut out = [9; 18];
    assert_eq!(lihumbay::repack_into(&without, &mut out), Ok(18));
    assert_eq!(out, packed.as_slice());
    let refusal = lihumbay::repack_into(&without, &mut out[..17]).unwrap_err();
    assert_eq!((refusal.check.number(), refusal.place), (16, 18));
    assert_eq!((lihumbay::read(&without).unwrap().records, lihumbay::read(&packed).unwrap().records), (3, 1));
}

/// Lots 1 to 4; its first condition is sheet C's second.
const E: &[u8] = include_bytes!("../../samples/e.sheet");
const C_AND_E: &[u8] = include_bytes!("../../samples/c-and-e.sheet");

#[test]
fn merging_leaves_out_what_repeats_an_earlier_condition() {
    assert_eq!(lihumbay::merge(&sheet(C), E), Ok(C_AND_E.to_vec()));
    assert_eq!(lihumbay::merge(C_IN_ANOTHER_ORDER, E), Ok(C_AND_E.to_vec()));
    assert_eq!(C_AND_E, sheet("lots 4\nsame 1 2 | same 1 3\napart 1 2\nsame 1 3 | same 1 2\nsame 3 4"));
    assert_eq!(lihumbay::merge(E, &sheet(C)), Ok(sheet("apart 1 2\nsame 1 3 | same 1 2\nsame 3 4\nsame 1 2 | same 1 3")));
    assert_eq!(lihumbay::merge(C_IN_ANOTHER_ORDER, C_IN_ANOTHER_ORDER), Ok(sheet(C)));
    assert_eq!(lihumbay::merge(&sheet("same 1 1\nsame 1 1"), &sheet("lots 0")), Ok(sheet("same 1 1")));
    assert_eq!(lihumbay::merge(&sheet("lots 0"), &sheet("lots 7")), Ok(sheet("lots 7")));
}

#[test]
fn a_withdrawn_condition_is_never_left_out_of_a_merge() {
    let merged = |first: &[u8], second: &[u8]| Sheet::from_bytes(&lihumbay::merge(first, second).unwrap()).unwrap().to_string();
    let without = lihumbay::withdraw(C_IN_ANOTHER_ORDER, 1).unwrap();
    assert_eq!(lihumbay::merge(&without, &without), Ok(sheet("lots 3\nwithdrawn\napart 1 2\nwithdrawn")));
    let [front, back] = [sheet("same 1 1\nwithdrawn"), sheet("withdrawn\napart 1 1")];
    assert_eq!(merged(&front, &back), "lots 1\nsame 1 1\nwithdrawn\nwithdrawn\napart 1 1\n");
    // Within a sheet too, and where there is nothing else.
    let between = sheet("withdrawn\nsame 1 1\nwithdrawn\nsame 1 1\nwithdrawn");
    assert_eq!(merged(&between, &sheet("")), "lots 1\nwithdrawn\nsame 1 1\nwithdrawn\nwithdrawn\n");
    assert_eq!(merged(&sheet("withdrawn\nwithdrawn"), &sheet("withdrawn")), "lots 0\nwithdrawn\nwithdrawn\nwithdrawn\n");
    // Each merge with a sheet adds its withdrawn conditions once more.
    let again = lihumbay::merge(&without, &without).unwrap();
    assert_eq!(merged(&again, &without), "lots 3\nwithdrawn\napart 1 2\nwithdrawn\nwithdrawn\n");
    assert_eq!(merged(&without, &again), "lots 3\nwithdrawn\napart 1 2\nwithdrawn\nwithdrawn\n");
    assert_eq!(merged(&sheet(C), &without), "lots 3\nsame 1 2 | same 1 3\napart 1 2\nwithdrawn\n");
}

#[test]
fn a_lent_output_is_written_only_as_far_as_the_merged_sheet_goes() {
    let mut out = [9; 64];
    assert_eq!(lihumbay::merge_into(&sheet(C), E, &mut out), Ok(62));
    assert_eq!((&out[..62], &out[62..]), (C_AND_E, [9; 2].as_slice()));
    let mut short = [9; 61];
    let refused = lihumbay::merge_into(&sheet(C), E, &mut short).unwrap_err();
    assert!(matches!(refused, MergeRefusal::Merged(_)));
    assert_eq!((refused.refusal().check.number(), refused.refusal().place, short), (19, 62, [9; 61]));
    assert_eq!(refused.refusal().check.subject(), Some(Subject::Output));
    // The head of each withdrawn condition takes its two bytes.
    let mut out = [9; 11];
    assert_eq!(lihumbay::merge_into(&sheet("withdrawn"), &sheet("withdrawn"), &mut out), Ok(10));
    assert_eq!(out, [0, 0, 2, 0, 0, 0, 0, 0, 0, 0, 9]);
    let refused = lihumbay::merge_into(&sheet("withdrawn"), &sheet("withdrawn"), &mut out[..9]).unwrap_err().refusal();
    assert_eq!((refused.check.number(), refused.place), (19, 10));
}

#[test]
fn a_refused_merge_says_which_sheet() {
    let refusal = |sheet: &[u8]| lihumbay::read(sheet).unwrap_err();
    let (cut, empty) = (&C_IN_ANOTHER_ORDER[..33], [].as_slice());
    assert_eq!(lihumbay::merge(cut, E), Err(MergeRefusal::First(refusal(cut))));
    assert_eq!(lihumbay::merge(E, cut), Err(MergeRefusal::Second(refusal(cut))));
    assert_eq!(lihumbay::merge(cut, empty), Err(MergeRefusal::First(refusal(cut))));
    assert_eq!(lihumbay::merge(empty, cut), Err(MergeRefusal::First(refusal(empty))));
    // Longer than any sheet: the output that is made for it is not.
    let long = [C_IN_ANOTHER_ORDER, &[0; 20_000]].concat();
    assert_eq!(lihumbay::merge(E, &long), Err(MergeRefusal::Second(refusal(&long))));
}

/// As many different conditions of one term as a sheet can have.
fn most_conditions() -> Vec<u8> {
    let mut builder = SheetBuilder::new(128).unwrap();
    let terms = (1..=128).flat_map(|lot| [Term::Same(1, lot), Term::Apart(1, lot)]);
    for term in terms.take(MOST_CONDITIONS) {
        builder.condition([term]).unwrap();
    }
    builder.finish().to_bytes()
}

/// The refusal of two sheets that are too large together.
fn over(first: &[u8], second: &[u8]) -> (u32, u32, Option<Subject>) {
    match lihumbay::merge(first, second) {
        Err(MergeRefusal::Merged(refusal)) => (refusal.check.number(), refusal.place, refusal.check.subject()),
        other => panic!("{other:?}"),
    }
}

#[test]
fn the_merged_sheet_has_the_limits_of_a_sheet() {
    // `deepest` has as many terms as a sheet can have, the last of them in its condition "apart 1 1".
    assert_eq!(over(&most_conditions(), &sheet(C)), (18, 2, Some(Subject::Merged)));
    assert_eq!(over(&sheet(C), &deepest()), (18, 3, Some(Subject::Merged)));
    assert_eq!(over(&most_conditions(), &deepest()), (18, 2, Some(Subject::Merged)));
    assert_eq!(lihumbay::merge(&most_conditions(), &most_conditions()), Ok(most_conditions()));
    assert_eq!(lihumbay::merge(&deepest(), &deepest()), Ok(deepest()));
    assert_eq!(lihumbay::merge(&deepest(), &sheet("apart 1 1")), Ok(deepest()));
}

#[test]
fn withdrawn_conditions_of_both_sheets_count_in_the_merged_one() {
    let withdrawn = |count: usize| sheet(&"withdrawn\n".repeat(count));
    let too_many = (18, 2, Some(Subject::Merged));
    assert_eq!(lihumbay::merge(&withdrawn(128), &withdrawn(128)), Ok(withdrawn(256)));
    assert_eq!(lihumbay::merge(&withdrawn(256), &withdrawn(0)), Ok(withdrawn(256)));
    assert_eq!(over(&withdrawn(129), &withdrawn(128)), too_many);
    assert_eq!(over(&withdrawn(1), &withdrawn(256)), too_many);
    assert_eq!(over(&withdrawn(256), &withdrawn(256)), too_many);
    // 255 conditions with terms that both sheets have, and one that is withdrawn: with itself the sheet passes the limit.
    let without = lihumbay::withdraw(&most_conditions(), 256).unwrap();
    assert_eq!(over(&without, &without), too_many);
    assert_eq!(lihumbay::merge(&without, &withdrawn(0)).unwrap(), lihumbay::repack(&without).unwrap());
    // Conditions are counted before terms. `deepest` has two conditions, and with one term more is above the most.
    assert!(lihumbay::merge(&withdrawn(254), &deepest()).is_ok());
    assert_eq!(over(&withdrawn(255), &deepest()), too_many);
    let and_a_term = |count: usize| sheet(&("withdrawn\n".repeat(count) + "same 1 1"));
    assert_eq!(over(&and_a_term(253), &deepest()), (18, 3, Some(Subject::Merged)));
    assert_eq!(over(&and_a_term(254), &deepest()), too_many);
}

/// Lot 0 in either field of a term, and in a class that grows.
const Z: &str = include_str!("../../samples/zero.txt");
/// Nothing meets this, since lot 0 has one number.
const ZERO_CANNOT: &str = "same 0 1\nsame 2 0\napart 1 2";

#[test]
fn lot_0_has_its_number_in_both_fields_of_a_term() {
    let terms = [
        [1, 0, 0, 0, 1, 0, 0, 0], // same 0 1
        [1, 0, 1, 0, 2, 0, 3, 0], // same 1 2, goes on at record 3
        [1, 0, 3, 0, 0, 0, 0, 0], // same 3 0
        [2, 0, 2, 0, 0, 0, 0, 0], // apart 2 0
    ];
    assert_eq!(sheet(Z), [[3, 0, 3, 0, 4, 0, 1, 0, 2, 0, 4, 0].as_slice(), &terms.concat()].concat());
    assert_eq!(sheet("same 0 0"), [0, 0, 1, 0, 1, 0, 1, 0, 1, 0, 0, 0, 0, 0, 0, 0]);
    assert_eq!(Sheet::from_bytes(&sheet(Z)).map(|read| read.to_bytes()), Ok(sheet(Z)));
}

#[test]
fn a_search_splits_on_lot_0_as_it_is_written() {
    assert_eq!(searched(Z), "split 0 1 0, split 1 2 4, ground 3, split 3 0 0, met [0, 2, 0] of 5");
    assert_eq!(searched(ZERO_CANNOT), "split 0 1 5, split 2 0 4, ground 3, ground 2, ground 1, cannot of 5");
    assert_eq!(searched("same 0 0"), "met [] of 1");
    assert_eq!(searched("apart 0 0"), "ground 1, cannot of 1");
    // An open "apart" term takes no decision, so lots 1 and 2 have the numbers that they have by themselves.
    assert_eq!(searched("apart 0 1 | same 1 2"), "met [1, 2] of 1");
    // Lots 3 and 2 are joined first, and then with lot 0: all three have the smallest lot, which is 0.
    assert_eq!(searched("same 3 2\nsame 2 0"), "split 3 2 0, split 2 0 0, met [1, 0, 0] of 3");
}

#[test]
fn the_group_of_lot_0_is_told_from_the_others() {
    let Ok(Verdict::Met { grouping, .. }) = lihumbay::search(&sheet(Z)) else { panic!("the sheet can be met") };
    assert_eq!(grouping.groups(), [vec![0, 1, 3], vec![2]]);
    assert_eq!((grouping.with_zero_lot(), grouping.lots(), grouping.class_of(0)), (vec![1, 3], 3, Some(0)));
    let Ok(Verdict::Met { grouping, .. }) = lihumbay::search(&sheet("apart 0 1")) else { panic!("the sheet can be met") };
    assert_eq!((grouping.groups(), grouping.with_zero_lot()), (vec![vec![1]], vec![]));
}

#[test]
fn the_evaluator_gives_lot_0_the_number_0_whatever_the_grouping() {
    let evaluated = |grouping: &[u8]| lihumbay::evaluate(&sheet(Z), grouping);
    assert_eq!(evaluated(&[0, 2, 0]), Ok(Evaluation::AllMet));
    assert_eq!(evaluated(&[0, 255, 0, 7]), Ok(Evaluation::AllMet));
    assert_eq!(evaluated(&[7, 2, 7]), Ok(Evaluation::Unmet(1)));
    assert_eq!(evaluated(&[0, 7, 7]), Ok(Evaluation::Unmet(2)));
    assert_eq!(evaluated(&[0, 0, 7]), Ok(Evaluation::Unmet(3)));
    assert_eq!(evaluated(&[0, 2]).map_err(|refusal| (refusal.check.number(), refusal.place)), Err((8, 3)));
    assert_eq!(lihumbay::evaluate(&sheet("same 0 0"), &[]), Ok(Evaluation::AllMet));
    assert_eq!(lihumbay::evaluate(&sheet("same 0 0\napart 0 0"), &[7]), Ok(Evaluation::Unmet(2)));
}

#[test]
fn a_list_may_split_on_lot_0_and_a_ground_names_no_condition_0() {
    let checked = |text: &str, records: &[Record]| {
        let list: Vec<u8> = records.iter().flat_map(|record| record.to_bytes().unwrap()).collect();
        lihumbay::check(&sheet(text), &list).map_err(|refusal| (refusal.check.number(), refusal.place))
    };
    let split = |a, b, next| Record::Split { a, b, next };
    let ground = |condition| Record::Ground { condition };
    let rest = [split(2, 0, 4), ground(3), ground(2), ground(1)];
    let behind = |first: Record| [[first].as_slice(), &rest].concat();
    assert_eq!(checked(ZERO_CANNOT, &behind(split(0, 1, 5))), Ok(()));
    assert_eq!(checked(ZERO_CANNOT, &behind(split(1, 0, 5))), Ok(()));
    assert_eq!(checked(ZERO_CANNOT, &behind(split(0, 0, 5))), Err((12, 3)));
    assert_eq!(checked(ZERO_CANNOT, &behind(split(3, 0, 5))), Err((11, 1)));
    assert_eq!(checked(ZERO_CANNOT, &behind(split(0, 3, 5))), Err((11, 1)));
    assert_eq!(checked(ZERO_CANNOT, &[ground(0)]), Err((11, 1)));
    // Also where no term names lot 0, and where there is no other lot.
    assert_eq!(checked("apart 1 1", &[split(0, 1, 3), ground(1), ground(1)]), Ok(()));
    assert_eq!(checked("apart 0 0", &[split(0, 0, 3), ground(1), ground(1)]), Ok(()));
    assert_eq!(checked("apart 0 0", &[split(0, 1, 3), ground(1), ground(1)]), Err((11, 1)));
}

#[test]
fn lot_0_is_packed_withdrawn_and_merged_as_any_other() {
    let without = lihumbay::withdraw(&sheet(Z), 1).unwrap();
    assert_eq!(without[12..20], [0; 8]);
    assert_eq!(lihumbay::repack(&without), Ok(sheet("lots 3\nwithdrawn\nsame 1 2 | same 3 0\napart 2 0")));
    let merged = lihumbay::merge(&sheet("same 0 0"), &sheet("same 0 1\nsame 0 0\nsame 1 0"));
    assert_eq!(merged, Ok(sheet("same 0 0\nsame 0 1\nsame 1 0")));
    assert_eq!(lihumbay::merge(&sheet(Z), &sheet(Z)), Ok(sheet(Z)));
}

#[test]
fn a_record_of_same_0_0_is_a_term_and_one_of_zeros_is_vacant() {
    let read = |changes: &[(usize, u8)]| {
        let mut bytes = sheet("same 0 0");
        changes.iter().for_each(|&(at, to)| bytes[at] = to);
        lihumbay::read(&bytes).map(|reading| reading.records).map_err(|refusal| (refusal.check.number(), refusal.place))
    };
    assert_eq!(read(&[]), Ok(1));
    assert_eq!(read(&[(6, 0)]), Err((7, 1)));
    assert_eq!(read(&[(8, 0)]), Err((17, 1)));
    assert_eq!(read(&[(6, 0), (8, 0)]), Ok(1));
    assert_eq!(read(&[(8, 0), (10, 1)]), Err((5, 1)));
    assert_eq!(read(&[(10, 1)]), Err((5, 1)));
    assert_eq!(read(&[(12, 1)]), Err((5, 1)));
}

#[test]
fn any_bytes_can_be_walked() {
    let odd = RecordList::from((0..=255).cycle().take(4001).collect::<Vec<u8>>());
    assert_eq!(odd.records().count(), 501);
    assert_eq!(odd.walk().count(), 501);
    let grounds = RecordList::from([2, 0, 1, 0, 0, 0, 0, 0].repeat(3));
    assert!(grounds.walk().all(|step| step.is_ok_and(|step| step.depth == 0 && step.above.is_none())));
}
