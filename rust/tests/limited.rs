//! The search and the checker under a limit on the number of classes, through the package's types.
use lihumbay::{
    Evaluation, LIMITED_SEARCH_STACK, MOST_LIMIT, MOST_RECORDS, RECORD_LENGTH, Record, Refusal, Sheet, SheetBuilder, Subject, Term, Verdict,
};

fn sheet(text: &str) -> Vec<u8> {
    text.parse::<Sheet>().expect("a test's sheet is well written").to_bytes()
}

fn list_of(records: &[Record]) -> Vec<u8> {
    records.iter().flat_map(|record| record.to_bytes().expect("the record is small")).collect()
}

fn split(a: u16, b: u16, next: u32) -> Record {
    Record::Split { a, b, next }
}

fn ground(condition: u16) -> Record {
    Record::Ground { condition }
}

fn place<T>(answer: Result<T, Refusal>) -> Result<T, (u32, u32)> {
    answer.map_err(|refusal| (refusal.check.number(), refusal.place))
}

/// Three lots that are all apart; lot 0 may be together with any of them.
const THREE: &str = "apart 1 2\napart 1 3\napart 2 3";
/// The same with lot 0 apart from all.
const FOUR: &str = "apart 0 1\napart 0 2\napart 0 3\napart 1 2\napart 1 3\napart 2 3";

/// A search's records and how it ends.
fn searched(text: &str, limit: u32) -> String {
    let verdict = lihumbay::search_limited(&sheet(text), limit).expect("sheet and limit are admitted");
    let (list, end) = match &verdict {
        Verdict::Met { grouping, records } => (records, format!("met {:?}", grouping.as_bytes())),
        Verdict::Cannot { refutation } => (refutation, "cannot".to_string()),
        Verdict::Full { .. } => panic!("{text}: full"),
    };
    let records = list.records().map(|read| match read.expect("a search writes records").1 {
        Record::Split { a, b, next } => format!("split {a} {b} {next}, "),
        Record::Met => String::new(),
        other => format!("{other}, "),
    });
    format!("{}{end} of {}", records.collect::<String>(), list.count())
}

#[test]
fn a_limit_joins_the_first_classes_that_are_not_marked() {
    assert_eq!(searched("lots 3", 4), "met [1, 2, 3] of 1");
    assert_eq!(searched("lots 3", 3), "split 0 1 0, met [0, 2, 3] of 2");
    assert_eq!(searched("lots 3", 2), "split 0 1 0, split 0 2 0, met [0, 0, 3] of 3");
    assert_eq!(searched("lots 3", 1), "split 0 1 0, split 0 2 0, split 0 3 0, met [0, 0, 0] of 4");
    assert_eq!(searched("lots 0", 1), "met [] of 1");
    assert_eq!(searched(THREE, 3), "split 0 1 0, met [0, 2, 3] of 2");
    assert_eq!(searched("apart 0 1", 2), "met [1] of 1");
}

#[test]
fn classes_that_are_all_apart_are_a_clique() {
    assert_eq!(searched("apart 0 1", 1), "split 0 1 3, ground 1, clique, cannot of 3");
    assert_eq!(
        searched(FOUR, 3),
        "split 0 1 3, ground 1, split 0 2 5, ground 2, split 0 3 7, ground 3, split 1 2 9, ground 4, split 1 3 11, ground 5, split 2 3 13, \
         ground 6, clique, cannot of 13"
    );
    // Only the three classes with the smallest lots are looked at.
    assert_eq!(searched(FOUR, 2), "split 0 1 3, ground 1, split 0 2 5, ground 2, split 1 2 7, ground 4, clique, cannot of 7");
    // Of three classes two can be joined only if one of them is lot 0's. Lots 2 and 3 are joined with lot 1 apart from lot 0 at last.
    assert_eq!(
        searched(THREE, 2),
        "split 0 1 9, split 0 2 4, ground 1, split 0 3 6, ground 2, split 2 3 8, ground 3, clique, split 0 2 15, split 0 3 12, ground 3, \
         split 1 3 14, ground 2, clique, split 1 2 17, ground 1, clique, cannot of 17"
    );
}

#[test]
fn conditions_come_before_the_limit() {
    // The condition joins lots 2 and 3; then the limit joins lots 0 and 1, and at last all.
    assert_eq!(searched("same 2 3", 2), "split 2 3 0, split 0 1 0, met [0, 2, 2] of 3");
    assert_eq!(searched("same 2 3", 1), "split 2 3 0, split 0 1 0, split 0 2 0, met [0, 0, 0] of 4");
    // What the limit joins may turn a condition: "apart 0 1" was open, and now its other term has to be true.
    assert_eq!(searched("apart 0 1 | same 2 3", 2), "split 0 1 0, split 2 3 0, met [0, 2, 2] of 3");
}

#[test]
fn a_met_search_has_no_more_numbers_than_the_limit() {
    let text = "lots 12\nsame 3 4 | same 5 6\napart 3 5\napart 1 2 | apart 2 3\napart 0 12";
    for limit in 2..=13 {
        let Ok(Verdict::Met { grouping, .. }) = lihumbay::search_limited(&sheet(text), limit) else { panic!("the sheet can be met") };
        assert_eq!(lihumbay::evaluate(&sheet(text), grouping.as_bytes()), Ok(Evaluation::AllMet));
        let mut numbers: Vec<u8> = [&[0], grouping.as_bytes()].concat();
        numbers.sort_unstable();
        numbers.dedup();
        assert!(numbers.len() <= limit as usize, "{numbers:?} under limit {limit}");
    }
    assert!(matches!(lihumbay::search_limited(&sheet(text), 1), Ok(Verdict::Cannot { .. })));
}

/// A clique of so many classes has one of fewer in it, the first of them. For a greater limit the classes are too few, and without one there is no clique.
#[test]
fn a_refutation_passes_under_its_limit_and_below_and_not_above() {
    for (text, limit) in [(FOUR, 3), (FOUR, 1), (THREE, 2), ("apart 0 1", 1)] {
        let sheet = sheet(text);
        let Ok(Verdict::Cannot { refutation }) = lihumbay::search_limited(&sheet, limit) else { panic!("{text}: met") };
        for admitted in 1..=limit {
            assert_eq!(lihumbay::check_limited(&sheet, admitted, refutation.as_bytes()), Ok(()));
        }
        let cliques = refutation.records().filter_map(Result::ok).filter(|(_, record)| *record == Record::Clique);
        let first = cliques.map(|(number, _)| number).min().expect("these have cliques");
        assert_eq!(place(lihumbay::check_limited(&sheet, limit + 1, refutation.as_bytes())), Err((12, first)));
        assert_eq!(place(lihumbay::check(&sheet, refutation.as_bytes())), Err((11, first)));
    }
}

#[test]
fn a_refutation_without_cliques_passes_under_each_limit() {
    let text = "same 1 2\nsame 2 3\napart 1 3";
    let Ok(Verdict::Cannot { refutation }) = lihumbay::search(&sheet(text)) else { panic!("nothing meets the sheet") };
    for limit in [1, 2, 3, 4, 129] {
        assert_eq!(lihumbay::check_limited(&sheet(text), limit, refutation.as_bytes()), Ok(()));
    }
}

#[test]
fn a_limit_that_admits_each_class_changes_nothing() {
    for text in ["same 1 2 | same 1 3\napart 1 2", "same 1 2\nsame 2 3\napart 1 3", "same 0 1\napart 1 2", "lots 3", ""] {
        for limit in [4, 128, MOST_LIMIT] {
            assert_eq!(lihumbay::search_limited(&sheet(text), limit), lihumbay::search(&sheet(text)), "{text}");
        }
    }
}

#[test]
fn limits_that_are_not_admitted_are_refused_behind_the_sheet_and_before_the_buffers() {
    let sheet = sheet(THREE);
    // 257 is not 1, and neither is 4,294,967,297 with its first half lost.
    for limit in [0, 130, 256, 257, 65_537, u32::MAX] {
        let refusal = lihumbay::search_limited(&sheet, limit).unwrap_err();
        assert_eq!((refusal.check.number(), refusal.place, refusal.check.subject()), (20, limit, Some(Subject::Limit)));
        assert_eq!(lihumbay::search_limited_within(&sheet, limit, 0), Err(refusal));
        assert_eq!(lihumbay::search_limited_into(&sheet, limit, &mut [], &mut []), Err(refusal));
        assert_eq!(lihumbay::check_limited(&sheet, limit, &[]), Err(refusal));
        let cut = &sheet[..5];
        assert_eq!(place(lihumbay::search_limited(cut, limit)), Err((1, 0)));
        assert_eq!(place(lihumbay::check_limited(cut, limit, &[])), Err((1, 0)));
    }
    assert_eq!(place(lihumbay::search_limited_into(&sheet, 1, &mut [0; 2], &mut [])), Err((8, 3)));
    assert_eq!(place(lihumbay::check_limited(&sheet, MOST_LIMIT, &[])), Err((10, 0)));
}

#[test]
fn lent_buffers_are_written_only_where_the_verdict_says() {
    let (mut grouping, mut store) = ([9; 5], [9; 4 * RECORD_LENGTH]);
    let met = lihumbay::search_limited_into(&sheet(THREE), 3, &mut grouping, &mut store).unwrap();
    assert!(matches!(met, Verdict::Met { grouping, records } if grouping.as_bytes() == [0, 2, 3] && records.count() == 2));
    assert_eq!((&grouping[3..], &store[2 * RECORD_LENGTH..]), ([9; 2].as_slice(), [9; 2 * RECORD_LENGTH].as_slice()));

    let (mut grouping, mut store) = ([9; 3], [9; 6 * RECORD_LENGTH + 1]);
    let full = lihumbay::search_limited_into(&sheet(FOUR), 2, &mut grouping, &mut store).unwrap();
    assert_eq!(full, Verdict::Full { capacity: 6 });
    assert_eq!(grouping, [9; 3]);
    assert!(store[..6 * RECORD_LENGTH].iter().all(|&byte| byte == 0) && store[6 * RECORD_LENGTH] == 9);
    assert_eq!(lihumbay::search_limited_within(&sheet(FOUR), 2, 6), Ok(Verdict::Full { capacity: 6 }));
    assert!(matches!(lihumbay::search_limited_within(&sheet(FOUR), 2, usize::MAX), Ok(Verdict::Cannot { .. })));
}

#[test]
fn cliques_that_are_none_are_refused() {
    let checked = |text: &str, limit: u32, records: &[Record]| place(lihumbay::check_limited(&sheet(text), limit, &list_of(records)));
    let clique = Record::Clique;
    let right = [split(0, 1, 3), ground(1), clique];
    assert_eq!(checked("apart 0 1", 1, &right), Ok(()));
    // Too few classes, no marks, and marks on others than the smallest.
    assert_eq!(checked("apart 0 1", 2, &right), Err((12, 3)));
    assert_eq!(checked("apart 0 1", 1, &[clique]), Err((12, 1)));
    let on_others = [split(1, 2, 3), ground(1), clique];
    assert_eq!(checked("apart 1 2", 1, &on_others), Err((12, 3)));
    // A mark lies between classes, and not between the two lots that were set apart alone.
    let moved = [split(1, 2, 3), ground(1), split(0, 2, 5), clique, split(0, 1, 7), clique, clique];
    assert_eq!(checked("apart 1 2", 1, &moved), Ok(()));
    // The walk goes on behind a clique as behind a ground.
    assert_eq!(checked("apart 0 1", 1, &[split(0, 1, 4), ground(1), clique]), Err((13, 1)));
    assert_eq!(checked("apart 0 1", 1, &[split(0, 1, 3), ground(1), clique, clique]), Err((14, 4)));
    assert_eq!(checked("apart 0 1", 1, &[split(0, 1, 3), ground(1)]), Err((14, 3)));
    let mut list = list_of(&right);
    for at in 17..24 {
        list[at] = 1;
        assert_eq!(place(lihumbay::check_limited(&sheet("apart 0 1"), 1, &list)), Err((11, 3)));
        list[at] = 0;
    }
}

/// The most splits that may stand above a split under a limit: as many as there are pairs of 129 lots.
const MOST_SPLITS: usize = 129 * 128 / 2;

/// All pairs of lots 0 to 128 set apart one below the other, each same branch ended by condition 1, and a clique of all 129 at the end.
fn all_apart() -> Vec<Record> {
    let pairs = (0..=128).flat_map(|a| (a + 1..=128).map(move |b| (a, b)));
    let splits = pairs.zip(0u32..).flat_map(|((a, b), i)| [split(a, b, 2 * i + 3), ground(1)]);
    splits.chain([Record::Clique]).collect()
}

#[test]
fn a_list_may_be_as_deep_as_there_are_pairs_of_lots() {
    let nobody = sheet("lots 128\napart 1 1");
    let list = all_apart();
    assert_eq!(list.len(), 2 * MOST_SPLITS + 1);
    assert_eq!(lihumbay::check_limited(&nobody, 128, &list_of(&list)), Ok(()));
    assert_eq!(place(lihumbay::check_limited(&nobody, 129, &list_of(&list))), Err((12, list.len() as u32)));
    // One split more than may stand there, and the most that may without a limit.
    let deep = |count: usize| list_of(&vec![split(1, 2, 0); count]);
    assert_eq!(place(lihumbay::check_limited(&nobody, 1, &deep(MOST_SPLITS))), Err((14, MOST_SPLITS as u32 + 1)));
    assert_eq!(place(lihumbay::check_limited(&nobody, 1, &deep(MOST_SPLITS + 1))), Err((15, MOST_SPLITS as u32 + 1)));
    assert_eq!(place(lihumbay::check(&nobody, &deep(MOST_SPLITS + 1))), Err((15, 1025)));
    assert!(list.len() < MOST_RECORDS);
}

#[test]
fn a_walk_tells_the_classes_of_a_clique() {
    let Ok(Verdict::Cannot { refutation }) = lihumbay::search_limited(&sheet(THREE), 2) else { panic!("met") };
    let mut walk = refutation.walk();
    let mut cliques = Vec::new();
    while let Some(Ok(step)) = walk.next() {
        assert_eq!((step.depth, step.above), (walk.path().len(), walk.path().last().copied()));
        if step.record == Record::Clique {
            cliques.push(walk.classes(3));
        }
    }
    let [first, second, third] = cliques.try_into().expect("three cliques");
    assert_eq!(first, [vec![0, 1], vec![2], vec![3]]);
    assert_eq!(second, [vec![0, 2], vec![1], vec![3]]);
    // The limit is 2: lots 0, 1 and 2 are the clique.
    assert_eq!(third, [[0], [1], [2], [3]]);
}

/// The splits of a long path: one for each "same" term, and one of the limit's.
const DEEPEST: usize = 1024;

/// One condition of "same" terms over lots from 2 on, and lots 0 and 1 apart: under limit 1 each same branch ends by a split of the limit's.
fn deepest() -> Vec<u8> {
    let mut builder = SheetBuilder::new(128).unwrap();
    let pairs = (2..=128).flat_map(|a| (a + 1..=128).map(move |b| Term::Same(a, b)));
    builder.condition(pairs.take(DEEPEST - 1)).unwrap().condition([Term::Apart(0, 1)]).unwrap();
    builder.finish().to_bytes()
}

#[test]
fn a_deep_search_runs_from_a_thread_with_a_small_stack() {
    let search = || lihumbay::search_limited(&deepest(), 1);
    let verdict = std::thread::Builder::new().stack_size(64 << 10).spawn(search).unwrap().join().unwrap().unwrap();
    let Verdict::Cannot { refutation } = verdict else { panic!("nothing meets the sheet so") };
    assert_eq!(refutation.walk().map(|step| step.unwrap().depth).max(), Some(DEEPEST));
    assert_eq!(lihumbay::check_limited(&deepest(), 1, refutation.as_bytes()), Ok(()));
}

#[test]
fn lent_buffers_need_the_stack_that_is_said() {
    let search = || {
        lihumbay::search_limited_into(&deepest(), 1, &mut [0; 128], &mut vec![0; 5000 * RECORD_LENGTH])
            .map(|verdict| matches!(verdict, Verdict::Cannot { .. }))
    };
    let ended = std::thread::Builder::new().stack_size(LIMITED_SEARCH_STACK).spawn(search).unwrap().join().unwrap();
    assert_eq!(ended, Ok(true));
}
