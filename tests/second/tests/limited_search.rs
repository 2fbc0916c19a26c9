//! Document 02's job 7: searches with a limit on the number of classes, and check 20, each by hand.
use second::answer::{Answer, numbers};
use second::sheet::Term;
use second::store::{Record, clique, ground, list_bytes, met, split};
use second::writer::{apart, same, sheet_bytes};
use second::{Refusal, check_limited, evaluate, search, search_limited};

const FILL: u8 = 0xA7;

/// The search answers as stated and writes these records and nothing after them, and with room for fewer the store is full; what it leaves of the grouping,
/// whose bytes past n stay as they were.
fn searched(sheet: &[u8], limit: u32, lots: usize, expected: Answer, nodes: &[Record]) -> Vec<u8> {
    for room in 0..nodes.len() {
        let (mut grouping, mut store) = (vec![FILL; lots], vec![FILL; 8 * room + 5]);
        assert_eq!(search_limited(sheet, limit, &mut grouping, &mut store), Err(Refusal { check: 9, place: room }));
        assert_eq!((grouping, store), (vec![FILL; lots], [vec![0; 8 * room], vec![FILL; 5]].concat()));
    }
    let (mut grouping, mut store) = (vec![FILL; lots + 2], vec![FILL; 8 * nodes.len() + 59]);
    assert_eq!(search_limited(sheet, limit, &mut grouping, &mut store), Ok(expected));
    assert_eq!(store, [list_bytes(nodes), vec![FILL; 59]].concat());
    assert_eq!(grouping[lots..], [FILL; 2]);
    grouping.truncate(lots);
    grouping
}

fn cannot(lots: usize, conditions: &[Vec<Term>], limit: u32, nodes: &[Record]) {
    let sheet = sheet_bytes(lots, conditions);
    assert_eq!(searched(&sheet, limit, lots, Answer::Cannot { count: nodes.len() }, nodes), vec![FILL; lots]);
    // The search's own list passes, also with a smaller limit: fewer classes are looked at, and more are left.
    (1..=limit).for_each(|limit| assert_eq!(check_limited(&sheet, limit, &list_bytes(nodes)), Ok(Answer::Passes)));
}

fn met_by(lots: usize, conditions: &[Vec<Term>], limit: u32, nodes: &[Record], expected: &[u8]) {
    let sheet = sheet_bytes(lots, conditions);
    assert_eq!(searched(&sheet, limit, lots, Answer::Met { count: nodes.len() }, nodes), expected);
    assert_eq!(evaluate(&sheet, expected), Ok(Answer::AllMet));
}

#[test]
fn lots_that_nobody_names_count() {
    for limit in [3, 4, 129] {
        met_by(2, &[], limit, &[met()], &[1, 2]);
    }
    met_by(2, &[], 2, &[split(0, 1, 0), met()], &[0, 2]);
    met_by(2, &[], 1, &[split(0, 1, 0), split(0, 2, 0), met()], &[0, 0]);
    met_by(0, &[], 1, &[met()], &[]);
}

/// "the hold's consignment always counts as one"
#[test]
fn lot_0_s_class_counts() {
    let conditions = [vec![apart(0, 1)]];
    met_by(1, &conditions, 2, &[met()], &[1]);
    cannot(1, &conditions, 1, &[split(0, 1, 3), ground(1), clique()]);
    // Two lots apart, neither with lot 0 by need: two classes are enough, one is not.
    let conditions = [vec![apart(1, 2)]];
    met_by(2, &conditions, 2, &[split(0, 1, 0), met()], &[0, 2]);
    cannot(2, &conditions, 1, &[split(0, 1, 5), split(0, 2, 4), ground(1), clique(), clique()]);
}

#[test]
fn three_classes_apart() {
    let conditions = [vec![apart(0, 1)], vec![apart(0, 2)], vec![apart(2, 1)]];
    met_by(2, &conditions, 3, &[met()], &[1, 2]);
    let pairs = [split(0, 1, 3), ground(1), split(0, 2, 5), ground(2), split(1, 2, 7), ground(3), clique()];
    cannot(2, &conditions, 2, &pairs);
    // With 1 only lots 0 and 1 are looked at.
    cannot(2, &conditions, 1, &[split(0, 1, 3), ground(1), clique()]);
}

/// "split on their first pair not marked apart, by lower then higher smallest lot, recorded in that order"
#[test]
fn pairs_by_lower_then_higher() {
    // 0 1 is apart, so 0 2 comes before 1 2; with 0 2 the same, lot 3 takes the third place.
    met_by(3, &[vec![apart(1, 0)]], 2, &[split(0, 1, 3), ground(1), split(0, 2, 0), split(0, 3, 0), met()], &[1, 0, 0]);
    // 0 1 and 0 2 are apart: 1 2 comes before 0 3, which is no pair of the three smallest.
    let conditions = [vec![apart(0, 1)], vec![apart(0, 2)]];
    let nodes = [split(0, 1, 3), ground(1), split(0, 2, 5), ground(2), split(1, 2, 0), split(0, 3, 0), met()];
    met_by(3, &conditions, 2, &nodes, &[1, 1, 0]);
    // The smallest lots of the classes are 0, 1 and 3 where 2 is with 1, whatever the order in the term.
    met_by(3, &[vec![same(2, 1)]], 2, &[split(2, 1, 0), split(0, 1, 0), met()], &[0, 0, 3]);
    met_by(3, &[vec![same(2, 1)], vec![apart(2, 0)]], 2, &[split(2, 1, 0), split(0, 1, 4), ground(2), split(0, 3, 0), met()], &[1, 1, 0]);
}

/// "When no condition is taken": conditions come first, also after a split of the limit's.
#[test]
fn conditions_come_first() {
    met_by(3, &[vec![same(3, 2)]], 1, &[split(3, 2, 0), split(0, 1, 0), split(0, 2, 0), met()], &[0, 0, 0]);
    // The open "apart" term keeps the condition from being taken until 0 1 are the same; then its "same" term is open.
    met_by(3, &[vec![apart(0, 1), same(3, 2)]], 2, &[split(0, 1, 0), split(3, 2, 0), met()], &[0, 2, 2]);
    // A ground of a condition comes before a clique of the marks: 0 1 is apart, and "same 0 1" is false then.
    cannot(1, &[vec![same(0, 1)], vec![apart(0, 1)]], 1, &[split(0, 1, 3), ground(2), ground(1)]);
    // Withdrawn conditions are passed over.
    met_by(1, &[vec![], vec![]], 1, &[split(0, 1, 0), met()], &[0]);
}

/// Marks set by conditions count for the limit, and marks set by the limit for conditions.
#[test]
fn marks_are_marks() {
    // 0 1 is set apart by condition 1; the clique needs no split of its own.
    let conditions = [vec![same(0, 1), same(0, 2)], vec![apart(0, 1)]];
    let nodes = [split(0, 1, 3), ground(2), split(0, 2, 5), clique(), ground(1)];
    cannot(2, &conditions, 1, &nodes);
    // 0 1 is set apart by the limit; then "apart 2 1" is open until 0 2 are the same, and true by the marks of the class.
    met_by(2, &[vec![apart(0, 1)], vec![apart(2, 1)]], 2, &[split(0, 1, 3), ground(1), split(0, 2, 0), met()], &[1, 0]);
}

#[test]
fn as_many_classes_as_there_may_be() {
    let alone: Vec<u8> = (1..=128).collect();
    met_by(128, &[], 129, &[met()], &alone);
    met_by(128, &[], 128, &[split(0, 1, 0), met()], &[&[0], &alone[1..]].concat());
    let splits: Vec<Record> = (1..=128).map(|lot| split(0, lot, 0)).chain([met()]).collect();
    met_by(128, &[], 1, &splits, &[0; 128]);
}

/// "20, cap 0 or above 129, right after 7; place is the cap": before 8, and the number isn't cut.
#[test]
fn limits_that_are_refused() {
    let sheet = sheet_bytes(2, &[vec![apart(1, 2)]]);
    for limit in [0, 130, 255, 256, 257, 385, 65_535, 65_536, 65_537, 65_793, 1 << 24 | 1, 1 << 31, u32::MAX] {
        for (mut grouping, mut store) in [([].as_slice(), [].as_slice()), (&[FILL; 2], &[FILL; 80])].map(|(g, s)| (g.to_vec(), s.to_vec()))
        {
            let before = (grouping.clone(), store.clone());
            let answer = search_limited(&sheet, limit, &mut grouping, &mut store);
            assert_eq!(numbers(&answer), [20, limit, 0, 0]);
            assert_eq!((grouping, store), before);
        }
        // A refusal from reading comes first.
        assert_eq!(search_limited(&sheet[..5], limit, &mut [], &mut []), Err(Refusal { check: 1, place: 0 }));
        let unreached = [&sheet[..6], &[0], &sheet[7..]].concat();
        assert_eq!(search_limited(&unreached, limit, &mut [], &mut []), Err(Refusal { check: 7, place: 1 }));
    }
    for limit in [1, 129] {
        assert_eq!(search_limited(&sheet, limit, &mut [FILL], &mut []), Err(Refusal { check: 8, place: 2 }));
        assert_eq!(search_limited(&sheet, limit, &mut [FILL; 2], &mut []), Err(Refusal { check: 9, place: 0 }));
    }
}

/// A limit of n + 1 or more leaves nothing to ask: lots 0 to n have no more classes.
#[test]
fn limits_that_nothing_passes() {
    let sheets = [
        vec![vec![same(1, 2)], vec![same(2, 3)], vec![apart(1, 3)]],
        vec![vec![same(1, 2), same(1, 3)], vec![apart(1, 2)]],
        vec![vec![apart(1, 2), apart(2, 3)], vec![same(0, 3)]],
    ];
    for sheet in sheets.map(|conditions| sheet_bytes(3, &conditions)) {
        let (mut grouping, mut store) = ([FILL; 3], [FILL; 80]);
        let answer = search(&sheet, &mut grouping, &mut store);
        for limit in 4..=129 {
            let (mut again, mut nodes) = ([FILL; 3], [FILL; 80]);
            assert_eq!(search_limited(&sheet, limit, &mut again, &mut nodes), answer);
            assert_eq!((again, nodes), (grouping, store));
        }
    }
}
