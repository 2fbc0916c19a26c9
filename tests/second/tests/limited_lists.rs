//! Document 02's job 7: lists under a limit on the number of classes, each by hand: cliques, and checks 11 to 15 and 20.
use second::answer::numbers;
use second::limits::{MOST_SPLITS_ABOVE, MOST_SPLITS_ABOVE_LIMITED};
use second::sheet::Term;
use second::store::{Record, clique, ground, list_bytes, split};
use second::writer::{apart, same, sheet_bytes};
use second::{check, check_limited};

/// Three lots, of which 1 and 2 are apart, and 2 and 3.
fn conditions() -> Vec<Vec<Term>> {
    vec![vec![apart(1, 2)], vec![], vec![apart(2, 3)]]
}

/// The checker with a limit answers these four numbers.
fn checked(limit: u32, records: &[Record], expected: [u32; 4]) {
    let answer = check_limited(&sheet_bytes(3, &conditions()), limit, &list_bytes(records));
    assert_eq!(numbers(&answer), expected, "limit {limit}, {records:?}");
}

/// The search's own list with limit 1: 0 1 the same and 0 2 the same is no way, nor is any pair apart.
fn list() -> Vec<Record> {
    vec![split(0, 1, 5), split(0, 2, 4), ground(1), clique(), clique()]
}

fn with(number: usize, record: Record) -> Vec<Record> {
    let mut records = list();
    records[number - 1] = record;
    records
}

#[test]
fn passes_with_its_limit_and_no_greater_one() {
    checked(1, &list(), [0; 4]);
    // With 2, three classes are to be marked, and only two of them are.
    checked(2, &list(), [12, 4, 0, 0]);
    // Under "0 1 the same, 0 2 apart" the classes are 0, 2 and 3: no more than three are left.
    for limit in [3, 4, 129] {
        checked(limit, &list(), [12, 4, 0, 0]);
    }
}

/// "more than g consignments are left and the g + 1 with the smallest lots are all marked apart pairwise"
#[test]
fn cliques_are_of_the_smallest() {
    // The last record stands under the pairs set apart, and the others before it end their same branches by a condition that is false everywhere.
    let sheet = sheet_bytes(4, &[vec![apart(1, 1)]]);
    let answer = |limit: u32, pairs: &[(usize, usize)]| {
        let above = pairs.iter().zip(0..).flat_map(|(&(a, b), i)| [split(a, b, 2 * i + 3), ground(1)]);
        let list: Vec<Record> = above.chain([clique()]).collect();
        let numbers = numbers(&check_limited(&sheet, limit, &list_bytes(&list)));
        assert!(numbers == [0; 4] || numbers == [12, list.len() as u32, 0, 0]);
        numbers[0]
    };
    assert_eq!(answer(1, &[]), 12);
    assert_eq!(answer(1, &[(0, 1)]), 0);
    assert_eq!(answer(1, &[(1, 0)]), 0);
    // Marks beyond the g + 1 smallest don't help, however many they are.
    assert_eq!(answer(1, &[(0, 2), (1, 2), (2, 3), (3, 4), (2, 4), (0, 3), (0, 4), (1, 3), (1, 4)]), 12);
    assert_eq!(answer(2, &[(0, 1), (0, 2), (2, 1)]), 0);
    assert_eq!(answer(2, &[(0, 1), (0, 2)]), 12);
    assert_eq!(answer(2, &[(2, 3), (2, 4), (3, 4), (1, 2), (1, 3), (1, 4)]), 12);
    let all = [(0, 1), (0, 2), (0, 3), (0, 4), (1, 2), (1, 3), (1, 4), (2, 3), (2, 4), (3, 4)];
    assert_eq!([1, 2, 3, 4].map(|limit| answer(limit, &all)), [0; 4]);
    // No more than five classes are left, also where every two of them are marked.
    assert_eq!([5, 6, 129].map(|limit| answer(limit, &all)), [12; 3]);
    // Without one pair the limits that look at it refuse.
    assert_eq!([1, 2, 3, 4].map(|limit| answer(limit, &all[..9])), [0, 0, 0, 12]);
    assert_eq!([1, 2, 3, 4].map(|limit| answer(limit, &all[1..])), [12; 4]);
}

/// A class is known by its smallest lot, and marked by any of its lots.
#[test]
fn cliques_of_classes() {
    // 0 and 3 the same, then 3 and 1 apart: the classes are 0, 1 and 2, and 0 and 1 are marked.
    let sheet = sheet_bytes(3, &[vec![apart(0, 3), apart(1, 1)], vec![same(0, 3)], vec![apart(0, 1)]]);
    let passes = |limit: u32, records: &[Record]| numbers(&check_limited(&sheet, limit, &list_bytes(records)));
    let list = [split(3, 0, 5), split(1, 3, 4), ground(3), clique(), ground(2)];
    // Nothing is asked about conditions: the first is false where the clique stands.
    assert_eq!(passes(1, &[split(3, 0, 5), split(1, 3, 4), ground(3), ground(1), ground(2)]), [0; 4]);
    assert_eq!(passes(1, &list), [0; 4]);
    // The third class, 2, isn't marked.
    assert_eq!(passes(2, &list), [12, 4, 0, 0]);
    // A pair that is set apart within one class marks nothing.
    assert_eq!(passes(1, &[split(0, 3, 5), split(0, 3, 4), ground(1), clique(), ground(2)]), [12, 4, 0, 0]);
}

#[test]
fn without_a_limit_a_clique_is_no_record() {
    let sheet = sheet_bytes(3, &conditions());
    let answer = |records: &[Record]| numbers(&check(&sheet, &list_bytes(records)));
    assert_eq!(answer(&list()), [11, 4, 0, 0]);
    assert_eq!(answer(&[clique()]), [11, 1, 0, 0]);
}

#[test]
fn fields_out_of_range() {
    for number in [4, 5] {
        let place = number as u32;
        checked(1, &with(number, Record { spare: 1, ..clique() }), [11, place, 0, 0]);
        checked(1, &with(number, Record { first: 1, ..clique() }), [11, place, 0, 0]);
        checked(1, &with(number, Record { first: 256, ..clique() }), [11, place, 0, 0]);
        checked(1, &with(number, Record { second: 1, ..clique() }), [11, place, 0, 0]);
        checked(1, &with(number, Record { second: 256, ..clique() }), [11, place, 0, 0]);
        checked(1, &with(number, Record { next: 5, ..clique() }), [11, place, 0, 0]);
        checked(1, &with(number, Record { next: 256, ..clique() }), [11, place, 0, 0]);
        for kind in [0, 3, 5, 255] {
            checked(1, &with(number, Record { kind, ..clique() }), [11, place, 0, 0]);
        }
    }
    // 11 comes before 12 at one record: a clique that is none, with a field that isn't 0.
    checked(3, &with(4, Record { next: 5, ..clique() }), [11, 4, 0, 0]);
    checked(1, &with(3, clique()), [12, 3, 0, 0]);
}

/// "the walk goes on as after a ground"
#[test]
fn after_a_clique() {
    checked(1, &with(1, split(0, 1, 4)), [13, 1, 0, 0]);
    checked(1, &with(1, split(0, 1, 0)), [13, 1, 0, 0]);
    checked(1, &list()[..4], [14, 5, 0, 0]);
    checked(1, &[list(), vec![clique()]].concat(), [14, 6, 0, 0]);
    // What is left over is not looked at.
    checked(1, &[list(), vec![Record { kind: 9, ..clique() }]].concat(), [14, 6, 0, 0]);
    // 13 comes before 14, also where the following record is missing.
    checked(1, &[split(0, 1, 9), split(0, 2, 4), ground(1), clique()], [13, 1, 0, 0]);
}

#[test]
fn limits_that_are_refused() {
    let sheet = sheet_bytes(3, &conditions());
    for limit in [0, 130, 256, 257, 65_536, 65_537, 65_793, u32::MAX] {
        checked(limit, &list(), [20, limit, 0, 0]);
        // 20 comes before 10, and after a refusal from reading.
        assert_eq!(numbers(&check_limited(&sheet, limit, &[])), [20, limit, 0, 0]);
        assert_eq!(numbers(&check_limited(&sheet, limit, &[4; 9])), [20, limit, 0, 0]);
        assert_eq!(numbers(&check_limited(&sheet[..7], limit, &[])), [3, 0, 0, 0]);
    }
    for limit in [1, 129] {
        assert_eq!(numbers(&check_limited(&sheet, limit, &[])), [10, 0, 0, 0]);
        assert_eq!(numbers(&check_limited(&sheet, limit, &[4; 9])), [10, 0, 0, 0]);
        assert_eq!(numbers(&check_limited(&sheet, limit, &[0; 8 * 65_536])), [10, 0, 0, 0]);
    }
}

/// A list of `depth` splits, each in the same branch of the one before.
fn nested(depth: usize, leaf: Record) -> Vec<Record> {
    let splits = (1..=depth).map(|i| split(1, 1, 2 * depth + 2 - i));
    splits.chain(vec![leaf; depth + 1]).collect()
}

/// "its depth check 15 then stands at 8,256 splits"
#[test]
fn splits_above() {
    let sheet = sheet_bytes(1, &[vec![apart(1, 1)]]);
    let limited = |list: &[Record]| numbers(&check_limited(&sheet, 1, &list_bytes(list)));
    for depth in [MOST_SPLITS_ABOVE, MOST_SPLITS_ABOVE + 1, MOST_SPLITS_ABOVE_LIMITED] {
        assert_eq!(limited(&nested(depth, ground(1))), [0; 4]);
        // Lot 1 twice decides nothing, and 0 and 1 are not marked.
        assert_eq!(limited(&nested(depth, clique())), [12, depth as u32 + 1, 0, 0]);
    }
    let one_more = nested(MOST_SPLITS_ABOVE_LIMITED + 1, ground(1));
    assert_eq!(limited(&one_more), [15, MOST_SPLITS_ABOVE_LIMITED as u32 + 1, 0, 0]);
    // Without a limit it stands where it stood.
    assert_eq!(numbers(&check(&sheet, &list_bytes(&one_more))), [15, MOST_SPLITS_ABOVE as u32 + 1, 0, 0]);
    assert_eq!(numbers(&check(&sheet, &list_bytes(&nested(MOST_SPLITS_ABOVE, ground(1))))), [0; 4]);
}

/// Splits in their apart branches count too, and the last record is a clique under all of them: 0 and 1 are marked by the first.
#[test]
fn splits_above_in_the_apart_branch_count() {
    let sheet = sheet_bytes(1, &[vec![apart(1, 1)]]);
    let chain = |depth: usize| -> Vec<Record> {
        let pairs = (0..depth).flat_map(|i| [split(i % 2, 1 - i % 2, 2 * i + 3), ground(1)]);
        pairs.chain([clique()]).collect()
    };
    let limited = |depth: usize| numbers(&check_limited(&sheet, 1, &list_bytes(&chain(depth))));
    assert_eq!(limited(MOST_SPLITS_ABOVE_LIMITED), [0; 4]);
    assert_eq!(limited(MOST_SPLITS_ABOVE_LIMITED + 1), [15, 2 * MOST_SPLITS_ABOVE_LIMITED as u32 + 1, 0, 0]);
}
