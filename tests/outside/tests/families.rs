//! Families whose count is known, at the ends of what a store can take and of how deep a path can go.
use outside::case::{Case, probe};
use outside::compare::searched;
use outside::families::{DEEPEST, bytes, deep, joined, lots, lowered, wide, wide_and_met, wide_and_met_count, wide_count};
use outside::lists::{complete, spine};
use outside::random::Random;
use outside::run::{run_case, with_stack};
use outside::tally::Tally;
use second::limits::{MOST_NODES, MOST_SPLITS_ABOVE};
use second::sheet::Term;
use second::store::list_bytes;
use second::writer::{apart, sheet_bytes};

/// The search over the family answers these four numbers, and so it does with lot 0 for lot 1; both implementations agree on all bytes, and the laws stand.
fn searches(conditions: &[Vec<Term>], store_length: usize, expected: [u32; 4]) {
    search_alone(conditions, store_length, expected);
    search_alone(&lowered(conditions), store_length, expected);
}

fn search_alone(conditions: &[Vec<Term>], store_length: usize, expected: [u32; 4]) {
    let sheet = bytes(conditions);
    let case = Case { out_length: sheet.len(), sheet, grouping: vec![7; lots(conditions) + 1], store_length, list: vec![], fill: 0xC3 };
    assert_eq!(searched(&case).answer, expected, "a store of {store_length} bytes");
    run_case(&case, &mut Tally::default());
}

fn widths(front: &[usize], twos: usize) -> Vec<usize> {
    [front, &vec![2; twos]].concat()
}

#[test]
fn as_many_nodes_as_a_store_takes() {
    with_stack(|| {
        let family = wide(&widths(&[1], 14));
        assert_eq!(wide_count(&widths(&[1], 14)), MOST_NODES);
        searches(&family, 8 * 65_535, [0, 2, 65_535, 0]);
        searches(&family, 8 * 65_535 + 9, [0, 2, 65_535, 0]);
        searches(&family, 8 * 65_535 - 1, [9, 65_534, 0, 0]);
    });
}

#[test]
fn more_nodes_than_a_store_takes() {
    with_stack(|| {
        assert_eq!(wide_count(&widths(&[1, 1], 14)), MOST_NODES + 2);
        searches(&wide(&widths(&[1, 1], 14)), 8 * 65_537 + 5, [9, 65_535, 0, 0]);
        let one_more = widths(&[1, 2, 2, 4], 10);
        assert_eq!(wide_and_met_count(&one_more), MOST_NODES + 1);
        searches(&wide_and_met(&one_more), 8 * 65_536, [9, 65_535, 0, 0]);
        searches(&wide_and_met(&one_more), 8 * 70_000, [9, 65_535, 0, 0]);
    });
}

#[test]
fn met_at_the_last_record_of_a_store() {
    with_stack(|| {
        let family = widths(&[1, 1, 4, 2, 1, 4], 9);
        assert_eq!(wide_and_met_count(&family), MOST_NODES);
        searches(&wide_and_met(&family), 8 * 65_535, [0, 1, 65_535, 0]);
        searches(&wide_and_met(&family), 8 * 65_534, [9, 65_534, 0, 0]);
    });
}

#[test]
fn wide_counts() {
    with_stack(|| {
        for rows in 0..5 {
            for width in 1..5 {
                let widths = vec![width; rows];
                let (cannot, met) = (wide_count(&widths), wide_and_met_count(&widths));
                for records in [cannot - 1, cannot, cannot + 1] {
                    let full = records < cannot;
                    searches(&wide(&widths), 8 * records, if full { [9, records as u32, 0, 0] } else { [0, 2, cannot as u32, 0] });
                }
                searches(&wide_and_met(&widths), 8 * met, [0, 1, met as u32, 0]);
                searches(&wide_and_met(&widths), 8 * met - 8, [9, met as u32 - 1, 0, 0]);
            }
        }
    });
}

#[test]
fn deepest_paths() {
    with_stack(|| {
        let mut random = Random::new(11);
        for (lots, width) in [(46, DEEPEST - 1), (46, DEEPEST), (128, DEEPEST - 1), (128, DEEPEST)] {
            deepest(lots, deep(lots, width, &mut random), width);
            // One lot more, since lot 0 is among them.
            deepest(lots, lowered(&deep(lots + 1, width, &mut random)), width);
        }
        searches(&joined(128), 8 * 255, [0, 2, 255, 0]);
        searches(&joined(128), 8 * 254, [9, 254, 0, 0]);
        search_alone(&lowered(&joined(129)), 8 * 257, [0, 2, 257, 0]);
        search_alone(&lowered(&joined(129)), 8 * 256, [9, 256, 0, 0]);
    });
}

/// A path of so many splits, a ground in the same branch of each, and one at its end.
fn deepest(lots: usize, conditions: Vec<Vec<Term>>, width: usize) {
    let count = 2 * width + 1;
    let sheet = sheet_bytes(lots, &conditions);
    let found = probe(&sheet, count);
    assert_eq!(found.nodes.len(), 8 * count);
    let (out_length, store_length) = (sheet.len() + 1, 8 * count);
    let case = Case { sheet, grouping: vec![1; lots], store_length, list: found.nodes, out_length, fill: 0x3C };
    assert_eq!(searched(&case).answer, [0, 2, count as u32, 0]);
    run_case(&case, &mut Tally::default());
}

/// The checker answers these four numbers on a sheet whose condition 1 is false under every path, and both implementations agree.
fn checks(list: Vec<u8>, expected: [u32; 4]) {
    let sheet = sheet_bytes(2, &[vec![apart(1, 1), apart(2, 2)]]);
    let answer = lihumbay::raw::check(&sheet, &list);
    assert_eq!([answer.check, answer.first, answer.second, answer.third], expected);
    run_case(&Case { out_length: sheet.len(), sheet, grouping: vec![1, 2], store_length: 16, list, fill: 0x81 }, &mut Tally::default());
}

#[test]
fn longest_lists() {
    with_stack(|| {
        let longest = list_bytes(&complete(&(1..=2), 15, &mut Random::new(12)));
        assert_eq!(longest.len(), 8 * MOST_NODES);
        checks(longest.clone(), [0, 0, 0, 0]);
        checks(list_bytes(&complete(&(0..=2), 15, &mut Random::new(15))), [0, 0, 0, 0]);
        checks(longest[..8 * 65_534].to_vec(), [14, 65_535, 0, 0]);
        checks([longest.as_slice(), &longest[longest.len() - 8..]].concat(), [10, 0, 0, 0]);
        checks(list_bytes(&complete(&(0..=2), 16, &mut Random::new(13))), [10, 0, 0, 0]);
        checks(longest[..8 * 65_535 - 1].to_vec(), [10, 0, 0, 0]);
    });
}

#[test]
fn most_splits_above() {
    with_stack(|| {
        let mut random = Random::new(14);
        for (percent, lots) in [0, 50, 100].into_iter().flat_map(|percent| [(percent, 1..=2), (percent, 0..=2)]) {
            let directions: Vec<bool> = (0..=MOST_SPLITS_ABOVE).map(|_| random.chance(percent)).collect();
            checks(list_bytes(&spine(&lots, &directions[1..], &mut random)), [0, 0, 0, 0]);
            let deeper = spine(&lots, &directions, &mut random);
            let place = 1 + directions[..MOST_SPLITS_ABOVE].iter().map(|&same| if same { 1 } else { 2 }).sum::<u32>();
            checks(list_bytes(&deeper), [15, place, 0, 0]);
        }
    });
}
