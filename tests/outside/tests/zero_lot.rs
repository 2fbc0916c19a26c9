//! Lot 0 in every service: answers worked out by hand, each beside the second implementation's and under every law.
use lihumbay::raw;
use outside::canonical::canonical;
use outside::case::Case;
use outside::compare::{plain, searched};
use outside::families::{joined, lowered};
use outside::merge_laws::merge_laws;
use outside::merged::{compare_merge, merged};
use outside::random::Random;
use outside::run::{run_case, with_stack};
use outside::tally::Tally;
use second::limits::{MOST_LOTS, NODE_LENGTH};
use second::sheet::Term;
use second::store::{Record, ground, list_bytes, met, split};
use second::writer::{apart, same, sheet_bytes, sheet_bytes_among};

const FILL: u8 = 0xB6;

fn case(lots: usize, conditions: &[Vec<Term>], grouping: &[u8], list: &[Record]) -> Case {
    let sheet = sheet_bytes(lots, conditions);
    Case {
        grouping: grouping.to_vec(),
        store_length: NODE_LENGTH * 300,
        list: list_bytes(list),
        out_length: sheet.len(),
        fill: FILL,
        sheet,
    }
}

/// All services on the case agree with the second implementation's, and every law stands.
fn agrees(case: &Case) {
    run_case(case, &mut Tally::default());
}

/// The search writes these records and, where the last of them is met, this grouping. With room for one record less the store is full.
fn finds(lots: usize, conditions: &[Vec<Term>], nodes: &[Record], grouping: &[u8]) {
    let mut case = case(lots, conditions, &vec![0; lots + 2], nodes);
    case.store_length = NODE_LENGTH * nodes.len();
    let found = searched(&case);
    let verdict = if nodes.last() == Some(&met()) { 1 } else { 2 };
    assert_eq!(found.answer, [0, verdict, nodes.len() as u32, 0]);
    assert_eq!(found.store, list_bytes(nodes));
    assert_eq!(found.grouping, [grouping, &vec![FILL; lots + 2 - grouping.len()]].concat());
    agrees(&case);
    case.store_length -= 1;
    assert_eq!(searched(&case).answer, [9, nodes.len() as u32 - 1, 0, 0]);
    agrees(&case);
}

fn finds_met(lots: usize, conditions: &[Vec<Term>], nodes: &[Record], grouping: &[u8]) {
    assert_eq!(grouping.len(), lots);
    finds(lots, conditions, &[nodes, &[met()]].concat(), grouping);
}

fn finds_cannot(lots: usize, conditions: &[Vec<Term>], nodes: &[Record]) {
    finds(lots, conditions, nodes, &[]);
}

/// The evaluator answers 0, or this condition.
fn evaluates(lots: usize, conditions: &[Vec<Term>], grouping: &[u8], unmet: u32) {
    let case = case(lots, conditions, grouping, &[]);
    assert_eq!(plain(raw::evaluate(&case.sheet, grouping)), [0, unmet, 0, 0], "{case}");
    agrees(&case);
}

/// The checker answers so.
fn checks(lots: usize, conditions: &[Vec<Term>], list: &[Record], expected: [u32; 2]) {
    let case = case(lots, conditions, &vec![0; lots], list);
    assert_eq!(plain(raw::check(&case.sheet, &case.list)), [expected[0], expected[1], 0, 0], "{case}");
    agrees(&case);
}

/// The reader answers so, and the others refuse the sheet alike where it refuses it.
fn reads(sheet: Vec<u8>, expected: [u32; 4]) {
    assert_eq!(plain(raw::read(&sheet)), expected, "{sheet:02x?}");
    agrees(&Case { grouping: vec![0; 128], store_length: 80, list: list_bytes(&[ground(1)]), out_length: sheet.len(), fill: FILL, sheet });
}

#[test]
fn terms_on_lot_0_alone() {
    with_stack(|| {
        let (one, other) = (same(0, 0), apart(0, 0));
        for lots in [0, 1, 128] {
            let alone: Vec<u8> = (1..=lots).map(|lot| lot as u8).collect();
            finds_met(lots, &[vec![one]], &[], &alone);
            finds_met(lots, &[vec![other, one], vec![], vec![one, other]], &[], &alone);
            finds_cannot(lots, &[vec![other]], &[ground(1)]);
            finds_cannot(lots, &[vec![one], vec![], vec![other, other]], &[ground(3)]);
        }
    });
}

/// A record of eight zero bytes is vacant; with a sign it is a term on lot 0; with any other byte it is malformed.
#[test]
fn records_of_zero_bytes_and_one_more() {
    with_stack(|| {
        let sheet = |head: u8, record: [u8; 8]| [&[0, 0, 1, 0, 1, 0, head, 0], record.as_slice()].concat();
        let with = |at: usize, value: u8| {
            let mut record = [0; 8];
            record[at] = value;
            record
        };
        reads(sheet(0, [0; 8]), [0, 0, 1, 1]);
        reads(sheet(1, [0; 8]), [17, 1, 0, 0]);
        for sign in [1, 2] {
            reads(sheet(1, with(0, sign)), [0, 0, 1, 1]);
            reads(sheet(0, with(0, sign)), [7, 1, 0, 0]);
        }
        for (head, sign) in [(0, 3), (1, 3), (0, 255), (1, 255)] {
            reads(sheet(head, with(0, sign)), [5, 1, 0, 0]);
        }
        for (at, head) in (1..8).flat_map(|at| [(at, 0), (at, 1)]) {
            reads(sheet(head, with(at, 1)), [5, 1, 0, 0]);
        }
    });
}

#[test]
fn lots_in_range_are_0_to_n() {
    with_stack(|| {
        for lots in [0, 1, 2, 127, 128] {
            let sheet = |a: usize, b: usize| sheet_bytes(lots, &[vec![same(0, 0)], vec![apart(a, b), same(b, a)]]);
            for lot in [0, lots] {
                reads(sheet(0, lot), [0, lots as u32, 2, 3]);
                reads(sheet(lot, 0), [0, lots as u32, 2, 3]);
            }
            for lot in [lots + 1, 256, 512, 65_535] {
                reads(sheet(0, lot), [5, 2, 0, 0]);
                reads(sheet(lot, 0), [5, 2, 0, 0]);
            }
        }
    });
}

#[test]
fn splits_have_lot_0_where_the_term_has_it() {
    with_stack(|| {
        finds_cannot(1, &[vec![same(0, 1)], vec![apart(1, 0)]], &[split(0, 1, 3), ground(2), ground(1)]);
        finds_cannot(1, &[vec![same(1, 0)], vec![apart(0, 1)]], &[split(1, 0, 3), ground(2), ground(1)]);
        finds_met(3, &[vec![same(0, 3)]], &[split(0, 3, 0)], &[1, 2, 0]);
        finds_met(3, &[vec![same(3, 0)]], &[split(3, 0, 0)], &[1, 2, 0]);
        finds_met(3, &[vec![same(3, 0)], vec![apart(3, 2)], vec![same(1, 2)]], &[split(3, 0, 0), split(1, 2, 0)], &[1, 1, 0]);
        // 0 1 can't be the same; with them apart the second term is the first that is open.
        let conditions = [vec![same(0, 1), same(2, 0)], vec![apart(1, 0)]];
        finds_met(2, &conditions, &[split(0, 1, 3), ground(2), split(2, 0, 0)], &[1, 0]);
    });
}

/// Each condition has one "same" term, and all of them are joined one after the other: met, with this grouping. With a last condition that is then false, each
/// split's apart branch is the ground that names its own condition.
fn joins(pairs: &[(usize, usize)], last: Term, grouping: &[u8]) {
    let conditions: Vec<Vec<Term>> = pairs.iter().map(|&(a, b)| vec![same(a, b)]).collect();
    let splits = |next: fn(usize, usize) -> usize| -> Vec<Record> {
        pairs.iter().enumerate().map(|(i, &(a, b))| split(a, b, next(pairs.len(), i + 1))).collect()
    };
    finds_met(grouping.len(), &conditions, &splits(|_, _| 0), grouping);
    let nodes = splits(|count, number| 2 * count + 2 - number);
    let grounds: Vec<Record> = (1..=pairs.len() + 1).rev().map(ground).collect();
    finds_cannot(grouping.len(), &[conditions, vec![vec![last]]].concat(), &[nodes, grounds].concat());
}

#[test]
fn all_lots_joined_to_lot_0() {
    with_stack(|| {
        let upwards: Vec<(usize, usize)> = (0..MOST_LOTS).map(|lot| (lot, lot + 1)).collect();
        let downwards: Vec<(usize, usize)> = upwards.iter().rev().copied().collect();
        let turned = |pairs: &[(usize, usize)]| -> Vec<(usize, usize)> { pairs.iter().map(|&(a, b)| (b, a)).collect() };
        let (star, mut mixed) = ((1..=MOST_LOTS).map(|lot| (0, lot)).collect::<Vec<_>>(), upwards.clone());
        Random::new(91).shuffle(&mut mixed);
        for pairs in [&upwards, &downwards, &star, &mixed] {
            joins(pairs, apart(0, MOST_LOTS), &[0; MOST_LOTS]);
            joins(&turned(pairs), apart(MOST_LOTS, 0), &[0; MOST_LOTS]);
        }
        // Lot 0's class and two others: the even lots with lot 0, lots 1 to 63 that are odd, and those from 65 on.
        let by_two = |from: usize, last: usize| (from..last).step_by(2).map(|lot| (lot, lot + 2)).rev();
        let pairs: Vec<(usize, usize)> = by_two(65, 127).chain(by_two(0, 128)).chain(by_two(1, 63)).collect();
        let class = |lot: usize| if lot.is_multiple_of(2) { 0 } else { 1 + lot as u8 / 64 * 64 };
        joins(&pairs, apart(128, 0), &(1..=128).map(class).collect::<Vec<u8>>());
    });
}

/// No two of the 129 lots are together, and lot 0 is apart from each other one: by terms alone, and by decisions.
#[test]
fn as_many_classes_as_there_may_be() {
    with_stack(|| {
        let alone: Vec<u8> = (1..=128).collect();
        let from_zero: Vec<Vec<Term>> = (1..=128).map(|lot| vec![if lot % 2 == 0 { apart(0, lot) } else { apart(lot, 0) }]).collect();
        finds_met(128, &from_zero, &[], &alone);
        // Each pair of the first condition is refused by a condition of its own, until all are set apart.
        let either: Vec<Term> = (1..=128).map(|lot| if lot % 3 == 0 { same(0, lot) } else { same(lot, 0) }).collect();
        let tried = either.iter().zip(1..).flat_map(|(term, lot)| [split(term.a, term.b, 2 * lot + 1), ground(lot + 1)]);
        let nodes: Vec<Record> = tried.chain([ground(1)]).collect();
        finds_cannot(128, &[vec![either.clone()], from_zero.clone()].concat(), &nodes);
        // With one more term, which joins the last two, 128 classes are met: lot 0 is alone in its own.
        let longer = [either, vec![same(128, 127)]].concat();
        let nodes = [&nodes[..256], &[split(128, 127, 0)]].concat();
        finds_met(128, &[vec![longer], from_zero].concat(), &nodes, &[&alone[..127], &[127]].concat());
    });
}

/// Lot 0 as wrong evaluators number it. The inputs tell each of them from the right one, so that they can't go stale.
type ZeroNumber = fn(&[u8]) -> u8;
const WRONG: [(&str, ZeroNumber); 7] = [
    ("the first byte", |grouping| grouping[0]),
    ("the second byte", |grouping| grouping.get(1).copied().unwrap_or(0)),
    ("the last byte", |grouping| grouping[grouping.len() - 1]),
    ("the last byte but one", |grouping| grouping[grouping.len().saturating_sub(2)]),
    ("one", |_| 1),
    ("255", |_| 255),
    ("the least byte", |grouping| grouping.iter().copied().min().unwrap_or(0)),
];

/// Groupings of n bytes and of more, whose first bytes, last bytes and all bytes are 0 or not.
fn groupings(lots: usize) -> Vec<Vec<u8>> {
    let mut all = vec![];
    for inside in [0, 1, 2, 255] {
        for first in [0, 1, 255] {
            for last in [0, 1, 255] {
                let mut grouping = vec![inside; lots];
                grouping[0] = first;
                grouping[lots - 1] = last;
                all.extend([[grouping.as_slice(), &[0]].concat(), [grouping.as_slice(), &[7, 255]].concat(), grouping]);
            }
        }
    }
    all
}

#[test]
fn lot_0_has_the_number_0_whatever_the_grouping() {
    with_stack(|| {
        let mut told = [0; WRONG.len()];
        for lots in [1, 2, 3, 128] {
            for grouping in groupings(lots) {
                for lot in [1, 2.min(lots), lots] {
                    let byte = grouping[lot - 1];
                    let unmet = |is_met: bool| u32::from(!is_met);
                    evaluates(lots, &[vec![same(0, lot)]], &grouping, unmet(byte == 0));
                    evaluates(lots, &[vec![same(lot, 0)]], &grouping, unmet(byte == 0));
                    evaluates(lots, &[vec![apart(0, lot)]], &grouping, unmet(byte != 0));
                    evaluates(lots, &[vec![apart(lot, 0)]], &grouping, unmet(byte != 0));
                    told.iter_mut()
                        .zip(WRONG)
                        .for_each(|(told, (_, number))| *told += usize::from((number(&grouping) == byte) != (byte == 0)));
                }
                evaluates(lots, &[vec![apart(0, 0), same(0, 0)], vec![], vec![apart(0, 0)]], &grouping, 3);
            }
        }
        WRONG.iter().zip(told).for_each(|((name, _), told)| assert!(told > 0, "lot 0 numbered by {name} would be answered as expected"));
    });
}

#[test]
fn the_evaluator_with_no_lots() {
    with_stack(|| {
        for grouping in [[].as_slice(), &[0], &[1], &[255, 0], &[0, 255]] {
            evaluates(0, &[], grouping, 0);
            evaluates(0, &[vec![same(0, 0)], vec![], vec![apart(0, 0), same(0, 0)]], grouping, 0);
            evaluates(0, &[vec![same(0, 0)], vec![], vec![apart(0, 0), apart(0, 0)]], grouping, 3);
        }
    });
}

/// same 0 1; same 1 2; apart 0 2.
fn sheet_a() -> Vec<Vec<Term>> {
    vec![vec![same(0, 1)], vec![same(1, 2)], vec![apart(0, 2)]]
}

#[test]
fn splits_of_a_list_name_lot_0_in_either_field() {
    with_stack(|| {
        let list = |first: Record, second: Record| [first, second, ground(3), ground(2), ground(1)];
        for first in [split(0, 1, 5), split(1, 0, 5)] {
            // With lots 0 and 1 together, lot 2 may be set beside either of them.
            for second in [split(1, 2, 4), split(2, 1, 4), split(0, 2, 4), split(2, 0, 4)] {
                checks(2, &sheet_a(), &list(first, second), [0, 0]);
            }
            // Lot 0 twice decides nothing, and "apart 0 2" is open.
            checks(2, &sheet_a(), &list(first, split(0, 0, 4)), [12, 3]);
            checks(2, &sheet_a(), &list(first, split(0, 3, 4)), [11, 2]);
            checks(2, &sheet_a(), &list(first, split(3, 0, 4)), [11, 2]);
            checks(2, &sheet_a(), &list(first, split(0, 256, 4)), [11, 2]);
            checks(2, &sheet_a(), &list(first, split(256, 0, 4)), [11, 2]);
            checks(2, &sheet_a(), &list(first, split(0, 2, 5)), [13, 2]);
        }
        checks(2, &sheet_a(), &list(split(0, 0, 5), split(1, 2, 4)), [12, 3]);
        // In the apart branch of "0 0" sharing is looked at first: everything is as it was.
        let under = |by: usize| [split(0, 1, 5 + by), split(0, 2, 4 + by), ground(3), ground(2), ground(1)];
        checks(2, &sheet_a(), &[[split(0, 0, 7)].as_slice(), &under(1), &under(6)].concat(), [0, 0]);
    });
}

/// A ground names a condition, and there is no condition 0, also where a split in its place may name lot 0.
#[test]
fn a_ground_has_no_condition_0() {
    with_stack(|| {
        for (lots, conditions) in [(0, vec![vec![apart(0, 0)]]), (2, sheet_a()), (0, vec![])] {
            checks(lots, &conditions, &[ground(0)], [11, 1]);
            checks(lots, &conditions, &[split(0, 0, 3), ground(0), ground(0)], [11, 2]);
        }
        let none = [vec![apart(0, 0)]];
        checks(0, &none, &[split(0, 0, 3), ground(1), ground(1)], [0, 0]);
        checks(0, &none, &[split(0, 0, 3), ground(1), ground(0)], [11, 3]);
        checks(0, &none, &[split(0, 1, 3), ground(1), ground(1)], [11, 1]);
        checks(0, &none, &[split(1, 0, 3), ground(1), ground(1)], [11, 1]);
        checks(0, &none, &[Record { second: 1, ..ground(1) }], [11, 1]);
    });
}

/// The checker on paths with 129 lots: all joined in turn, or lot 0 apart from each other.
#[test]
fn lists_over_all_lots() {
    with_stack(|| {
        let conditions = lowered(&joined(129));
        let spine = |next: fn(usize) -> usize| (1..=128).map(move |lot| split(129 - lot, 128 - lot, next(lot)));
        let grounds: Vec<Record> = (1..=129).map(|number| if number == 1 { ground(129) } else { ground(number - 1) }).collect();
        let list: Vec<Record> = spine(|number| 258 - number).chain(grounds).collect();
        checks(128, &conditions, &list, [0, 0]);
        // Of the 128 pairs the first is left out: lot 128 is not joined, and "apart 0 128" is open.
        let shorter: Vec<Record> = (1..=127).map(|lot| split(lot - 1, lot, 0)).chain([ground(129)]).collect();
        checks(128, &conditions, &shorter, [12, 128]);
    });
}

/// Repacking keeps terms on lot 0 and drops vacant records, from which "same 0 0" differs in one byte.
#[test]
fn packed_sheets_keep_terms_on_lot_0() {
    with_stack(|| {
        let conditions = [vec![same(0, 0), apart(0, 2)], vec![], vec![same(2, 0)], vec![same(0, 0)]];
        for order in [[1, 2, 3, 4], [7, 5, 3, 1], [2, 6, 4, 7]] {
            let sheet = sheet_bytes_among(2, &conditions, &order, 7);
            assert_eq!(canonical(&sheet), Ok(Some(sheet_bytes(2, &conditions))));
            agrees(&Case { grouping: vec![1, 0], store_length: 80, list: vec![], out_length: 46, fill: FILL, sheet });
        }
        let zero = sheet_bytes_among(0, &[vec![same(0, 0)]], &[1024], 1024);
        assert_eq!(canonical(&zero), Ok(Some(vec![0, 0, 1, 0, 1, 0, 1, 0, 1, 0, 0, 0, 0, 0, 0, 0])));
    });
}

#[test]
fn merged_sheets_keep_terms_on_lot_0() {
    with_stack(|| {
        let mut random = Random::new(92);
        let mut come_to = |first: (usize, &[Vec<Term>]), second: (usize, &[Vec<Term>]), expected: &[Vec<Term>]| {
            let (one, other) = (sheet_bytes(first.0, first.1), sheet_bytes(second.0, second.1));
            let whole = sheet_bytes(first.0.max(second.0), expected);
            let before = vec![FILL; whole.len()];
            assert_eq!(compare_merge(&one, &other, &before), Ok([0, whole.len() as u32, 0, 0]));
            assert_eq!(merged(&one, &other, &before).out, whole);
            assert_eq!(compare_merge(&one, &other, &before[1..]), Ok([19, whole.len() as u32, 0, 0]));
            merge_laws(&one, &other, &mut random).expect("laws of a merge");
        };
        let all = [vec![same(0, 1)], vec![same(1, 0)], vec![apart(0, 1)], vec![same(0, 0)], vec![same(1, 1)], vec![apart(0, 0)], vec![]];
        let turned: Vec<Vec<Term>> = all.iter().rev().cloned().collect();
        // The last of them is withdrawn, and stays both times.
        come_to((1, &all), (1, &turned), &[&all[..], &[vec![]]].concat());
        come_to((1, &turned), (128, &all), &[&turned[..], &[vec![]]].concat());
        come_to((3, &all[..3]), (1, &all), &all);
        // No lots in one of them, or in both.
        let zero = [vec![same(0, 0)], vec![apart(0, 0), same(0, 0)]];
        come_to((0, &zero), (0, &zero[..1]), &zero);
        come_to((0, &zero), (2, &[vec![apart(0, 2)], zero[1].clone()]), &[&zero[..], &[vec![apart(0, 2)]]].concat());
        come_to((0, &[]), (0, &zero), &zero);
    });
}
