//! The classes of input: valid and damaged sheets, groupings, stores, and refutations of every hand.
use crate::case::{Case, grouping, out_length, probe, store_length};
use crate::damage::{Damaged, list_fault};
use crate::families::{DEEPEST, bytes, deep, joined, lowered, marked, wide, wide_and_met, wide_and_met_count, wide_count};
use crate::lists;
use crate::random::Random;
use crate::run::Class;
use crate::sheets;
use crate::tree::{Tree, grow};
use second::limits::{MOST_SPLITS_ABOVE, NODE_LENGTH};
use second::reader::accept;
use second::sheet::{Sheet, Term};
use second::store::{Record, list_bytes};
use second::writer::{apart, sheet_bytes};

pub const CLASSES: &[Class] = &[
    Class { name: "tiny sheets", count: 50_000, make: tiny },
    Class { name: "small sheets", count: 30_000, make: small },
    Class { name: "medium sheets", count: 5_000, make: medium },
    Class { name: "sheets up to the limits", count: 600, make: large },
    Class { name: "long searches", count: 400, make: long_search },
    Class { name: "wide families, stores around the count", count: 2_000, make: wide_family },
    Class { name: "deep paths", count: 60, make: deep_family },
    Class { name: "terms false by many pairs", count: 1_500, make: many_marks },
    Class { name: "stores of any length", count: 4_000, make: any_store },
    Class { name: "the search's grouping, also with a byte changed", count: 6_000, make: own_grouping },
    Class { name: "sheets with one fault", count: 40_000, make: one_fault },
    Class { name: "sheets with two faults", count: 20_000, make: two_faults },
    Class { name: "large sheets with faults", count: 600, make: large_with_faults },
    Class { name: "random bytes as a sheet", count: 8_000, make: random_bytes },
    Class { name: "the search's refutation with faults", count: 24_000, make: faulty_refutation },
    Class { name: "long refutations with faults", count: 300, make: faulty_long_refutation },
    Class { name: "refutations with many marks, with faults", count: 1_500, make: faulty_many_marks },
    Class { name: "refutations changed as trees", count: 8_000, make: changed_tree },
    Class { name: "refutations of other hands", count: 8_000, make: other_hand },
    Class { name: "refutations of other hands with faults", count: 6_000, make: faulty_other_hand },
    Class { name: "lists of any records", count: 6_000, make: any_list },
    Class { name: "lists around the most splits above", count: 400, make: deep_list },
];

fn tiny(random: &mut Random, _: usize) -> Case {
    Case::of(sheets::tiny(random), random)
}

fn small(random: &mut Random, _: usize) -> Case {
    Case::of(sheets::small(random), random)
}

fn medium(random: &mut Random, _: usize) -> Case {
    Case::of(sheets::medium(random), random)
}

fn large(random: &mut Random, _: usize) -> Case {
    Case::of(sheets::large(random), random)
}

fn long_search(random: &mut Random, _: usize) -> Case {
    Case::with_room(sheets::dense(random), 4000, random)
}

fn wide_family(random: &mut Random, _: usize) -> Case {
    let widths: Vec<usize> = (0..random.range(0, 5)).map(|_| random.range(1, 4)).collect();
    let (conditions, count) = match random.chance(60) {
        true => (wide(&widths), wide_count(&widths)),
        false => (wide_and_met(&widths), wide_and_met_count(&widths)),
    };
    let mut case = Case::of(bytes(&with_zero_lot(conditions, random.chance(50))), random);
    case.store_length = NODE_LENGTH * random.pick(&[count - 1, count, count + 1]) + random.below(NODE_LENGTH);
    case
}

/// The conditions, or their like with lot 0 for lot 1.
fn with_zero_lot(conditions: Vec<Vec<Term>>, zero: bool) -> Vec<Vec<Term>> {
    if zero { lowered(&conditions) } else { conditions }
}

/// Paths of up to 1,023 splits, and of 127 joins; half of them with lot 0, which is one lot more: up to 128 joins, and 129 classes.
fn deep_family(random: &mut Random, number: usize) -> Case {
    let zero = random.chance(50);
    let more = usize::from(zero);
    let (conditions, lots) = match number % 3 {
        0 => (joined(random.range(100, 128) + more), 128),
        1 => (deep(46 + more, random.range(1000, DEEPEST), random), 46),
        _ => (deep(128 + more, DEEPEST - number % 4, random), 128),
    };
    let sheet = sheets::write_in_some_order(lots, &with_zero_lot(conditions, zero), random);
    let found = probe(&sheet, 3000);
    let store_length = NODE_LENGTH * random.pick(&[found.count(), found.count() - 1, found.count() + 1]);
    Case { grouping: grouping(lots, random), store_length, list: found.nodes, fill: 0xFF, out_length: out_length(&sheet, random), sheet }
}

/// So many terms and pairs that some nodes and grounds walk over the pairs, some mark a table, and some do the one and then the other.
fn sheet_with_marks(random: &mut Random) -> Vec<u8> {
    let lots = random.range(6, 16);
    let (pairs, terms) = (random.pick(&[4, 15, 31, 32, 33, 63, 64, 65, 90]), random.range(1, 40));
    let conditions = with_zero_lot(marked(lots, pairs, terms, random), random.chance(50));
    sheets::write_in_some_order(lots + 4, &conditions, random)
}

fn many_marks(random: &mut Random, _: usize) -> Case {
    Case::with_room(sheet_with_marks(random), 4000, random)
}

/// S = 0, no whole number of records, and stores longer than any sheet's count.
fn any_store(random: &mut Random, number: usize) -> Case {
    let mut case = Case::of(sheets::tiny(random), random);
    case.store_length = match number % 400 {
        0 => 524_280 + random.below(40),
        _ => random.below(80),
    };
    case
}

fn own_grouping(random: &mut Random, number: usize) -> Case {
    let sheet = if number.is_multiple_of(3) { sheets::tiny(random) } else { sheets::small(random) };
    let found = probe(&sheet, 300);
    let mut grouping = found.grouping;
    grouping.truncate(usize::from(sheet[0]) + random.below(3));
    if !grouping.is_empty() && random.chance(60) {
        let at = random.below(grouping.len());
        grouping[at] = random.byte() % 9;
    }
    Case {
        grouping,
        store_length: store_length(found.nodes.len() / NODE_LENGTH, random),
        list: found.nodes,
        fill: random.byte() | 2,
        out_length: out_length(&sheet, random),
        sheet,
    }
}

fn some_sheet(random: &mut Random) -> Vec<u8> {
    if random.chance(60) { sheets::tiny(random) } else { sheets::small(random) }
}

fn one_fault(random: &mut Random, _: usize) -> Case {
    damaged(some_sheet(random), 1, random)
}

fn two_faults(random: &mut Random, _: usize) -> Case {
    damaged(some_sheet(random), 2, random)
}

fn large_with_faults(random: &mut Random, _: usize) -> Case {
    damaged(sheets::large(random), random.range(1, 2), random)
}

fn damaged(sheet: Vec<u8>, faults: usize, random: &mut Random) -> Case {
    let mut damaged = Damaged::of(sheet);
    (0..faults).for_each(|_| damaged.fault(random));
    Case::of(damaged.bytes, random)
}

/// Nothing in particular, or a header near the limits and whatever follows.
fn random_bytes(random: &mut Random, number: usize) -> Case {
    let mut sheet = random.some_bytes(&[0, 1, 5, 6, 7, 14, 16, 22, 64]);
    if number.is_multiple_of(2) {
        let near = |most: u16, random: &mut Random| random.pick(&[0, 1, 2, most, most, most + 1, 255, 256]).to_le_bytes();
        sheet = [near(128, random), near(256, random), near(1024, random)].concat();
        sheet.extend(random.some_bytes(&[0, 1, 2, 8, 512, 520, 8192, 8704, 8705]));
    }
    Case::of(sheet, random)
}

/// A case whose list is the point: the search's own buffers are of the right size.
fn with_list(sheet: Vec<u8>, list: Vec<u8>, random: &mut Random) -> Case {
    let lots = usize::from(sheet[0]);
    Case {
        grouping: random.bytes(lots),
        store_length: store_length(20, random),
        list,
        fill: random.byte() | 4,
        out_length: out_length(&sheet, random),
        sheet,
    }
}

fn accepted(sheet: &[u8]) -> Sheet {
    accept(sheet).expect("a sheet that was made valid")
}

fn with_faults(sheet: Vec<u8>, mut list: Vec<u8>, random: &mut Random) -> Case {
    let accepted = accepted(&sheet);
    for _ in 0..random.range(1, 2) {
        list_fault(&mut list, accepted.lots, accepted.conditions.len(), random);
    }
    with_list(sheet, list, random)
}

fn faulty_refutation(random: &mut Random, _: usize) -> Case {
    let sheet = sheets::cannot(random);
    let list = probe(&sheet, 200).nodes;
    with_faults(sheet, list, random)
}

/// Where the search was met or took too long, there is no list, and the fault is all of it.
fn faulty_long_refutation(random: &mut Random, _: usize) -> Case {
    let sheet = sheets::dense(random);
    let found = probe(&sheet, 4000);
    with_faults(sheet, found.nodes, random)
}

fn faulty_many_marks(random: &mut Random, _: usize) -> Case {
    let sheet = sheet_with_marks(random);
    let found = probe(&sheet, 4000);
    with_faults(sheet, found.nodes, random)
}

fn changed_tree(random: &mut Random, _: usize) -> Case {
    let sheet = sheets::cannot(random);
    let records: Vec<Record> = probe(&sheet, 200).nodes.chunks(NODE_LENGTH).map(Record::from_bytes).collect();
    let mut tree = Tree::read(&records);
    for _ in 0..random.range(1, 3) {
        tree.change(&accepted(&sheet), None, random);
    }
    with_list(sheet, list_bytes(&tree.records()), random)
}

fn other_list(sheet: &[u8], random: &mut Random) -> Vec<u8> {
    list_bytes(&grow(&accepted(sheet), None, &mut Vec::new(), &mut 400, random).records())
}

fn other_hand(random: &mut Random, number: usize) -> Case {
    // Now and then a sheet that can be met: no list refutes it.
    let sheet = if number.is_multiple_of(10) { sheets::small(random) } else { sheets::cannot(random) };
    let list = other_list(&sheet, random);
    with_list(sheet, list, random)
}

fn faulty_other_hand(random: &mut Random, _: usize) -> Case {
    let sheet = sheets::cannot(random);
    let list = other_list(&sheet, random);
    with_faults(sheet, list, random)
}

/// Lots, and a sheet whose condition 1 is false under every path, so that the records alone decide. Condition 2 is withdrawn: no ground that names it passes.
/// Some have no lots: lot 0 is in range there, and nothing else.
fn nobody_meets(random: &mut Random) -> (usize, Vec<u8>) {
    let lots = random.range(0, 4);
    let first = random.below(2).min(lots);
    let condition = if random.chance(50) { vec![apart(lots, lots)] } else { vec![apart(first, first), apart(lots, lots)] };
    (lots, sheet_bytes(lots, &[condition, vec![]]))
}

fn any_list(random: &mut Random, number: usize) -> Case {
    let (lots, sheet) = nobody_meets(random);
    let mut list = list_bytes(&lists::any(lots, 2, random.below(9), random));
    if number.is_multiple_of(20) {
        list.truncate(list.len().saturating_sub(random.below(NODE_LENGTH)));
    }
    with_list(sheet, list, random)
}

/// Spines with 1,022 to 1,026 splits, in same branches, apart branches or both; half of them with a fault, and half with splits that name lot 0.
fn deep_list(random: &mut Random, number: usize) -> Case {
    let (lots, sheet) = nobody_meets(random);
    let depth = MOST_SPLITS_ABOVE - 2 + random.below(5);
    let percent = random.pick(&[0, 50, 100]);
    let directions: Vec<bool> = (0..depth).map(|_| random.chance(percent)).collect();
    let lowest = random.below(2).min(lots);
    let mut list = list_bytes(&lists::spine(&(lowest..=lots), &directions, random));
    if number.is_multiple_of(2) {
        list_fault(&mut list, lots, 2, random);
    }
    with_list(sheet, list, random)
}
