//! The classes of input of the services with a limit whose list is the point, on sheets for which the search with that limit says cannot, mostly.
use crate::case::{probe, probe_limited};
use crate::depth::records;
use crate::limited::{Limited, lots, some_limit};
use crate::limited_faults::{any, limited_fault};
use crate::limited_run::LimitedClass;
use crate::limited_sheets::lots_apart;
use crate::lists::spine;
use crate::random::Random;
use crate::sheets::{cannot, small};
use crate::tree::{Tree, grow};
use second::limits::{MOST_SPLITS_ABOVE, MOST_SPLITS_ABOVE_LIMITED, NODE_LENGTH};
use second::reader::accept;
use second::sheet::Sheet;
use second::store::{clique, list_bytes};
use second::writer::{apart, sheet_bytes};

pub const LISTS: &[LimitedClass] = &[
    LimitedClass { name: "the limited search's list with faults", count: 16_000, make: faulty_list },
    LimitedClass { name: "the limited search's list changed as a tree", count: 6_000, make: changed_tree },
    LimitedClass { name: "the limited search's list with another limit", count: 6_000, make: other_limit },
    LimitedClass { name: "limited refutations of other hands", count: 6_000, make: other_hand },
    LimitedClass { name: "limited refutations of other hands with faults", count: 4_000, make: faulty_other_hand },
    LimitedClass { name: "refutations without a limit, and a limit", count: 3_000, make: unlimited_list },
    LimitedClass { name: "lists of any records and a limit", count: 6_000, make: any_list },
    LimitedClass { name: "lists around the most splits above and a limit", count: 40, make: deep_list },
];

/// A sheet and a limit for which the search with it says cannot, and the list that it wrote, of 3 to 300 records; most of them have a clique.
fn refuted(random: &mut Random) -> (Vec<u8>, u32, Vec<u8>) {
    loop {
        let sheet = if random.chance(70) { lots_apart(random) } else { small(random) };
        let limit = random.range(1, lots(&sheet)) as u32;
        let found = probe_limited(&sheet, limit, 300);
        if found.cannot() && found.count() >= 3 {
            return (sheet, limit, found.nodes);
        }
    }
}

fn accepted(sheet: &[u8]) -> Sheet {
    accept(sheet).expect("a sheet that was made valid")
}

fn with_faults(sheet: Vec<u8>, limit: u32, mut list: Vec<u8>, random: &mut Random) -> Limited {
    let accepted = accepted(&sheet);
    for _ in 0..random.range(1, 2) {
        limited_fault(&mut list, accepted.lots, accepted.conditions.len(), random);
    }
    Limited::with_list(sheet, limit, 20, list)
}

fn faulty_list(random: &mut Random, _: usize) -> Limited {
    let (sheet, limit, list) = refuted(random);
    with_faults(sheet, limit, list, random)
}

fn changed_tree(random: &mut Random, _: usize) -> Limited {
    let (sheet, limit, list) = refuted(random);
    let mut tree = Tree::read(&records(&list));
    for _ in 0..random.range(1, 3) {
        tree.change(&accepted(&sheet), Some(limit as usize), random);
    }
    Limited::with_list(sheet, limit, 20, list_bytes(&tree.records()))
}

fn other_limit(random: &mut Random, _: usize) -> Limited {
    let (sheet, limit, list) = refuted(random);
    let other = if random.chance(60) { limit + random.range(1, 2) as u32 } else { some_limit(lots(&sheet), random) };
    Limited::with_list(sheet, other, 20, list)
}

fn grown(sheet: &[u8], limit: u32, random: &mut Random) -> Vec<u8> {
    list_bytes(&grow(&accepted(sheet), Some(limit as usize), &mut Vec::new(), &mut 400, random).records())
}

fn other_hand(random: &mut Random, _: usize) -> Limited {
    let (sheet, limit, _) = refuted(random);
    // Now and then with a limit that lets the sheet be met: no list refutes it.
    let limit = if random.chance(10) { limit + 1 } else { limit };
    let list = grown(&sheet, limit, random);
    Limited::with_list(sheet, limit, 20, list)
}

fn faulty_other_hand(random: &mut Random, _: usize) -> Limited {
    let (sheet, limit, _) = refuted(random);
    let list = grown(&sheet, limit, random);
    with_faults(sheet, limit, list, random)
}

/// A list that the search without a limit wrote passes with every limit.
fn unlimited_list(random: &mut Random, number: usize) -> Limited {
    let sheet = cannot(random);
    let list = probe(&sheet, 120).nodes;
    let limit = some_limit(lots(&sheet), random);
    if number.is_multiple_of(2) { Limited::with_list(sheet, limit, 20, list) } else { with_faults(sheet, limit, list, random) }
}

/// Lots, and a sheet whose condition 1 is false under every path, so that the records alone decide. Condition 2 is withdrawn.
fn nobody_meets(random: &mut Random) -> (usize, Vec<u8>) {
    let lots = random.range(0, 3);
    (lots, sheet_bytes(lots, &[vec![apart(lots, lots)], vec![]]))
}

fn any_list(random: &mut Random, number: usize) -> Limited {
    let (lots, sheet) = nobody_meets(random);
    let mut list = list_bytes(&any(lots, 2, random.below(9), random));
    if number.is_multiple_of(20) {
        list.truncate(list.len().saturating_sub(random.below(NODE_LENGTH)));
    }
    let limit = some_limit(lots, random);
    Limited::with_list(sheet, limit, 20, list)
}

/// Spines with a split more or less than the most that may stand above one, without a limit and with one, in same branches, apart branches or both; half of
/// them with a fault, and half with a clique for the last ground.
fn deep_list(random: &mut Random, number: usize) -> Limited {
    let (lots, sheet) = nobody_meets(random);
    let most = if number.is_multiple_of(4) { MOST_SPLITS_ABOVE } else { MOST_SPLITS_ABOVE_LIMITED };
    let percent = random.pick(&[0, 50, 100]);
    let directions: Vec<bool> = (0..most - 2 + random.below(5)).map(|_| random.chance(percent)).collect();
    let mut records = spine(&(0..=lots), &directions, random);
    if random.chance(50) {
        *records.last_mut().expect("a list has a record") = clique();
    }
    let mut list = list_bytes(&records);
    if number.is_multiple_of(2) {
        limited_fault(&mut list, lots, 2, random);
    }
    Limited::with_list(sheet, random.range(1, 2) as u32, 20, list)
}
