//! Faults in lists under a limit, and lists of cliques, grounds and splits that are nothing in particular.
use crate::damage::list_fault;
use crate::lists::any_record;
use crate::random::Random;
use second::limits::{CLIQUE, NODE_LENGTH, SPLIT};
use second::store::{Record, clique, ground};

/// One fault: a clique where there was none, a clique with a field that isn't 0, a ground for a clique, or a fault as in any list.
pub fn limited_fault(list: &mut Vec<u8>, lots: usize, conditions: usize, random: &mut Random) {
    let count = list.len() / NODE_LENGTH;
    let number = random.below(count.max(1));
    let at = |number: usize| NODE_LENGTH * number..NODE_LENGTH * (number + 1);
    let nearest = |wanted: fn(u8) -> bool| (number..count).chain(0..number).find(|&number| wanted(list[NODE_LENGTH * number]));
    let (leaf, a_clique) = (nearest(|kind| kind != SPLIT), nearest(|kind| kind == CLIQUE));
    match (random.below(10), leaf, a_clique) {
        (0 | 1, Some(leaf), _) => list[at(leaf)].copy_from_slice(&clique().to_bytes()),
        (2, Some(leaf), _) => list[at(leaf)].copy_from_slice(&faulty_clique(random).to_bytes()),
        (3, _, Some(number)) => list[at(number)].copy_from_slice(&ground(random.range(0, conditions + 1)).to_bytes()),
        (4, ..) if count > 0 => drop(list.splice(NODE_LENGTH * number..NODE_LENGTH * number, clique().to_bytes())),
        _ => list_fault(list, lots, conditions, random),
    }
}

/// A clique with one byte changed.
fn faulty_clique(random: &mut Random) -> Record {
    let mut bytes = clique().to_bytes();
    bytes[random.below(NODE_LENGTH)] = random.pick(&[1, 2, 3, 5, 255]);
    Record::from_bytes(&bytes)
}

/// Records with fields mostly in range, in no order.
pub fn any(lots: usize, conditions: usize, length: usize, random: &mut Random) -> Vec<Record> {
    let one = |number: usize| match random.below(12) {
        0..=2 => clique(),
        3 if random.chance(20) => faulty_clique(random),
        _ => any_record(lots, conditions, number, random),
    };
    (1..=length).map(one).collect()
}
