//! Pairs of sheets with many withdrawn conditions: what they come to has about as many conditions, or as many terms, as there may be.
use crate::pairs::{Conditions, Pair, term, with_withdrawn};
use crate::random::Random;
use crate::sheets::write_in_some_order;
use second::limits::{MOST_CONDITIONS, MOST_LOTS};
use second::sheet::Term;
use second::writer::same;

/// How many conditions stay: the most, one less, and more.
const STAY: [usize; 6] = [255, 256, 256, 257, 258, 300];
/// How many terms stay. A sheet has room for about half of the last.
const TERMS: [usize; 7] = [900, 1023, 1024, 1025, 1026, 1500, 2000];

/// Around the most conditions. Few of them are withdrawn, or many, or all; the others are in either sheet, and some of them come again.
pub fn around_most_conditions(random: &mut Random) -> Pair {
    let stay = random.pick(&STAY);
    let any = random.range(0, stay);
    let withdrawn = random.pick(&[1, 2, 2, 3, 10, any, any, stay]);
    let mut different: Conditions = (0..stay - withdrawn).map(|number| unlike(number, random.range(1, 3), random)).collect();
    random.shuffle(&mut different);
    let [first, _] = parted(different.len(), [MOST_CONDITIONS; 2], random);
    let own = [&different[..first], &different[first..]].map(|own| with_repeats(own.to_vec(), &different, withdrawn, random));
    pair(own, withdrawn, random)
}

/// Around the most conditions and around the most terms.
pub fn around_both_limits(random: &mut Random) -> Pair {
    let (stay, terms) = (random.pick(&STAY), random.pick(&TERMS));
    let half = random.range(1, 127);
    let different = 2 * half;
    let length = |number: usize| terms / different + usize::from(number < terms % different);
    let mut own: [Conditions; 2] = [vec![], vec![]];
    (0..different).for_each(|number| own[number % 2].push(unlike(number, length(number), random)));
    pair(own, stay - different, random)
}

/// A condition of so many terms, whose first is that of no other number.
fn unlike(number: usize, length: usize, random: &mut Random) -> Vec<Term> {
    let first = same(number / MOST_LOTS + 1, number % MOST_LOTS + 1);
    [first].into_iter().chain((1..length).map(|_| term(&(0..=MOST_LOTS), random))).collect()
}

/// Two numbers that come to this one, neither above its most. Often one of them is as small as it can be.
fn parted(sum: usize, most: [usize; 2], random: &mut Random) -> [usize; 2] {
    let (least, greatest) = (sum.saturating_sub(most[1]), sum.min(most[0]));
    let any = random.range(least, greatest);
    let first = random.pick(&[least, any, any, greatest]);
    [first, sum - first]
}

/// The conditions with some of all of them put in once more, as long as there is room for what is withdrawn; now and then with as many as that.
fn with_repeats(mut own: Conditions, all: &[Vec<Term>], withdrawn: usize, random: &mut Random) -> Conditions {
    let room = (MOST_CONDITIONS - own.len()).saturating_sub(withdrawn);
    let count = if all.is_empty() { 0 } else { random.pick(&[0, 1, 5, room]).min(room) };
    for _ in 0..count {
        let again = all[random.below(all.len())].clone();
        own.insert(random.below(own.len() + 1), again);
    }
    own
}

/// Sheets with these conditions and so many withdrawn ones in all, as many in either as there is room for.
fn pair([first, second]: [Conditions; 2], withdrawn: usize, random: &mut Random) -> Pair {
    let room = [&first, &second].map(|own| MOST_CONDITIONS - own.len());
    let [of_first, of_second] = parted(withdrawn, room, random);
    let mut sheet = |own: Conditions, count: usize| {
        let conditions = with_withdrawn(own, count, random);
        write_in_some_order(MOST_LOTS, &conditions, random)
    };
    Pair { first: sheet(first, of_first), second: sheet(second, of_second) }
}
