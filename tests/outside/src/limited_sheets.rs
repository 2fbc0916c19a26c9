//! The classes of input of the services with a limit whose sheet is the point: sheets of every kind beside limits of every kind, with the search's own list.
use crate::damage::Damaged;
use crate::limited::{Limited, lots, some_limit};
use crate::limited_run::LimitedClass;
use crate::random::Random;
use crate::sheets::{dense, large, medium, small, tiny, write_in_some_order};
use second::sheet::Term;
use second::writer::{apart, same};

pub const SEARCHES: &[LimitedClass] = &[
    LimitedClass { name: "tiny sheets and a limit", count: 20_000, make: tiny_sheet },
    LimitedClass { name: "small sheets and a limit", count: 12_000, make: small_sheet },
    LimitedClass { name: "lots that are apart and a limit", count: 15_000, make: apart_sheet },
    LimitedClass { name: "sheets met within a limit, and one class less", count: 12_000, make: met_within },
    LimitedClass { name: "medium sheets and a limit", count: 1_000, make: medium_sheet },
    LimitedClass { name: "sheets up to the limits and a limit", count: 150, make: large_sheet },
    LimitedClass { name: "long searches and a limit", count: 150, make: dense_sheet },
    LimitedClass { name: "damaged sheets and a limit", count: 12_000, make: damaged_sheet },
    LimitedClass { name: "stores of any length and a limit", count: 3_000, make: any_store },
];

fn with_some_limit(sheet: Vec<u8>, room: usize, random: &mut Random) -> Limited {
    let limit = some_limit(lots(&sheet), random);
    Limited::of(sheet, limit, room, random)
}

fn tiny_sheet(random: &mut Random, _: usize) -> Limited {
    with_some_limit(tiny(random), 300, random)
}

fn small_sheet(random: &mut Random, _: usize) -> Limited {
    with_some_limit(small(random), 300, random)
}

fn apart_sheet(random: &mut Random, _: usize) -> Limited {
    with_some_limit(lots_apart(random), 1_000, random)
}

fn met_within(random: &mut Random, _: usize) -> Limited {
    let (sheet, limit) = within(random);
    Limited::of(sheet, limit - u32::from(random.chance(30)), 1_000, random)
}

fn medium_sheet(random: &mut Random, _: usize) -> Limited {
    with_some_limit(medium(random), 300, random)
}

fn large_sheet(random: &mut Random, _: usize) -> Limited {
    with_some_limit(large(random), 300, random)
}

fn dense_sheet(random: &mut Random, _: usize) -> Limited {
    with_some_limit(dense(random), 3_000, random)
}

fn damaged_sheet(random: &mut Random, _: usize) -> Limited {
    let mut damaged = Damaged::of(if random.chance(60) { tiny(random) } else { lots_apart(random) });
    (0..random.range(1, 2)).for_each(|_| damaged.fault(random));
    with_some_limit(damaged.bytes, 300, random)
}

/// S = 0, no whole number of records, and stores longer than any list.
fn any_store(random: &mut Random, number: usize) -> Limited {
    let mut limited = with_some_limit(lots_apart(random), 100, random);
    limited.store_length = match number % 300 {
        0 => 524_280 + random.below(40),
        _ => random.below(200),
    };
    limited
}

/// Most pairs of some lots apart, lot 0 among them, each by a condition, some with a second term; a few conditions that join lots; now and then withdrawn
/// ones. How many classes are needed is anything from one to all.
pub fn lots_apart(random: &mut Random) -> Vec<u8> {
    let lots = random.range(1, 7);
    let (percent, second_term) = (random.pick(&[20, 50, 70, 90, 100]), random.pick(&[0, 0, 10, 30]));
    let lot = |random: &mut Random| random.range(0, lots);
    let any_term = |random: &mut Random| if random.chance(50) { same(lot(random), lot(random)) } else { apart(lot(random), lot(random)) };
    let mut conditions: Vec<Vec<Term>> = Vec::new();
    for (a, b) in (0..=lots).flat_map(|b| (0..b).map(move |a| (a, b))).filter(|_| random.chance(percent)).collect::<Vec<_>>() {
        let own = if random.chance(50) { apart(a, b) } else { apart(b, a) };
        let more = if random.chance(second_term) { vec![any_term(random)] } else { vec![] };
        conditions.push([vec![own], more].concat());
    }
    let joins = random.pick(&[0, 0, 1, 2]);
    conditions.extend((0..joins).map(|_| (0..random.range(1, 2)).map(|_| same(lot(random), lot(random))).collect()));
    conditions.extend(vec![vec![]; random.pick(&[0, 0, 0, 1, 2])]);
    random.shuffle(&mut conditions);
    write_in_some_order(lots, &conditions, random)
}

/// A sheet that some grouping with so many different numbers meets: most lots of different classes are apart, and some conditions say that two lots of
/// different classes are the same, or else two of one class. A search often joins lots that don't belong together, finds cliques there, and is met later.
pub fn within(random: &mut Random) -> (Vec<u8>, u32) {
    let (lots, limit) = (random.range(4, 9), random.range(2, 4));
    let class: Vec<usize> = (0..=lots).map(|_| random.below(limit)).collect();
    let pairs = (0..=lots).flat_map(|b| (0..b).map(move |a| (a, b)));
    let (alike, other): (Vec<_>, Vec<_>) = pairs.partition(|&(a, b)| class[a] == class[b]);
    let percent = random.pick(&[50, 70, 80]);
    let mut conditions: Vec<Vec<Term>> = other.iter().filter(|_| random.chance(percent)).map(|&(a, b)| vec![apart(a, b)]).collect();
    if !alike.is_empty() && !other.is_empty() {
        for _ in 0..random.below(3) {
            let ((a, b), (c, d)) = (random.pick(&other), random.pick(&alike));
            conditions.push(vec![same(a, b), same(d, c)]);
        }
    }
    random.shuffle(&mut conditions);
    (write_in_some_order(lots, &conditions, random), limit as u32)
}
