//! The sheets that are measured on, by family.
use crate::random::Random;
use crate::sheets::{Sheet, Term, apart, same};

/// The first `terms` pairs a < b of `lots` lots, each as a "same" term.
fn same_pairs(lots: usize, terms: usize) -> Vec<Term> {
    (1..=lots).flat_map(|a| (a + 1..=lots).map(move |b| same(a, b))).take(terms).collect()
}

/// One condition of "same" terms, and one "apart 1 1": 2 * terms + 1 nodes, on a path of `terms` splits. With 1,023 terms no sheet has a longer
/// path: one of 1,024 splits would need as many "same" terms, and a sheet without an "apart" term has no ground.
pub fn long_condition(terms: usize) -> Sheet {
    let mut sheet = Sheet::new(128);
    sheet.condition(same_pairs(128, terms));
    sheet.condition([apart(1, 1)]);
    sheet
}

/// One condition of "same" terms over lots from 2 on, and lots 0 and 1 apart. Under the limit 1 a path has a split for each term, and one more on lots 0 and 1,
/// whose branches are a ground and a clique: 4 * terms + 1 nodes.
pub fn long_limited(terms: usize) -> Sheet {
    let mut sheet = Sheet::new(128);
    sheet.condition(same_pairs(127, terms).into_iter().map(|term| same(term.a + 1, term.b + 1)));
    sheet.condition([apart(0, 1)]);
    sheet
}

/// A "same" term for each two of lots 0 to 128 but 0 and 1, all in one condition, and lots 0 and 1 apart: more terms than a sheet may have, for a reader that
/// accepts it all the same (`bench/deepest.sh`). Under the limit 1 a path has a split for each two lots, 8,256, and ends at a clique.
pub fn each_pair() -> Sheet {
    let mut sheet = Sheet::new(128);
    sheet.condition(same_pairs(129, usize::MAX).into_iter().map(|term| same(term.a - 1, term.b - 1)).skip(1));
    sheet.condition([apart(0, 1)]);
    sheet
}

/// The longest chain that a sheet can have, of 1,024 "same" terms.
pub fn longest_chain() -> Sheet {
    let mut sheet = Sheet::new(128);
    sheet.condition(same_pairs(128, 1024));
    sheet
}

/// `r` conditions of `w` terms "same 1 b", no b twice, and one "apart 1 1": the most nodes that r conditions of w "same" terms can have.
pub fn worst_case(r: usize, w: usize) -> Sheet {
    let mut sheet = Sheet::new(r * w + 1);
    for i in 0..r {
        sheet.condition((i * w + 2..=i * w + w + 1).map(|b| same(1, b)));
    }
    sheet.condition([apart(1, 1)]);
    sheet
}

/// The ring of source document 001, part 7.
pub fn circ(n: usize) -> Sheet {
    let mut sheet = Sheet::new(n);
    sheet.condition((1..=n).map(|i| apart(i, i % n + 1)));
    for i in 1..=n {
        for j in i + 1..=n {
            sheet.condition([same(i, i % n + 1), same(j, j % n + 1)]);
        }
    }
    sheet
}

/// The pigeon hole of source document 001, part 7.
pub fn phe(n: usize) -> Sheet {
    let mut sheet = Sheet::new(n + 1);
    for i in 1..=n {
        for j in i + 1..=n {
            sheet.condition([apart(i, j)]);
        }
    }
    for i in 1..=n {
        sheet.condition((1..=n).filter(|&j| j != i).map(|j| same(j, n + 1)));
    }
    sheet
}

/// A random term, "same" in four cases of five.
fn random_term(random: &mut Random, lots: usize) -> Term {
    let is_same = random.below(5) < 4;
    let a = 1 + random.below(lots);
    let b = 1 + random.below(lots);
    if is_same { same(a, b) } else { apart(a, b) }
}

/// `conditions` of `width` terms over 128 lots, four fifths of them "same".
pub fn random(seed: u64, conditions: usize, width: usize) -> Sheet {
    let mut random = Random::new(seed);
    let mut sheet = Sheet::new(128);
    for _ in 0..conditions {
        sheet.condition((0..width).map(|_| random_term(&mut random, 128)));
    }
    sheet
}

/// 256 conditions of 2 to 4 terms, four fifths of them "same".
pub fn mixed(seed: u64, lots: usize) -> Sheet {
    let mut random = Random::new(seed);
    let mut sheet = Sheet::new(lots);
    for _ in 0..256 {
        let width = 2 + random.below(3);
        sheet.condition((0..width).map(|_| random_term(&mut random, lots)));
    }
    sheet
}

/// Lots without conditions.
pub fn free(lots: usize) -> Sheet {
    Sheet::new(lots)
}

/// Each two of some lots apart, the first of them 1 and the last `apart_lots`, and lots behind them that no condition names.
pub fn all_apart(apart_lots: usize, lots: usize) -> Sheet {
    let mut sheet = Sheet::new(lots);
    for a in 1..=apart_lots {
        for b in a + 1..=apart_lots {
            sheet.condition([apart(a, b)]);
        }
    }
    sheet
}

/// `edges` random pairs of lots that must be apart, none of them twice.
pub fn graph(seed: u64, lots: usize, edges: usize) -> Sheet {
    let mut random = Random::new(seed);
    let mut pairs: Vec<(usize, usize)> = Vec::new();
    while pairs.len() < edges {
        let (a, b) = (1 + random.below(lots), 1 + random.below(lots));
        if a < b && !pairs.contains(&(a, b)) {
            pairs.push((a, b));
        }
    }
    let mut sheet = Sheet::new(lots);
    for (a, b) in pairs {
        sheet.condition([apart(a, b)]);
    }
    sheet
}

/// Groups that are pairwise apart, `edges` random pairs of `members` lots that must be apart, and each of those lots the same as one of the groups.
pub fn colouring(seed: u64, groups: usize, members: usize, edges: usize) -> Sheet {
    let mut random = Random::new(seed);
    let mut sheet = Sheet::new(groups + members);
    for a in 1..=groups {
        for b in a + 1..=groups {
            sheet.condition([apart(a, b)]);
        }
    }
    for _ in 0..edges {
        let a = random.below(members);
        let b = (a + 1 + random.below(members - 1)) % members;
        sheet.condition([apart(groups + 1 + a, groups + 1 + b)]);
    }
    for v in groups + 1..=groups + members {
        sheet.condition((1..=groups).map(|g| same(v, g)));
    }
    sheet
}

/// Lots 1 to n, each the same as the one after it, and the last apart from the first: 2 * n - 1 nodes.
pub fn chain(n: usize) -> Sheet {
    let mut sheet = Sheet::new(n);
    for a in 1..n {
        sheet.condition([same(a, a + 1)]);
    }
    sheet.condition([apart(1, n)]);
    sheet
}

/// A chain of `links` links, each by one of two ways: from x over y or over z to the next x, four conditions of two terms. The ends are apart.
pub fn two_ways(links: usize) -> Sheet {
    let mut sheet = Sheet::new(3 * links + 1);
    for i in 0..links {
        let (x, y, z, next) = (3 * i + 1, 3 * i + 2, 3 * i + 3, 3 * i + 4);
        for first in [same(x, y), same(y, next)] {
            for second in [same(x, z), same(z, next)] {
                sheet.condition([first, second]);
            }
        }
    }
    sheet.condition([apart(1, 3 * links + 1)]);
    sheet
}

/// A sheet with a withdrawn condition before each of its own, whose vacant records fill it up to 1,024. The nodes are the sheet's, but that grounds name
/// conditions by other numbers.
pub fn half_withdrawn(sheet: Sheet) -> Sheet {
    let (count, room) = (sheet.conditions.len(), 1024 - sheet.records());
    let mut half = Sheet::new(sheet.lots);
    for (i, condition) in sheet.conditions.into_iter().enumerate() {
        half.withdrawn((i + 1) * room / count - i * room / count);
        half.conditions.push(condition);
    }
    half
}

/// A sheet with each lot's number one less, so that lot 1 becomes lot 0 and a sheet of 129 lots can be had. The order of the lots stays, and with it the
/// nodes of the search.
pub fn from_zero(sheet: Sheet) -> Sheet {
    let lots = sheet.lots - 1;
    sheet.renumbered(lots, |lot| lot - 1)
}

/// Lots at both ends and in the middle of the 129 that a term can name.
pub const ENDS: [usize; 6] = [0, 1, 64, 65, 127, 128];

/// As `mixed`, over these lots alone.
pub fn mixed_ends(seed: u64) -> Sheet {
    mixed(seed, ENDS.len()).renumbered(128, |lot| ENDS[lot - 1])
}

/// A condition for each term over these lots, the last of which is the sheet's, behind one "apart a a" for each of them, which no assignment meets.
pub fn each_term_of(lots: [usize; 6]) -> Sheet {
    let mut sheet = Sheet::new(lots[5]);
    lots.into_iter().for_each(|a| sheet.condition([apart(a, a)]));
    for (a, b) in lots.into_iter().flat_map(|a| lots.map(|b| (a, b))) {
        sheet.condition([same(a, b)]);
        sheet.condition([apart(a, b)]);
    }
    sheet
}

/// The first lots, so that all classes of a sheet with no more may count under a limit.
pub const FIRST: [usize; 6] = [0, 1, 2, 3, 4, 5];

/// Two to fifteen conditions of one to three terms over lots 0 to twelve at most, half of them "apart": few enough for a small tree under any limit.
pub fn few(seed: u64) -> Sheet {
    let mut random = Random::new(seed);
    let lots = 2 + random.below(11);
    let mut sheet = Sheet::new(lots);
    for _ in 0..2 + random.below(14) {
        let width = 1 + random.below(3);
        sheet.condition((0..width).map(|_| {
            let (is_same, a, b) = (random.below(2) == 0, random.below(lots + 1), random.below(lots + 1));
            if is_same { same(a, b) } else { apart(a, b) }
        }));
    }
    sheet
}
