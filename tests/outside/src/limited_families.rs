//! Sheets for searches with a limit on the number of classes, whose verdict, count of nodes or depth of path is known by how they are made.
use crate::random::Random;
use second::sheet::Term;
use second::writer::{apart, same};

/// The most lots that can be apart from each other and from lot 0 by one condition for each pair.
pub const MOST_APART: usize = 22;

/// The nodes of a sheet without conditions: a split on lot 0 and the next lot until no more classes are left than the limit, and the met node.
pub fn free_count(lots: usize, limit: usize) -> usize {
    (lots + 1).saturating_sub(limit) + 1
}

/// The grouping that meets a sheet without conditions: the first lots are with lot 0, the others by themselves.
pub fn free_grouping(lots: usize, limit: usize) -> Vec<u8> {
    let joined = (lots + 1).saturating_sub(limit);
    (1..=lots).map(|lot| if lot <= joined { 0 } else { lot as u8 }).collect()
}

/// Every two of the lots 0 to `lots` apart, a condition for each pair, in any order. With fewer classes than lots it cannot be met.
pub fn all_apart(lots: usize, random: &mut Random) -> Vec<Vec<Term>> {
    let pairs = (0..=lots).flat_map(|b| (0..b).map(move |a| (a, b)));
    let mut conditions: Vec<Vec<Term>> = pairs.map(|(a, b)| vec![if random.chance(50) { apart(a, b) } else { apart(b, a) }]).collect();
    random.shuffle(&mut conditions);
    conditions
}

/// The nodes of `all_apart` with a limit that is too small: a split for each pair of the smallest lots, with a ground in its same branch, and the clique.
pub fn all_apart_count(limit: usize) -> usize {
    limit * (limit + 1) + 1
}

/// Splits on conditions, and splits of a limit of 1 below each of them. Lots 0 to `free` - 1 are named nowhere, the two behind them are apart, and one
/// condition has `width` "same" terms on different pairs of the `named` lots behind these. In the same branch of each term, the free lots and one of the two
/// are joined to lot 0, and the other one can't be; a pair that is set apart there is a clique.
pub struct Deep {
    pub free: usize,
    pub named: usize,
    pub width: usize,
}

impl Deep {
    pub fn lots(&self) -> usize {
        self.free + 1 + self.named
    }

    pub fn conditions(&self, random: &mut Random) -> Vec<Vec<Term>> {
        let first = self.free + 2;
        let mut pairs: Vec<Term> = (first..first + self.named).flat_map(|a| (first..a).map(move |b| same(a, b))).collect();
        random.shuffle(&mut pairs);
        pairs.truncate(self.width);
        vec![pairs, vec![apart(self.free, self.free + 1)]]
    }

    /// The splits below a term: lot 0 with each free lot, and with the two behind them.
    fn below(&self) -> usize {
        self.free + 1
    }

    /// The most splits on a path.
    pub fn depth(&self) -> usize {
        self.width + self.below()
    }

    /// A split for each term, with a leaf more than splits below it, and the ground where all of them are apart.
    pub fn count(&self) -> usize {
        self.width * (1 + 2 * self.below() + 1) + 1
    }
}

/// A sheet whose search with a limit of 1 has a longer path than there can be terms. Behind `free` lots that no term names come `rows` lots, lot c, and
/// `columns` lots. The first of the rows is apart from c. The next condition has the terms "same" of each of the rows and c, then of each of the rows and each
/// of the columns, and at last of the first column and c; and each column is the same as c by a condition of its own, so that no row can be the same as a
/// column once it is apart from c. On the path where the last term is the first true one, columns are joined to c, and then the free lots and the rows to lot
/// 0, one by one.
pub struct Deepest {
    pub free: usize,
    pub rows: usize,
    pub columns: usize,
}

/// 128 lots, 12 conditions, and 1,024 terms.
pub const DEEPEST_LIMITED: Deepest = Deepest { free: 26, rows: 92, columns: 10 };

impl Deepest {
    pub fn lots(&self) -> usize {
        self.free + self.rows + self.columns
    }

    pub fn conditions(&self) -> Vec<Vec<Term>> {
        let rows = self.free..self.free + self.rows;
        let c = rows.end;
        let columns = c + 1..=c + self.columns;
        let with_c = rows.clone().map(|row| same(row, c));
        let with_columns = rows.clone().flat_map(|row| columns.clone().map(move |column| same(row, column)));
        let wide = with_c.chain(with_columns).chain([same(c + 1, c)]).collect();
        let joined = columns.clone().map(|column| vec![same(column, c)]);
        [vec![apart(self.free, c)], wide].into_iter().chain(joined).collect()
    }

    /// A split for each term but the two that are decided by then, "apart" and the first column's own, and one for each join to lot 0.
    pub fn depth(&self) -> usize {
        let terms = self.rows * (1 + self.columns) + 1 + self.columns - 1;
        terms + self.free - 1 + self.rows
    }
}
