//! Sheets in the making, and their bytes.
use crate::random::Random;

/// The most bytes that a sheet has.
pub const MOST_BYTES: usize = 6 + 2 * 256 + 8 * 1024;

#[derive(Clone, Copy, Debug, PartialEq, Eq)]
pub enum Sign {
    Same,
    Apart,
}

/// A term over lots by their numbers: 1 to as many as the sheet has, and 0.
#[derive(Clone, Copy, Debug, PartialEq, Eq)]
pub struct Term {
    pub sign: Sign,
    pub a: usize,
    pub b: usize,
}

pub fn same(a: usize, b: usize) -> Term {
    Term { sign: Sign::Same, a, b }
}

pub fn apart(a: usize, b: usize) -> Term {
    Term { sign: Sign::Apart, a, b }
}

/// A condition has terms, or it is withdrawn and has none: then it has left vacant records where its terms stood.
#[derive(Clone, Debug, Default)]
pub struct Condition {
    pub terms: Vec<Term>,
    pub vacant: usize,
}

impl Condition {
    /// The term records that it takes up in a sheet that isn't packed.
    fn records(&self) -> usize {
        self.terms.len() + self.vacant
    }

    pub fn withdraw(&mut self) {
        self.vacant = self.records();
        self.terms.clear();
    }
}

#[derive(Clone, Debug)]
pub struct Sheet {
    pub lots: usize,
    pub conditions: Vec<Condition>,
}

impl Sheet {
    pub fn new(lots: usize) -> Sheet {
        Sheet { lots, conditions: Vec::new() }
    }

    pub fn condition(&mut self, terms: impl IntoIterator<Item = Term>) {
        self.conditions.push(Condition { terms: terms.into_iter().collect(), vacant: 0 });
    }

    /// A withdrawn condition that has left `vacant` records.
    pub fn withdrawn(&mut self, vacant: usize) {
        self.conditions.push(Condition { terms: Vec::new(), vacant });
    }

    /// Withdraws condition 1, and behind it each `step`-th one.
    pub fn withdraw_each(&mut self, step: usize) {
        self.conditions.iter_mut().step_by(step).for_each(Condition::withdraw);
    }

    /// The same conditions over so many lots, with other numbers for the lots that they name.
    pub fn renumbered(mut self, lots: usize, number: impl Fn(usize) -> usize) -> Sheet {
        self.lots = lots;
        for term in self.conditions.iter_mut().flat_map(|condition| &mut condition.terms) {
            (term.a, term.b) = (number(term.a), number(term.b));
        }
        self
    }

    /// Whether a term names lot 0.
    pub fn names_zero(&self) -> bool {
        self.conditions.iter().flat_map(|condition| &condition.terms).any(|term| term.a == 0 || term.b == 0)
    }

    /// The term records, vacant ones among them.
    pub fn records(&self) -> usize {
        self.conditions.iter().map(Condition::records).sum()
    }

    pub fn longest(&self) -> usize {
        self.conditions.iter().map(|condition| condition.terms.len()).max().unwrap_or(0)
    }

    pub fn terms(&self) -> usize {
        self.conditions.iter().map(|condition| condition.terms.len()).sum()
    }

    /// The bytes with the records in the order of the conditions and of their terms; vacant ones stand in the place of their conditions.
    pub fn bytes(&self) -> Vec<u8> {
        self.bytes_in((1..=self.records()).collect())
    }

    /// The bytes of the packed sheet, which has no vacant record.
    pub fn packed(&self) -> Vec<u8> {
        let mut sheet = self.clone();
        sheet.conditions.iter_mut().for_each(|condition| condition.vacant = 0);
        sheet.bytes()
    }

    /// The same conditions with the records in a random order.
    pub fn bytes_shuffled(&self, seed: u64) -> Vec<u8> {
        let mut random = Random::new(seed);
        let mut places: Vec<usize> = (1..=self.records()).collect();
        for i in (1..places.len()).rev() {
            places.swap(i, random.below(i + 1));
        }
        self.bytes_in(places)
    }

    /// `places` gives the number of each record, the records counted through all conditions.
    fn bytes_in(&self, places: Vec<usize>) -> Vec<u8> {
        let mut heads = Vec::new();
        let mut records = vec![[0; 4]; places.len()];
        let mut places = places.into_iter();
        for condition in &self.conditions {
            let mut own: Vec<usize> = places.by_ref().take(condition.records()).collect();
            own.truncate(condition.terms.len());
            heads.push(own.first().copied().unwrap_or(0));
            for (i, term) in condition.terms.iter().enumerate() {
                let sign = if term.sign == Sign::Same { 1 } else { 2 };
                records[own[i] - 1] = [sign, term.a, term.b, own.get(i + 1).copied().unwrap_or(0)];
            }
        }
        let header = [self.lots, self.conditions.len(), records.len()];
        let numbers = header.into_iter().chain(heads).chain(records.into_iter().flatten());
        numbers.flat_map(|x| (x as u16).to_le_bytes()).collect()
    }
}

#[cfg(test)]
mod tests {
    use super::*;

    #[test]
    fn a_withdrawn_condition_leaves_vacant_records_which_packing_drops() {
        let mut sheet = Sheet::new(2);
        sheet.condition([same(1, 2), apart(1, 2)]);
        sheet.condition([apart(1, 1)]);
        sheet.conditions[0].withdraw();
        let (front, last) = ([2, 0, 2, 0], [2, 0, 1, 0, 1, 0, 0, 0]);
        assert_eq!(sheet.bytes(), [&front[..], &[3, 0, 0, 0, 3, 0], &[0; 16], &last].concat());
        assert_eq!(sheet.packed(), [&front[..], &[1, 0, 0, 0, 1, 0], &last].concat());
    }
}
