//! Groupings: a number for each lot.
use crate::limits::ZERO_LOT;
use std::borrow::Cow;

/// The number that lot 0 has in every grouping.
const ZERO_LOT_CLASS: u8 = 0;

/// A byte for each lot from lot 1 on; lots with the same byte are in one group. Lot 0 has no byte: its number is 0, so that the lots with byte 0 are together
/// with it. In a search's grouping the byte is the smallest lot of the group.
///
/// ```
/// let grouping = lihumbay::Grouping::from([1, 0, 1].as_slice());
/// assert_eq!((grouping.class_of(3), grouping.class_of(0)), (Some(1), Some(0)));
/// assert_eq!(grouping.groups(), [vec![0, 2], vec![1, 3]]);
/// assert_eq!(grouping.with_zero_lot(), [2]);
/// ```
#[derive(Clone, Debug, PartialEq, Eq, Hash)]
pub struct Grouping<'a>(Cow<'a, [u8]>);

impl Grouping<'_> {
    /// The bytes, as [`evaluate`](crate::evaluate) and [`count_unmet`](crate::count_unmet) take them.
    pub fn as_bytes(&self) -> &[u8] {
        &self.0
    }

    /// The number of lots, from lot 1 on: lot 0 isn't counted.
    pub fn lots(&self) -> usize {
        self.0.len()
    }

    /// The number that a lot has, if there is such a lot. Lot 0 is always there, and has the number 0.
    pub fn class_of(&self, lot: u16) -> Option<u8> {
        match usize::from(lot).checked_sub(1) {
            Some(index) => self.0.get(index).copied(),
            None => Some(ZERO_LOT_CLASS),
        }
    }

    /// The groups, each a rising list of lots, in the order of their smallest lots. Where lots are together with lot 0, their group begins with it and is the
    /// first; lot 0 by itself is not listed, so that a grouping without a byte 0 has groups of the lots from 1 on alone.
    pub fn groups(&self) -> Vec<Vec<usize>> {
        let mut groups: Vec<Vec<usize>> = Vec::new();
        let mut group_of = [None; 256];
        if self.0.contains(&ZERO_LOT_CLASS) {
            groups.push(vec![ZERO_LOT.into()]);
            group_of[usize::from(ZERO_LOT_CLASS)] = Some(0);
        }
        for (lot, class) in self.numbered() {
            let group = *group_of[usize::from(class)].get_or_insert_with(|| {
                groups.push(Vec::new());
                groups.len() - 1
            });
            groups[group].push(lot);
        }
        groups
    }

    /// The lots together with lot 0, rising and without lot 0 itself.
    pub fn with_zero_lot(&self) -> Vec<usize> {
        self.numbered().filter(|&(_, class)| class == ZERO_LOT_CLASS).map(|(lot, _)| lot).collect()
    }

    /// The lots from 1 on, each with its number.
    fn numbered(&self) -> impl Iterator<Item = (usize, u8)> {
        (1..).zip(self.0.iter().copied())
    }

    /// The bytes, to be written. A grouping that is lent gets bytes of its own.
    pub(crate) fn bytes_mut(&mut self) -> &mut [u8] {
        self.0.to_mut()
    }

    /// The same grouping with bytes of its own.
    pub fn into_owned(self) -> Grouping<'static> {
        Grouping(Cow::Owned(self.0.into_owned()))
    }
}

impl<'a> From<&'a [u8]> for Grouping<'a> {
    fn from(bytes: &'a [u8]) -> Self {
        Grouping(Cow::Borrowed(bytes))
    }
}

impl From<Vec<u8>> for Grouping<'_> {
    fn from(bytes: Vec<u8>) -> Self {
        Grouping(Cow::Owned(bytes))
    }
}

#[cfg(test)]
mod tests {
    use super::*;

    #[test]
    fn any_bytes_have_groups() {
        assert_eq!(Grouping::from([255, 3, 255, 3, 9].as_slice()).groups(), [vec![1, 3], vec![2, 4], vec![5]]);
        assert!(Grouping::from(Vec::new()).groups().is_empty());
    }

    #[test]
    fn lots_with_byte_0_are_together_with_lot_0() {
        let grouping = Grouping::from([255, 0, 255, 0, 9].as_slice());
        assert_eq!(grouping.groups(), [vec![0, 2, 4], vec![1, 3], vec![5]]);
        assert_eq!(grouping.with_zero_lot(), [2, 4]);
        assert_eq!(Grouping::from(vec![0; 2]).groups(), [vec![0, 1, 2]]);
        assert!(Grouping::from(vec![1, 2]).with_zero_lot().is_empty());
    }

    #[test]
    fn lots_are_counted_past_two_bytes() {
        let groups = Grouping::from([7, 9].repeat(40_000)).groups();
        assert_eq!(groups.len(), 2);
        assert_eq!(groups.iter().flatten().sum::<usize>(), (1..=80_000).sum());
        assert_eq!((groups[0].last(), groups[1].last()), (Some(&79_999), Some(&80_000)));
    }

    #[test]
    fn a_lot_out_of_range_has_no_class() {
        let grouping = Grouping::from(vec![1, 1]);
        assert_eq!((grouping.class_of(2), grouping.class_of(3)), (Some(1), None));
    }

    #[test]
    fn lot_0_has_the_number_0_whatever_the_bytes() {
        for bytes in [vec![], vec![0], vec![1, 1], vec![255; 128]] {
            assert_eq!(Grouping::from(bytes).class_of(0), Some(0));
        }
    }
}
