//! The bytes of a sheet, and the way back.
use crate::limits::{HEAD_LENGTH, HEADER_LENGTH, sheet_length};
use crate::refusal::Refusal;
use crate::services::read;
use crate::sheet::Sheet;
use crate::term::Term;

const SIGN_SAME: u8 = 1;
const SIGN_APART: u8 = 2;

impl Sheet {
    /// The canonical bytes: the records of condition 1 first, in order, then those of condition 2, and so on, so that each chain runs through neighbouring
    /// records; a withdrawn condition has head zero, and no record is vacant. Two sheets have the same bytes only if they are the same.
    /// [`repack`](crate::repack) writes them from bytes in another order.
    ///
    /// ```
    /// let sheet: lihumbay::Sheet = "apart 1 2".parse()?;
    /// assert_eq!(sheet.to_bytes(), [2, 0, 1, 0, 1, 0, 1, 0, 2, 0, 1, 0, 2, 0, 0, 0]);
    /// # Ok::<(), lihumbay::TextError>(())
    /// ```
    pub fn to_bytes(&self) -> Vec<u8> {
        let (conditions, terms) = (self.conditions().len(), self.term_count());
        let mut bytes = Vec::with_capacity(sheet_length(conditions, terms));
        for count in [usize::from(self.lots()), conditions, terms] {
            bytes.extend(two_bytes(count));
        }
        let mut records = 0;
        for condition in self.conditions() {
            let length = condition.terms().len();
            bytes.extend(two_bytes(if length == 0 { 0 } else { records + 1 }));
            records += length;
        }
        let mut number = 0;
        for condition in self.conditions() {
            let last = number + condition.terms().len();
            for &term in condition.terms() {
                number += 1;
                push_term(&mut bytes, term, if number == last { 0 } else { number + 1 });
            }
        }
        bytes
    }

    /// The sheet of bytes with their records in any order, vacant ones among them, once the reader has accepted them.
    ///
    /// ```
    /// use lihumbay::{Sheet, Term};
    /// let sheet = Sheet::from_bytes(&[2, 0, 1, 0, 1, 0, 1, 0, 2, 0, 1, 0, 2, 0, 0, 0])?;
    /// assert_eq!(sheet.conditions()[0].terms(), [Term::Apart(1, 2)]);
    /// # Ok::<(), lihumbay::Refusal>(())
    /// ```
    pub fn from_bytes(bytes: &[u8]) -> Result<Sheet, Refusal> {
        let reading = read(bytes)?;
        let condition = |number| Chain::of(bytes, reading.conditions, number).map(|at| term_at(bytes, at)).collect::<Vec<_>>().into();
        Ok(Sheet::accepted(two_at(bytes, 0), (1..=reading.conditions).map(condition).collect()))
    }
}

/// Where a condition's head stands in a sheet's bytes.
pub(crate) fn head_place(condition: u32) -> usize {
    HEADER_LENGTH + HEAD_LENGTH * (condition as usize - 1)
}

/// Where the records of a condition's chain stand in the bytes of an accepted sheet: the chain ends, and each of its records is there.
pub(crate) struct Chain<'a> {
    sheet: &'a [u8],
    conditions: u32,
    next: u16,
}

impl<'a> Chain<'a> {
    /// The chain of a condition, of a sheet that has so many.
    pub fn of(sheet: &'a [u8], conditions: u32, condition: u32) -> Self {
        Chain { sheet, conditions, next: two_at(sheet, head_place(condition)) }
    }
}

impl Iterator for Chain<'_> {
    type Item = usize;

    fn next(&mut self) -> Option<usize> {
        let index = usize::from(self.next).checked_sub(1)?;
        let at = sheet_length(self.conditions as usize, index);
        self.next = two_at(self.sheet, at + 6);
        Some(at)
    }
}

fn term_at(sheet: &[u8], at: usize) -> Term {
    let (a, b) = (two_at(sheet, at + 2), two_at(sheet, at + 4));
    if sheet[at] == SIGN_SAME { Term::Same(a, b) } else { Term::Apart(a, b) }
}

fn push_term(bytes: &mut Vec<u8>, term: Term, next: usize) {
    let (sign, a, b) = match term {
        Term::Same(a, b) => (SIGN_SAME, a, b),
        Term::Apart(a, b) => (SIGN_APART, a, b),
    };
    bytes.extend([sign, 0]);
    bytes.extend(a.to_le_bytes());
    bytes.extend(b.to_le_bytes());
    bytes.extend(two_bytes(next));
}

/// A number of a sheet, none of which passes 65,535: `limits` asserts it.
fn two_bytes(number: usize) -> [u8; 2] {
    u16::try_from(number).expect("a sheet's limits are below 65,536").to_le_bytes()
}

fn two_at(bytes: &[u8], at: usize) -> u16 {
    u16::from_le_bytes([bytes[at], bytes[at + 1]])
}

#[cfg(test)]
mod tests {
    use super::*;
    use crate::sheet::SheetBuilder;

    /// Sheet C with records 1, 2, 3 at places 3, 1, 2.
    const SHUFFLED: &[u8] = include_bytes!("../../samples/c-in-another-order.sheet");

    #[test]
    fn records_in_any_order_become_canonical() {
        let canonical: &[u8] = include_bytes!("../../samples/c.sheet");
        let sheet = Sheet::from_bytes(SHUFFLED).unwrap();
        assert_eq!(sheet, Sheet::from_bytes(canonical).unwrap());
        assert_eq!(sheet.to_bytes(), canonical);
    }

    #[test]
    fn vacant_records_are_not_in_the_sheet() {
        let bytes = [1, 0, 2, 0, 3, 0, 0, 0, 2, 0, 0, 0, 0, 0, 0, 0, 0, 0, 2, 0, 1, 0, 1, 0, 0, 0, 0, 0, 0, 0, 0, 0, 0, 0];
        let sheet = Sheet::from_bytes(&bytes).unwrap();
        assert_eq!((sheet.conditions()[0].terms(), sheet.conditions()[1].terms()), ([].as_slice(), [Term::Apart(1, 1)].as_slice()));
        assert_eq!(sheet.to_bytes(), [1, 0, 2, 0, 1, 0, 0, 0, 1, 0, 2, 0, 1, 0, 1, 0, 0, 0]);
    }

    /// Sign 1 and zeros are the term "same 0 0"; a record is vacant where the sign is zero too.
    #[test]
    fn a_term_over_lot_0_alone_is_not_vacant() {
        let bytes = [0, 0, 1, 0, 2, 0, 1, 0, 1, 0, 0, 0, 0, 0, 0, 0, 0, 0, 0, 0, 0, 0, 0, 0];
        let sheet = Sheet::from_bytes(&bytes).unwrap();
        assert_eq!((sheet.lots(), sheet.conditions()[0].terms()), (0, [Term::Same(0, 0)].as_slice()));
        assert_eq!(sheet.to_bytes(), [0, 0, 1, 0, 1, 0, 1, 0, 1, 0, 0, 0, 0, 0, 0, 0]);
    }

    #[test]
    fn a_withdrawn_condition_has_head_zero() {
        let mut builder = SheetBuilder::new(1).unwrap();
        builder.condition([]).unwrap().condition([Term::Apart(1, 1)]).unwrap();
        let bytes = builder.finish().to_bytes();
        assert_eq!(bytes, [1, 0, 2, 0, 1, 0, 0, 0, 1, 0, 2, 0, 1, 0, 1, 0, 0, 0]);
        assert_eq!(Sheet::from_bytes(&bytes).unwrap().to_bytes(), bytes);
    }

    #[test]
    fn refused_bytes_have_no_sheet() {
        assert_eq!(Sheet::from_bytes(&SHUFFLED[..33]).unwrap_err().check.number(), 3);
    }
}
