//! Refusals: which check refused, and where.
use crate::limits::{HEADER_LENGTH, MOST_CONDITIONS, MOST_LIMIT, MOST_LOTS, MOST_TERMS};
use crate::raw::Numbers;
use std::error::Error;
use std::fmt;

/// A check of documents 01 and 02, known by its number.
#[derive(Clone, Copy, Debug, PartialEq, Eq, PartialOrd, Ord, Hash)]
pub struct Check(u32);

/// What a check looks at.
#[derive(Clone, Copy, Debug, PartialEq, Eq, Hash)]
#[non_exhaustive]
pub enum Subject {
    /// The sheet's own bytes.
    Sheet,
    /// The grouping lent to a search or a reassignment, or given to be evaluated or counted.
    Grouping,
    /// The store lent to a search.
    Store,
    /// The list given to the refutation checker.
    List,
    /// The output lent for a sheet.
    Output,
    /// The sheet that two make together.
    Merged,
    /// The limit on the number of classes.
    Limit,
    /// The lot that a reassignment gives another number.
    Lot,
    /// The running count that a reassignment goes on from.
    RunningCount,
}

/// A service's refusal: the first check that failed, and its place as the table gives it. Further fields may come.
///
/// ```
/// let refusal = lihumbay::read(&[3, 0, 1, 0]).unwrap_err();
/// assert_eq!(refusal.check.number(), 1);
/// assert_eq!(refusal.to_string(), "check 1, the sheet is shorter than its header of 6 bytes");
/// ```
#[derive(Clone, Copy, Debug, PartialEq, Eq, Hash)]
#[non_exhaustive]
pub struct Refusal {
    /// The check that refused.
    pub check: Check,
    /// Where: a condition, a record, a lot, a count, a length or a limit, as the check says; 0 where it says none.
    pub place: u32,
}

/// What a check's place is a number of.
#[derive(Clone, Copy)]
enum Place {
    None,
    Count,
    Condition,
    TermRecord,
    Lots,
    Records,
    ListRecord,
    Bytes,
    Limit,
    Lot,
    RunningCount,
    Unknown,
}

struct Row {
    number: u32,
    subject: Subject,
    place: Place,
    when: &'static str,
}

const fn row(number: u32, subject: Subject, place: Place, when: &'static str) -> Row {
    Row { number, subject, place, when }
}

/// The table of document 01, and the checks of document 02. A check that isn't here comes from a later archive, and gets a general sentence.
const TABLE: &[Row] = &[
    row(1, Subject::Sheet, Place::None, "the sheet is shorter than its header of 6 bytes"),
    row(2, Subject::Sheet, Place::Count, "a number in the header is above its most"),
    row(3, Subject::Sheet, Place::None, "the sheet's length isn't the one that its header gives"),
    row(4, Subject::Sheet, Place::Condition, "a condition's first record is above the number of records"),
    row(5, Subject::Sheet, Place::TermRecord, "a term's sign, spare byte, lot or next record is out of range"),
    row(6, Subject::Sheet, Place::TermRecord, "a term's record is reached a second time"),
    row(7, Subject::Sheet, Place::TermRecord, "a term's record is reached from no condition"),
    row(8, Subject::Grouping, Place::Lots, "the grouping is shorter than the number of lots"),
    row(9, Subject::Store, Place::Records, "the store is full"),
    row(10, Subject::List, Place::None, "the list is empty, too long, or not made of whole records"),
    row(
        11,
        Subject::List,
        Place::ListRecord,
        "a record's kind, spare byte, lot or condition is out of range, or an unused field of a ground or clique isn't 0",
    ),
    row(
        12,
        Subject::List,
        Place::ListRecord,
        "a ground's condition is withdrawn or has a term that isn't false there, or a clique has too few classes or two not apart",
    ),
    row(13, Subject::List, Place::ListRecord, "a split's next isn't the record where its apart branch begins"),
    row(14, Subject::List, Place::ListRecord, "a record is left over, or missing"),
    row(15, Subject::List, Place::ListRecord, "too many splits stand above a split"),
    row(16, Subject::Output, Place::Bytes, "the output is shorter than the packed sheet"),
    row(17, Subject::Sheet, Place::TermRecord, "a vacant record is reached from a condition"),
    row(18, Subject::Merged, Place::Count, "a count of the merged sheet is above its most"),
    row(19, Subject::Output, Place::Bytes, "the output is shorter than the merged sheet"),
    row(20, Subject::Limit, Place::Limit, "the limit on the number of classes is 0 or above 129"),
    row(21, Subject::Lot, Place::Lot, "the lot to reassign is 0 or above the number of lots"),
    row(
        22,
        Subject::RunningCount,
        Place::RunningCount,
        "the running count is above the number of conditions, or below that of the unmet ones naming the lot",
    ),
];

const _: () = assert!(HEADER_LENGTH == 6, "check 1's sentence names the length");
const _: () = assert!(MOST_LIMIT == 129, "check 20's sentence names the most");

impl Check {
    /// The check with this number, known or not.
    pub const fn new(number: u32) -> Self {
        Check(number)
    }

    /// The check's number in the table.
    pub const fn number(self) -> u32 {
        self.0
    }

    /// What the check looks at, if this version knows the check.
    pub fn subject(self) -> Option<Subject> {
        self.row().map(|row| row.subject)
    }

    /// When the check refuses, in words.
    pub fn sentence(self) -> &'static str {
        self.row().map_or("a check that this version doesn't know", |row| row.when)
    }

    fn row(self) -> Option<&'static Row> {
        TABLE.iter().find(|row| row.number == self.0)
    }

    fn place(self) -> Place {
        self.row().map_or(Place::Unknown, |row| row.place)
    }
}

impl fmt::Display for Check {
    fn fmt(&self, f: &mut fmt::Formatter) -> fmt::Result {
        write!(f, "check {}, {}", self.0, self.sentence())
    }
}

impl Refusal {
    /// The numbers as they are, unless a check refused.
    pub(crate) fn or_numbers(numbers: Numbers) -> Result<Numbers, Refusal> {
        match numbers.check {
            0 => Ok(numbers),
            check => Err(Refusal { check: Check(check), place: numbers.first }),
        }
    }
}

impl fmt::Display for Refusal {
    fn fmt(&self, f: &mut fmt::Formatter) -> fmt::Result {
        let place = self.place;
        write!(f, "{}", self.check)?;
        match (self.check.place(), place) {
            (Place::None, _) => Ok(()),
            (Place::Count, 1) => write!(f, ": lots, at most {MOST_LOTS}"),
            (Place::Count, 2) => write!(f, ": conditions, at most {MOST_CONDITIONS}"),
            (Place::Count, 3) => write!(f, ": terms, at most {MOST_TERMS}"),
            (Place::Condition, _) => write!(f, ": condition {place}"),
            (Place::TermRecord | Place::ListRecord, _) => write!(f, ": record {place}"),
            (Place::Lots, _) => write!(f, ": lots {place}"),
            (Place::Records, _) => write!(f, ": records {place}"),
            (Place::Bytes, _) => write!(f, ": bytes {place}"),
            (Place::Limit, _) => write!(f, ": limit {place}"),
            (Place::Lot, _) => write!(f, ": lot {place}"),
            (Place::RunningCount, _) => write!(f, ": running count {place}"),
            (Place::Count | Place::Unknown, _) => write!(f, ": place {place}"),
        }
    }
}

impl Error for Refusal {}

#[cfg(test)]
mod tests {
    use super::*;

    fn text(check: u32, place: u32) -> String {
        Refusal { check: Check(check), place }.to_string()
    }

    #[test]
    fn the_table_has_each_check_once_in_order() {
        assert!(TABLE.iter().map(|row| row.number).eq(1..=22));
    }

    #[test]
    fn places_are_said_in_words() {
        assert_eq!(text(2, 3), "check 2, a number in the header is above its most: terms, at most 1024");
        assert_eq!(text(4, 3), "check 4, a condition's first record is above the number of records: condition 3");
        assert_eq!(text(8, 5), "check 8, the grouping is shorter than the number of lots: lots 5");
        assert_eq!(text(9, 0), "check 9, the store is full: records 0");
        assert_eq!(text(14, 6), "check 14, a record is left over, or missing: record 6");
        assert_eq!(text(16, 34), "check 16, the output is shorter than the packed sheet: bytes 34");
        assert_eq!(text(17, 2), "check 17, a vacant record is reached from a condition: record 2");
        assert_eq!(text(18, 2), "check 18, a count of the merged sheet is above its most: conditions, at most 256");
        assert_eq!(text(18, 3), "check 18, a count of the merged sheet is above its most: terms, at most 1024");
        assert_eq!(text(19, 62), "check 19, the output is shorter than the merged sheet: bytes 62");
        assert_eq!(text(20, 130), "check 20, the limit on the number of classes is 0 or above 129: limit 130");
        assert_eq!(text(21, 257), "check 21, the lot to reassign is 0 or above the number of lots: lot 257");
        let count = "check 22, the running count is above the number of conditions, or below that of the unmet ones naming the lot: running count 3";
        assert_eq!(text(22, 3), count);
    }

    #[test]
    fn unknown_numbers_get_a_general_sentence() {
        assert_eq!(text(99, 7), "check 99, a check that this version doesn't know: place 7");
        assert_eq!(text(2, 9), "check 2, a number in the header is above its most: place 9");
        assert_eq!(Check::new(99).subject(), None);
    }
}
