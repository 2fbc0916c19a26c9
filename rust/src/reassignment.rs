//! Lists of reassignments in text.
use crate::line::Line;
use crate::text_error::TextError;
use std::fmt;

/// A lot and the number that it gets in a grouping, as [`Running::reassign`](crate::Running::reassign) takes them.
///
/// ```
/// use lihumbay::Reassignment;
/// let list = Reassignment::list("# two of them\n2 8\n\n3 0 # together with lot 0\n")?;
/// assert_eq!(list, [Reassignment { lot: 2, value: 8 }, Reassignment { lot: 3, value: 0 }]);
/// assert_eq!(list[0].to_string(), "2 8");
/// let error = Reassignment::list("2 8\n3 256").unwrap_err();
/// assert_eq!(error.to_string(), "line 2, column 3: `256`: a number from 0 to 255 should stand here");
/// # Ok::<(), lihumbay::TextError>(())
/// ```
#[derive(Clone, Copy, Debug, PartialEq, Eq, Hash)]
pub struct Reassignment {
    /// The lot. Any number may stand here; one that the sheet doesn't have, or 0, is refused by check 21.
    pub lot: u32,
    /// Its new number, which is its byte in the grouping.
    pub value: u8,
}

impl Reassignment {
    /// Reads a list: a lot and its new number on each line. `#` begins a comment, and empty lines are passed over, as in a sheet's text.
    pub fn list(text: &str) -> Result<Vec<Reassignment>, TextError> {
        let lines = (1..).zip(text.lines()).map(|(number, text)| Line::of(number, text));
        lines.filter_map(|mut line| line.peek().map(|_| line.reassignment())).collect()
    }
}

/// The line of a list: the lot, and its new number.
impl fmt::Display for Reassignment {
    fn fmt(&self, f: &mut fmt::Formatter) -> fmt::Result {
        write!(f, "{} {}", self.lot, self.value)
    }
}

#[cfg(test)]
mod tests {
    use super::*;

    fn error(text: &str) -> (usize, usize, String) {
        let error = Reassignment::list(text).unwrap_err();
        (error.line, error.column, error.why)
    }

    #[test]
    fn comments_spaces_and_empty_lines_are_passed_over() {
        let list = Reassignment::list("# first\n\n  3 1 # one\r\n\t02\t255\n #\n").unwrap();
        assert_eq!(list, [Reassignment { lot: 3, value: 1 }, Reassignment { lot: 2, value: 255 }]);
        assert_eq!(Reassignment::list(""), Ok(vec![]));
    }

    /// What no sheet has is refused when it is reassigned, with its check; it is no error of the text.
    #[test]
    fn any_lot_of_32_bits_can_be_named() {
        let list = Reassignment::list("0 1\n257 1\n4294967295 1").unwrap();
        assert_eq!(list.iter().map(|one| one.lot).collect::<Vec<_>>(), [0, 257, u32::MAX]);
    }

    #[test]
    fn errors_say_where() {
        let cases = [
            ("3", 2, "a number from 0 to 255 is missing"),
            ("3 # 1", 2, "a number from 0 to 255 is missing"),
            ("x 1", 1, "`x`: a lot's number should stand here"),
            ("-1 1", 1, "`-1`: a lot's number should stand here"),
            ("4294967296 1", 1, "`4294967296`: a lot's number should stand here"),
            ("3 256", 3, "`256`: a number from 0 to 255 should stand here"),
            ("3 +1", 3, "`+1`: a number from 0 to 255 should stand here"),
            ("3 1 2", 5, "`2`: the end of the line should stand here"),
            ("3 1|2 1", 4, "`|`: the end of the line should stand here"),
        ];
        for (text, column, why) in cases {
            assert_eq!(error(text), (1, column, why.to_string()), "{text}");
        }
        assert_eq!(error("3 1\n\n 3").0, 3);
    }
}
