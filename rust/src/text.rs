//! The text form of a sheet.
use crate::limits::MOST_LOTS;
use crate::line::{Line, Written};
use crate::sheet::{LimitError, Sheet, SheetBuilder};
use crate::text_error::TextError;
use std::fmt;
use std::str::FromStr;

/// The word before the number of lots.
const LOTS: &str = "lots";

/// The text form: the line `lots N`, then a line for each condition, which [`FromStr`] reads back as the same sheet.
impl fmt::Display for Sheet {
    fn fmt(&self, f: &mut fmt::Formatter) -> fmt::Result {
        writeln!(f, "{LOTS} {}", self.lots())?;
        self.conditions().iter().try_for_each(|condition| writeln!(f, "{condition}"))
    }
}

/// Reads the text form: one condition a line, its terms parted by `|`; a condition with no term, which everything meets, is the line `withdrawn`. The line
/// `lots N` may stand before the conditions; without it the highest lot named is the last. Lot 0 is named as any other lot, and N doesn't count it. `#` begins
/// a comment, and empty lines are passed over.
///
/// ```
/// let text = "lots 3\nsame 1 2 | apart 2 3\nwithdrawn\n";
/// let sheet: lihumbay::Sheet = text.parse()?;
/// assert_eq!(sheet.to_string(), text);
/// assert_eq!("same 0 1 | apart 2 0".parse::<lihumbay::Sheet>()?.lots(), 2);
/// let error = "same 1 2 |".parse::<lihumbay::Sheet>().unwrap_err();
/// assert_eq!(error.to_string(), "line 1, column 11: a term should stand here: `same` or `apart`, and two lots");
/// # Ok::<(), lihumbay::TextError>(())
/// ```
impl FromStr for Sheet {
    type Err = TextError;

    fn from_str(text: &str) -> Result<Sheet, TextError> {
        let mut declared = None;
        let mut conditions = Vec::new();
        for (number, text) in (1..).zip(text.lines()) {
            let mut line = Line::of(number, text);
            match line.peek() {
                None => {}
                Some(LOTS) if declared.is_some() || !conditions.is_empty() => {
                    return Err(line.error("`lots` stands once, before the conditions"));
                }
                Some(LOTS) => declared = Some(line.lots()?),
                Some(_) => conditions.push(line.condition()?),
            }
        }
        match declared {
            Some(builder) => built(builder, conditions),
            None => built(with_lots_named(&conditions)?, conditions),
        }
    }
}

/// A sheet with the lots that the conditions name. There are no more than a sheet can have, and a lot above them is refused where it stands.
fn with_lots_named(conditions: &[Written]) -> Result<SheetBuilder, TextError> {
    let lots = conditions.iter().flat_map(Written::lots).max().unwrap_or(0);
    let most = u16::try_from(MOST_LOTS).unwrap_or(u16::MAX);
    SheetBuilder::new(lots.min(most)).map_err(|limit| TextError { line: 1, column: 1, why: limit.reason() })
}

fn built(mut builder: SheetBuilder, conditions: Vec<Written>) -> Result<Sheet, TextError> {
    for written in &conditions {
        if let Err(limit) = builder.condition(written.terms()) {
            return Err(TextError { line: written.line, column: column_of(written, limit), why: limit.reason() });
        }
    }
    Ok(builder.finish())
}

/// The column of what breaks a limit.
fn column_of(written: &Written, limit: LimitError) -> usize {
    match limit {
        LimitError::Terms { term, .. } => written.column_of_term(term),
        LimitError::Lot { term, lot, .. } => written.column_of_lot(term, lot),
        _ => written.column,
    }
}

#[cfg(test)]
mod tests {
    use super::*;
    use crate::term::Term;

    fn error(text: &str) -> (usize, usize, String) {
        let error = text.parse::<Sheet>().unwrap_err();
        (error.line, error.column, error.why)
    }

    #[test]
    fn comments_spaces_and_empty_lines_are_passed_over() {
        let sheet: Sheet = "# first\n\n  lots 4 # four\r\n\tsame 1 2|apart  2 3\n #\nwithdrawn # no term".parse().unwrap();
        assert_eq!(sheet.lots(), 4);
        assert_eq!(sheet.conditions()[0].terms(), [Term::Same(1, 2), Term::Apart(2, 3)]);
        assert_eq!(sheet.conditions()[1].terms(), []);
        assert_eq!(sheet.conditions().len(), 2);
    }

    #[test]
    fn lots_are_those_named_where_no_line_says() {
        assert_eq!("same 1 5\napart 2 3".parse::<Sheet>().unwrap().lots(), 5);
        assert_eq!("".parse::<Sheet>().unwrap(), Sheet::default());
        assert_eq!("withdrawn".parse::<Sheet>().unwrap().lots(), 0);
    }

    #[test]
    fn lot_0_is_named_as_any_other_and_not_counted() {
        let sheet: Sheet = "same 0 3 | apart 00 0\nsame 2 0".parse().unwrap();
        assert_eq!(sheet.lots(), 3);
        assert_eq!(sheet.conditions()[0].terms(), [Term::Same(0, 3), Term::Apart(0, 0)]);
        assert_eq!(sheet.to_string(), "lots 3\nsame 0 3 | apart 0 0\nsame 2 0\n");
        assert_eq!("same 0 0\napart 0 0".parse::<Sheet>().unwrap().to_string(), "lots 0\nsame 0 0\napart 0 0\n");
    }

    #[test]
    fn errors_say_where() {
        assert_eq!(error("same 1 2\n  sme 1 2").0, 2);
        let cases = [
            ("sme 1 2", 1, "`sme`: a term should stand here: `same` or `apart`, and two lots"),
            ("same 1", 7, "a lot's number is missing"),
            ("same 1 x", 8, "`x`: a lot's number should stand here"),
            ("same 1 +2", 8, "`+2`: a lot's number should stand here"),
            ("same 1 2 apart 1 2", 10, "`apart`: `|` or the end of the line should stand here"),
            ("same 1 2 || apart 1 2", 11, "`|`: a term should stand here: `same` or `apart`, and two lots"),
            ("withdrawn | same 1 2", 11, "`|`: the end of the line should stand here"),
            ("same 1 2 | withdrawn", 12, "`withdrawn`: a term should stand here: `same` or `apart`, and two lots"),
            ("lots 3 4", 8, "`4`: the end of the line should stand here"),
            ("lots", 5, "the number of lots is missing"),
            ("lots 129", 6, "129 lots: a sheet has at most 128"),
            ("same 99999 1", 6, "`99999`: a lot's number should stand here"),
            ("same 1 2 | apart 1 200", 20, "lot 200 is out of range: lots count from 0 to 128"),
            ("same 0 -1", 8, "`-1`: a lot's number should stand here"),
        ];
        for (text, column, why) in cases {
            assert_eq!(error(text), (1, column, why.to_string()), "{text}");
        }
        assert_eq!(error("lots 2\nsame 1 2 | same 2 3"), (2, 19, "lot 3 is out of range: lots count from 0 to 2".into()));
        assert_eq!(error("lots 0\nsame 0 0 | same 0 1"), (2, 19, "lot 1 is out of range: lots count from 0 to 0".into()));
        assert_eq!(error("same 1 2\nlots 3"), (2, 1, "`lots` stands once, before the conditions".into()));
        assert_eq!(error("lots 1\nlots 1").0, 2);
        assert_eq!(error("é same 1 2").1, 1);
        assert_eq!(error("same é 1").1, 6);
    }

    #[test]
    fn never_is_no_condition() {
        let why = "`never`: this is no condition; what nothing meets is `apart 1 1`, and a condition with no term, which everything meets, is `withdrawn`";
        assert_eq!(error("same 1 2\n never # no term"), (2, 2, why.into()));
        assert_eq!(error("same 1 2 | never"), (1, 12, "`never`: a term should stand here: `same` or `apart`, and two lots".into()));
    }

    #[test]
    fn limits_are_said_where_they_are_passed() {
        let many = "withdrawn\n".repeat(257);
        assert_eq!(error(&many), (257, 1, "a sheet has at most 256 conditions".into()));
        let long = format!("{}\n same 1 2 | same 2 1", vec!["same 1 1"; 1023].join("|"));
        assert_eq!(error(&long), (2, 13, "a sheet has at most 1024 terms".into()));
    }
}
