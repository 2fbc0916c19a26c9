//! One line of a text, a sheet's or a list's of reassignments: its words with their columns, and what they say.
use crate::reassignment::Reassignment;
use crate::sheet::SheetBuilder;
use crate::term::{APART, OR, SAME, Term, WITHDRAWN};
use crate::text_error::TextError;
use std::iter::Peekable;
use std::str::FromStr;
use std::vec::IntoIter;

const COMMENT: char = '#';
const OR_WORD: &str = "|";
const LOT: &str = "a lot's number";
const TERM: &str = "a term should stand here: `same` or `apart`, and two lots";
const END: &str = "the end of the line should stand here";
/// A word that a text may have for what nothing meets. It is not taken for a condition with no term, which everything meets.
const NEVER: &str = "never";
const NOT_NEVER: &str =
    "this is no condition; what nothing meets is `apart 1 1`, and a condition with no term, which everything meets, is `withdrawn`";

/// A condition as written, with the columns of its parts.
pub(crate) struct Written {
    pub line: usize,
    pub column: usize,
    terms: Vec<WrittenTerm>,
}

struct WrittenTerm {
    term: Term,
    column: usize,
    lot_columns: [usize; 2],
}

impl Written {
    pub fn terms(&self) -> impl Iterator<Item = Term> {
        self.terms.iter().map(|written| written.term)
    }

    pub fn lots(&self) -> impl Iterator<Item = u16> {
        self.terms().flat_map(Term::lots)
    }

    /// The column of the term with this number, from 1.
    pub fn column_of_term(&self, number: usize) -> usize {
        self.numbered(number).map_or(self.column, |written| written.column)
    }

    /// The column of a lot of that term.
    pub fn column_of_lot(&self, number: usize, lot: u16) -> usize {
        let Some(written) = self.numbered(number) else { return self.column };
        let [a, _] = written.term.lots();
        written.lot_columns[usize::from(a != lot)]
    }

    fn numbered(&self, number: usize) -> Option<&WrittenTerm> {
        self.terms.get(number.checked_sub(1)?)
    }
}

/// The words of a line that are still to be read.
pub(crate) struct Line<'a> {
    number: usize,
    words: Peekable<IntoIter<(usize, &'a str)>>,
    /// The column after the last word.
    end: usize,
}

impl<'a> Line<'a> {
    pub fn of(number: usize, text: &'a str) -> Self {
        let text = text.split(COMMENT).next().unwrap_or("").trim_end();
        Line { number, words: words(text).into_iter().peekable(), end: text.chars().count() + 1 }
    }

    pub fn peek(&mut self) -> Option<&'a str> {
        self.words.peek().map(|&(_, word)| word)
    }

    /// An error at the next word, or at the end.
    pub fn error(&mut self, why: impl Into<String>) -> TextError {
        TextError { line: self.number, column: self.column(), why: why.into() }
    }

    /// `lots N`: a sheet with so many lots.
    pub fn lots(&mut self) -> Result<SheetBuilder, TextError> {
        self.words.next();
        let column = self.column();
        let lots = self.whole_number("the number of lots")?;
        self.end(END)?;
        SheetBuilder::new(lots).map_err(|limit| TextError { line: self.number, column, why: limit.reason() })
    }

    /// `withdrawn`, or terms parted by `|`.
    pub fn condition(&mut self) -> Result<Written, TextError> {
        let mut condition = Written { line: self.number, column: self.column(), terms: Vec::new() };
        if self.passed(WITHDRAWN) {
            self.end(END)?;
            return Ok(condition);
        }
        if self.peek() == Some(NEVER) {
            return Err(self.unexpected(NOT_NEVER));
        }
        loop {
            condition.terms.push(self.term()?);
            if !self.passed(OR_WORD) {
                self.end("`|` or the end of the line should stand here")?;
                return Ok(condition);
            }
        }
    }

    fn term(&mut self) -> Result<WrittenTerm, TextError> {
        let column = self.column();
        let sign: fn(u16, u16) -> Term = if self.passed(SAME) {
            Term::Same
        } else if self.passed(APART) {
            Term::Apart
        } else {
            return Err(self.unexpected(TERM));
        };
        let (a_column, a) = (self.column(), self.whole_number(LOT)?);
        let (b_column, b) = (self.column(), self.whole_number(LOT)?);
        Ok(WrittenTerm { term: sign(a, b), column, lot_columns: [a_column, b_column] })
    }

    /// `LOT VALUE`: the lot gets this number. Whether a sheet has the lot is seen when it is reassigned.
    pub fn reassignment(&mut self) -> Result<Reassignment, TextError> {
        let lot = self.whole_number(LOT)?;
        let value = self.whole_number("a number from 0 to 255")?;
        self.end(END)?;
        Ok(Reassignment { lot, value })
    }

    fn whole_number<N: FromStr>(&mut self, of: &str) -> Result<N, TextError> {
        let Some(word) = self.peek() else { return Err(self.error(format!("{of} is missing"))) };
        match word.parse() {
            // A sign before the digits is no part of a number here.
            Ok(number) if word.starts_with(|first: char| first.is_ascii_digit()) => {
                self.words.next();
                Ok(number)
            }
            _ => Err(self.unexpected(&format!("{of} should stand here"))),
        }
    }

    /// Whether the next word is this one; it is passed then.
    fn passed(&mut self, expected: &str) -> bool {
        self.words.next_if(|&(_, word)| word == expected).is_some()
    }

    fn end(&mut self, expected: &str) -> Result<(), TextError> {
        if self.peek().is_none() { Ok(()) } else { Err(self.unexpected(expected)) }
    }

    fn unexpected(&mut self, expected: &str) -> TextError {
        match self.peek() {
            Some(word) => self.error(format!("`{}`: {expected}", word.escape_debug())),
            None => self.error(expected),
        }
    }

    fn column(&mut self) -> usize {
        self.words.peek().map_or(self.end, |&(column, _)| column)
    }
}

/// The words of a text with their columns; `|` is a word by itself, with spaces around it or not.
fn words(text: &str) -> Vec<(usize, &str)> {
    let mut words = Vec::new();
    let mut begun = None;
    for (column, (at, letter)) in (1..).zip(text.char_indices()) {
        let ends = letter == OR || letter.is_whitespace();
        match begun {
            Some((column, from)) if ends => {
                words.push((column, &text[from..at]));
                begun = None;
            }
            None if !ends => begun = Some((column, at)),
            _ => {}
        }
        if letter == OR {
            words.push((column, OR_WORD));
        }
    }
    words.extend(begun.map(|(column, from)| (column, &text[from..])));
    words
}
