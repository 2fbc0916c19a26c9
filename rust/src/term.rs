//! Terms, and conditions as lists of them.
use std::fmt;

/// A term over two lots, which may be one lot twice. Either may be lot 0, whose number is 0.
#[derive(Clone, Copy, Debug, PartialEq, Eq, Hash)]
pub enum Term {
    /// True when the two lots have the same number.
    Same(u16, u16),
    /// True when they have different ones.
    Apart(u16, u16),
}

impl Term {
    /// The two lots, as written.
    pub const fn lots(self) -> [u16; 2] {
        let (Term::Same(a, b) | Term::Apart(a, b)) = self;
        [a, b]
    }
}

impl fmt::Display for Term {
    fn fmt(&self, f: &mut fmt::Formatter) -> fmt::Result {
        match self {
            Term::Same(a, b) => write!(f, "{SAME} {a} {b}"),
            Term::Apart(a, b) => write!(f, "{APART} {a} {b}"),
        }
    }
}

/// The words of the text form, which `text` reads and the types here write.
pub(crate) const SAME: &str = "same";
pub(crate) const APART: &str = "apart";
pub(crate) const OR: char = '|';
/// A condition with no term, which everything meets.
pub(crate) const WITHDRAWN: &str = "withdrawn";

/// A condition: it is met where one of its terms is true. With no term it is withdrawn: it keeps its number, and everything meets it.
///
/// ```
/// use lihumbay::{Condition, Term};
/// let condition = Condition::from(vec![Term::Same(1, 2), Term::Apart(2, 3)]);
/// assert_eq!(condition.to_string(), "same 1 2 | apart 2 3");
/// assert!(!condition.is_withdrawn());
/// assert_eq!(Condition::default().to_string(), "withdrawn");
/// ```
#[derive(Clone, Debug, Default, PartialEq, Eq, Hash)]
pub struct Condition(Vec<Term>);

impl Condition {
    /// The terms in order.
    pub fn terms(&self) -> &[Term] {
        &self.0
    }

    /// Whether the condition has no term, so that everything meets it.
    pub fn is_withdrawn(&self) -> bool {
        self.0.is_empty()
    }
}

impl From<Vec<Term>> for Condition {
    fn from(terms: Vec<Term>) -> Self {
        Condition(terms)
    }
}

impl fmt::Display for Condition {
    fn fmt(&self, f: &mut fmt::Formatter) -> fmt::Result {
        let Some((first, others)) = self.0.split_first() else { return f.write_str(WITHDRAWN) };
        write!(f, "{first}")?;
        others.iter().try_for_each(|term| write!(f, " {OR} {term}"))
    }
}
