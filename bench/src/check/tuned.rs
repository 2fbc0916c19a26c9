//! A tuned checker: classes and marks are changed at each split and changed back when the split is turned or dropped, so that a ground costs its terms alone; a
//! mark is a bit. Under a limit the classes that count are kept so too, and a clique costs a set for each. It doesn't check the sheet.
use crate::check::{Path, Split, walk};
use crate::classes::{Classes, Join};
use crate::terms::{self, Term};
use crate::window::{self, Seen, Window};
use lihumbay::raw::Numbers;

/// What is kept of the classes for cliques: a `Window` under a limit, and nothing without one. Each is told the lots of a split and the classes before a join
/// and after it is undone.
trait Counted {
    type Joined: Copy;
    type Marked: Copy;
    fn join(&mut self, classes: &Classes, a: u8, b: u8) -> Self::Joined;
    fn undo(&mut self, joined: Self::Joined);
    fn set_apart(&mut self, classes: &Classes, a: u8, b: u8) -> Self::Marked;
    fn undo_apart(&mut self, classes: &Classes, a: u8, b: u8, marked: Self::Marked);
    fn is_clique(&self) -> bool;
}

impl Counted for () {
    type Joined = ();
    type Marked = ();
    fn join(&mut self, _: &Classes, _: u8, _: u8) {}
    fn undo(&mut self, (): ()) {}
    fn set_apart(&mut self, _: &Classes, _: u8, _: u8) {}
    fn undo_apart(&mut self, _: &Classes, _: u8, _: u8, (): ()) {}
    fn is_clique(&self) -> bool {
        false
    }
}

impl Counted for Window {
    type Joined = window::Joined;
    /// Whether the mark is new.
    type Marked = bool;

    #[inline]
    fn join(&mut self, classes: &Classes, a: u8, b: u8) -> window::Joined {
        self.join(classes.smallest(a), classes.smallest(b))
    }

    #[inline]
    fn undo(&mut self, joined: window::Joined) {
        self.undo(joined);
    }

    #[inline]
    fn set_apart(&mut self, classes: &Classes, a: u8, b: u8) -> bool {
        self.set_apart(classes.smallest(a), classes.smallest(b))
    }

    #[inline]
    fn undo_apart(&mut self, classes: &Classes, a: u8, b: u8, marked: bool) {
        if marked {
            self.undo_apart(classes.smallest(a), classes.smallest(b));
        }
    }

    fn is_clique(&self) -> bool {
        matches!(self.seen(0), Seen::Clique)
    }
}

/// What a split changed.
#[derive(Clone, Copy)]
enum Change<Joined, Marked> {
    /// In the same branch: its lots shared a class already, or two classes were joined.
    Shared,
    Joined(Join, Joined),
    /// In the apart branch: which of the pair's two marks are new, and what became of its classes.
    Marked((bool, bool), Marked),
}

type ChangeOf<C> = Change<<C as Counted>::Joined, <C as Counted>::Marked>;

struct Tuned<C: Counted> {
    /// The terms, condition after condition, and where each condition begins.
    terms: Vec<Term>,
    begins: [u16; 257],
    classes: Classes,
    counted: C,
    splits: Vec<(Split, ChangeOf<C>)>,
}

impl<C: Counted> Tuned<C> {
    /// Whether all terms are false, where lot 0's class may have marks or has none.
    #[inline]
    fn all_false<const ZERO: bool>(&self, terms: &[Term]) -> bool {
        terms.iter().all(|term| {
            let (x, y) = (self.classes.of(term.a), self.classes.of(term.b));
            if term.same { x != y && self.classes.marked::<ZERO>(x, y) } else { x == y }
        })
    }
}

impl<C: Counted> Path for Tuned<C> {
    fn depth(&self) -> usize {
        self.splits.len()
    }

    #[inline]
    fn push(&mut self, split: Split) {
        let (x, y) = (self.classes.of(split.a), self.classes.of(split.b));
        let change = if x == y {
            Change::Shared
        } else {
            let joined = self.counted.join(&self.classes, split.a, split.b);
            let (from, into) = self.classes.by_size(x, y);
            Change::Joined(self.classes.join(from, into), joined)
        };
        self.splits.push((split, change));
    }

    #[inline]
    fn refutes(&mut self, condition: usize) -> bool {
        let (begin, end) = (self.begins[condition], self.begins[condition + 1]);
        let terms = &self.terms[usize::from(begin)..usize::from(end)];
        begin < end && if self.classes.zero_marked() { self.all_false::<true>(terms) } else { self.all_false::<false>(terms) }
    }

    #[inline]
    fn is_clique(&mut self, _: usize) -> bool {
        self.counted.is_clique()
    }

    #[inline]
    fn turn(&mut self) -> Option<Split> {
        while let Some((split, change)) = self.splits.last_mut() {
            let (a, b) = (split.a, split.b);
            match *change {
                Change::Marked(new, marked) => {
                    self.classes.undo_apart(a, b, new);
                    self.counted.undo_apart(&self.classes, a, b, marked);
                    self.splits.pop();
                    continue;
                }
                Change::Joined(join, joined) => {
                    self.classes.undo(join);
                    self.counted.undo(joined);
                }
                Change::Shared => {}
            }
            let marked = self.counted.set_apart(&self.classes, a, b);
            *change = Change::Marked(self.classes.set_apart(a, b), marked);
            return Some(*split);
        }
        None
    }
}

fn check_by<C: Counted>(sheet: &[u8], counted: C, limit: Option<u32>, list: &[u8]) -> Numbers {
    let (_, conditions, count) = terms::header(sheet);
    let (terms, splits) = (Vec::with_capacity(count), Vec::with_capacity(64));
    let mut path = Tuned { terms, begins: [0; 257], classes: Classes::new(), counted, splits };
    for c in 0..conditions {
        path.terms.extend(terms::chain(sheet, c));
        path.begins[c + 1] = path.terms.len() as u16;
    }
    walk(&mut path, sheet, limit, list)
}

pub fn check(sheet: &[u8], list: &[u8]) -> Numbers {
    check_by(sheet, (), None, list)
}

pub fn check_limited(sheet: &[u8], limit: u32, list: &[u8]) -> Numbers {
    let (lots, _, _) = terms::header(sheet);
    check_by(sheet, Window::new(lots, limit), Some(limit), list)
}
