//! The tuned search under a limit: what the other one knows at a node, and the classes that count as sets of bits. The apart branch of a pair goes on in its
//! row: the rows before it are marked, and no class changes. It doesn't check the sheet.
use crate::classes::Join;
use crate::records;
use crate::search::layout::Conditions;
use crate::search::tuned::Search;
use crate::search::{End, answer, write_grouping};
use crate::terms;
use crate::window::{self, Seen, Window};
use lihumbay::raw::Numbers;

/// Where a node's split comes from, so that the apart branch goes on there: a "same" term of a condition, or the row of a pair.
#[derive(Clone, Copy)]
enum Place {
    Term { condition: u8, from: usize },
    Row(u8),
}

/// What a node is; a split has its lots, and where its apart branch goes on.
enum Node {
    Met,
    Ground(u8),
    Clique,
    Split(u8, u8, Place),
}

/// A split on the path. The smallest lots are those of its classes above it.
struct Split {
    record: usize,
    lots: (u8, u8),
    smallest: (u8, u8),
    after: Place,
    apart: bool,
    trail: usize,
    passed: Conditions,
    join: Join,
    window: window::Joined,
}

struct Limited<'a> {
    search: Search<'a>,
    window: Window,
    path: Vec<Split>,
}

impl Limited<'_> {
    #[inline]
    fn node(&self, place: Option<Place>) -> Node {
        let first = |condition: u8| Place::Term { condition, from: usize::from(self.search.layout.begins[usize::from(condition)]) };
        match place.unwrap_or_else(|| self.search.taken().map_or(Place::Row(0), first)) {
            Place::Term { condition, from } => match self.search.first_open(condition, from) {
                None => Node::Ground(condition),
                Some(term) => {
                    let (a, b) = self.search.layout.sames[term];
                    Node::Split(a, b, Place::Term { condition, from: term + 1 })
                }
            },
            Place::Row(from) => match self.window.seen(from) {
                Seen::Few => Node::Met,
                Seen::Pair(x, y) => Node::Split(x, y, Place::Row(x)),
                Seen::Clique => Node::Clique,
            },
        }
    }

    /// Back to the nearest split still in its same branch, which goes over to its apart branch: where that goes on.
    fn turn(&mut self) -> Option<Place> {
        while let Some(split) = self.path.last_mut() {
            let ((a, b), (x, y)) = (split.lots, split.smallest);
            if split.apart {
                // The pair was open, so that its marks were new.
                self.search.classes.undo_apart(a, b, (true, true));
                self.window.undo_apart(x, y);
                self.path.pop();
                continue;
            }
            split.apart = true;
            if self.search.count < self.search.records.len() {
                records::set_next(&mut self.search.records[split.record], self.search.count + 1);
            }
            self.window.undo(split.window);
            self.search.undo(split.join, split.passed, split.trail);
            self.search.classes.set_apart(a, b);
            self.window.set_apart(x, y);
            return Some(split.after);
        }
        None
    }

    fn write(&mut self, record: [u8; 8]) {
        self.search.records[self.search.count] = record;
        self.search.count += 1;
    }

    fn split(&mut self, a: u8, b: u8, after: Place) {
        let (record, trail, passed) = (self.search.count, self.search.trail.len(), self.search.passed);
        self.write(records::split(usize::from(a), usize::from(b)));
        let smallest = (self.search.classes.smallest(a), self.search.classes.smallest(b));
        let (join, window) = (self.search.join(a, b), self.window.join(smallest.0, smallest.1));
        self.path.push(Split { record, lots: (a, b), smallest, after, apart: false, trail, passed, join, window });
    }

    fn run(&mut self) -> End {
        let mut resumed = None;
        loop {
            if self.search.count == self.search.records.len() {
                return End::Full;
            }
            match self.node(resumed.take()) {
                Node::Met => {
                    self.write(records::met());
                    return End::Met;
                }
                Node::Split(a, b, after) => {
                    self.split(a, b, after);
                    continue;
                }
                Node::Ground(condition) => self.write(records::ground(usize::from(condition) + 1)),
                Node::Clique => self.write(records::clique()),
            }
            resumed = self.turn();
            if resumed.is_none() {
                return End::Cannot;
            }
        }
    }
}

pub fn search(sheet: &[u8], limit: u32, grouping: &mut [u8], store: &mut [u8]) -> Numbers {
    let (lots, _, _) = terms::header(sheet);
    let (search, window) = (Search::of(sheet, records::of_store(store)), Window::new(lots, limit));
    let mut limited = Limited { search, window, path: Vec::with_capacity(64) };
    let end = limited.run();
    if end == End::Met {
        write_grouping(sheet, grouping, &limited.search.classes);
    }
    let count = limited.search.count;
    answer(end, limited.search.records, count)
}
