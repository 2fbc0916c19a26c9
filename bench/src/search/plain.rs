//! The search of document 01 word for word, and document 02's under a limit: each node looks at every condition from the first on, passes over the withdrawn
//! ones, and gives each term its value by the node's classes and marks; where none is taken and classes are limited, it looks at each pair of those that count.
//! It doesn't check the sheet. There are two of each, which differ in their marks alone.
use crate::marks::{self, ClassOf};
use crate::records;
use crate::search::node_marks::{NodeMarks, Stamped, Undone};
use crate::search::{End, answer};
use crate::terms::{self, LOTS, Term};
use lihumbay::raw::Numbers;

/// The smallest lot of each lot's class.
#[derive(Clone, Copy)]
struct Classes(ClassOf);

impl Classes {
    fn of(&self, lot: u8) -> u8 {
        self.0[usize::from(lot)]
    }

    fn joined(&self, a: u8, b: u8) -> Classes {
        let mut joined = *self;
        marks::join(&mut joined.0, self.of(a), self.of(b));
        joined
    }
}

enum Value {
    True,
    False,
    Open,
}

/// What the node rule makes of a node; a ground names its condition, which counts from 0, and a split its lots.
enum Node {
    Met,
    Ground(usize),
    Clique,
    Split(u8, u8),
}

struct Search<'a, Marks> {
    conditions: Vec<Vec<Term>>,
    /// The most classes, where they are limited.
    limit: Option<usize>,
    marks: Marks,
    grouping: &'a mut [u8],
    records: &'a mut [[u8; 8]],
    count: usize,
}

impl<Marks: NodeMarks> Search<'_, Marks> {
    fn value(&self, classes: &Classes, term: Term) -> Value {
        let (x, y) = (classes.of(term.a), classes.of(term.b));
        if x == y {
            if term.same { Value::True } else { Value::False }
        } else if self.marks.between(x, y) {
            if term.same { Value::False } else { Value::True }
        } else {
            Value::Open
        }
    }

    /// Whether a condition is taken; if so, its first open term. One with no term is withdrawn.
    fn first_open(&self, classes: &Classes, terms: &[Term]) -> Option<Option<Term>> {
        if terms.is_empty() {
            return None;
        }
        let mut open = None;
        for &term in terms {
            match self.value(classes, term) {
                Value::True => return None,
                Value::Open if !term.same => return None,
                Value::Open => open = open.or(Some(term)),
                Value::False => {}
            }
        }
        Some(open)
    }

    fn node(&self, classes: &Classes) -> Node {
        for (c, terms) in self.conditions.iter().enumerate() {
            match self.first_open(classes, terms) {
                None => {}
                Some(None) => return Node::Ground(c),
                Some(Some(term)) => return Node::Split(term.a, term.b),
            }
        }
        self.limit.map_or(Node::Met, |limit| self.limited_node(classes, limit))
    }

    /// The node where no condition is taken and classes are limited. Those that count are the first, one more than the limit, by their smallest lots.
    fn limited_node(&self, classes: &Classes, limit: usize) -> Node {
        let (mut smallest, mut count) = ([0; LOTS], 0);
        for lot in (0..=self.grouping.len() as u8).filter(|&lot| classes.of(lot) == lot) {
            smallest[count] = lot;
            count += 1;
        }
        let Some(counted) = smallest[..count].get(..=limit) else { return Node::Met };
        for (i, &x) in counted.iter().enumerate() {
            if let Some(&y) = counted[i + 1..].iter().find(|&&y| !self.marks.between(x, y)) {
                return Node::Split(x, y);
            }
        }
        Node::Clique
    }

    /// The node with its marks.
    fn marked_node(&mut self, classes: &Classes) -> Node {
        self.marks.look(&classes.0, true);
        let node = self.node(classes);
        self.marks.look(&classes.0, false);
        node
    }

    fn write(&mut self, record: [u8; 8]) {
        self.records[self.count] = record;
        self.count += 1;
    }

    fn visit(&mut self, classes: &Classes) -> End {
        if self.count == self.records.len() {
            return End::Full;
        }
        match self.marked_node(classes) {
            Node::Met => {
                self.write(records::met());
                for (byte, smallest) in self.grouping.iter_mut().zip(&classes.0[1..]) {
                    *byte = *smallest;
                }
                End::Met
            }
            Node::Ground(c) => {
                self.write(records::ground(c + 1));
                End::Cannot
            }
            Node::Clique => {
                self.write(records::clique());
                End::Cannot
            }
            Node::Split(a, b) => self.branches(classes, a, b),
        }
    }

    fn branches(&mut self, classes: &Classes, a: u8, b: u8) -> End {
        let here = self.count;
        self.write(records::split(usize::from(a), usize::from(b)));
        let join = self.marks.join(classes.of(a), classes.of(b));
        let end = self.visit(&classes.joined(a, b));
        self.marks.undo_join(join);
        if end != End::Cannot {
            return end;
        }
        if self.count == self.records.len() {
            return End::Full;
        }
        records::set_next(&mut self.records[here], self.count + 1);
        self.marks.set_apart(&classes.0, a, b);
        let end = self.visit(classes);
        self.marks.undo_apart(&classes.0, a, b);
        end
    }
}

fn search_by<Marks: NodeMarks>(sheet: &[u8], limit: Option<u32>, grouping: &mut [u8], store: &mut [u8]) -> Numbers {
    let (lots, conditions, _) = terms::header(sheet);
    let mut search = Search {
        conditions: (0..conditions).map(|c| terms::chain(sheet, c).collect()).collect(),
        limit: limit.map(|limit| limit as usize),
        marks: Marks::new(lots),
        grouping: &mut grouping[..lots],
        records: records::of_store(store),
        count: 0,
    };
    let end = search.visit(&Classes(marks::separate()));
    let count = search.count;
    answer(end, search.records, count)
}

/// With marks that are set and cleared at each node.
pub fn search(sheet: &[u8], grouping: &mut [u8], store: &mut [u8]) -> Numbers {
    search_by::<Stamped>(sheet, None, grouping, store)
}

pub fn search_limited(sheet: &[u8], limit: u32, grouping: &mut [u8], store: &mut [u8]) -> Numbers {
    search_by::<Stamped>(sheet, Some(limit), grouping, store)
}

/// With marks that are kept along the path.
pub fn search_undone(sheet: &[u8], grouping: &mut [u8], store: &mut [u8]) -> Numbers {
    search_by::<Undone>(sheet, None, grouping, store)
}

pub fn search_limited_undone(sheet: &[u8], limit: u32, grouping: &mut [u8], store: &mut [u8]) -> Numbers {
    search_by::<Undone>(sheet, Some(limit), grouping, store)
}
