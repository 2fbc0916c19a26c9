//! The search, without a limit on the classes and with one, and what it leaves in the two buffers.
use crate::answer::{Answer, Refusal, refuse};
use crate::class_limit::{Limit, admitted};
use crate::evaluator::long_enough;
use crate::limits::*;
use crate::node::{Decision, Known, Node, node};
use crate::reader::accept;
use crate::sheet::Sheet;
use crate::store::{Record, clique, ground, list_bytes, met, split};

/// "The search starts with no decisions and stops at the first met node." The caller needs a stack for as many calls of `visit` as there are "same" terms.
pub fn search(bytes: &[u8], grouping: &mut [u8], store: &mut [u8]) -> Result<Answer, Refusal> {
    search_accepted(&accept(bytes)?, None, grouping, store)
}

/// Document 02: "Add a search with a cap g from 1 to 129". 20 comes "right after 7". The caller needs a stack for as many calls of `visit` as there are pairs
/// of lots 0 to n: each split names two classes that are not marked apart.
pub fn search_limited(bytes: &[u8], limit: u32, grouping: &mut [u8], store: &mut [u8]) -> Result<Answer, Refusal> {
    let sheet = accept(bytes)?;
    let limit = admitted(limit)?;
    search_accepted(&sheet, Some(limit), grouping, store)
}

fn search_accepted(sheet: &Sheet, limit: Limit, grouping: &mut [u8], store: &mut [u8]) -> Result<Answer, Refusal> {
    long_enough(sheet, grouping)?;
    // "its length divided by 8, rounded down, at most 65,535"
    let room = (store.len() / NODE_LENGTH).min(MOST_NODES);
    let mut run = Run { sheet, limit, room, decisions: Vec::new(), nodes: Vec::new(), grouping: Vec::new() };
    let end = run.visit();
    let count = run.nodes.len();
    match end {
        End::Full => {
            // "then the first 8S bytes are zero, the rest untouched, and the grouping unwritten"
            store[..NODE_LENGTH * room].fill(0);
            refuse(9, room)
        }
        End::Met => {
            store[..NODE_LENGTH * count].copy_from_slice(&list_bytes(&run.nodes));
            grouping[..sheet.lots].copy_from_slice(&run.grouping);
            Ok(Answer::Met { count })
        }
        End::NotMet => {
            store[..NODE_LENGTH * count].copy_from_slice(&list_bytes(&run.nodes));
            Ok(Answer::Cannot { count })
        }
    }
}

/// How the visit of a node, and of everything under it, ends.
#[derive(PartialEq, Eq)]
enum End {
    Met,
    NotMet,
    /// "Store full: c would exceed S": a node is visited for which the store has no record.
    Full,
}

struct Run<'a> {
    sheet: &'a Sheet,
    limit: Limit,
    room: usize,
    decisions: Vec<Decision>,
    nodes: Vec<Record>,
    grouping: Vec<u8>,
}

impl Run<'_> {
    /// "One record of eight bytes per node visited, numbered from 1 in order of visit".
    fn visit(&mut self) -> End {
        if self.nodes.len() == self.room {
            return End::Full;
        }
        let known = Known::from(self.sheet.lots, &self.decisions);
        match node(self.sheet, self.limit, &known) {
            Node::Met => {
                // "Each lot's byte in the grouping is the smallest lot of its consignment." Document 02: "The grouping still has n bytes, for lots 1 to n."
                self.grouping = (1..=self.sheet.lots).map(|lot| known.smallest(lot) as u8).collect();
                self.nodes.push(met());
                End::Met
            }
            Node::Ground(condition) => {
                self.nodes.push(ground(condition));
                End::NotMet
            }
            // "the walk goes on as after a ground"
            Node::Clique => {
                self.nodes.push(clique());
                End::NotMet
            }
            Node::Split(a, b) => {
                drop(known);
                self.split(a, b)
            }
        }
    }

    /// "the pair set same is tried first, then, if nothing was met there, the pair set apart"
    fn split(&mut self, a: usize, b: usize) -> End {
        self.nodes.push(split(a, b, 0));
        let number = self.nodes.len();
        let end = self.branch(Decision::Same(a, b));
        if end != End::NotMet {
            return end;
        }
        // "next is the record where that second branch begins, zero if never visited": a visit that finds no room gives a full store, whose bytes are all zero.
        if let Ok(next) = u16::try_from(self.nodes.len() + 1) {
            self.nodes[number - 1].next = next;
        }
        self.branch(Decision::Apart(a, b))
    }

    fn branch(&mut self, decision: Decision) -> End {
        self.decisions.push(decision);
        let end = self.visit();
        self.decisions.pop();
        end
    }
}
