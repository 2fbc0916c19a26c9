//! The checker of refutations from any hand, without a limit on the classes and with one: checks 10 to 15.
use crate::answer::{Answer, Refusal, refuse};
use crate::class_limit::{Limit, Limited, admitted};
use crate::limits::*;
use crate::node::{Decision, Known};
use crate::reader::accept;
use crate::sheet::Sheet;
use crate::store::Record;

/// "The checker takes a sheet and a list of store records, kinds 1 and 2 only, and walks it from record 1."
pub fn check(bytes: &[u8], list: &[u8]) -> Result<Answer, Refusal> {
    check_accepted(&accept(bytes)?, None, list)
}

/// Document 02: "The checker, given a cap". 20 comes "right after 7".
pub fn check_limited(bytes: &[u8], limit: u32, list: &[u8]) -> Result<Answer, Refusal> {
    let sheet = accept(bytes)?;
    let limit = admitted(limit)?;
    check_accepted(&sheet, Some(limit), list)
}

fn check_accepted(sheet: &Sheet, limit: Limit, list: &[u8]) -> Result<Answer, Refusal> {
    let records = records(list)?;
    let mut walk = Walk { sheet, limit, records: &records, path: Vec::new() };
    let mut number = 1;
    while walk.step(number)? == Step::GoOn {
        number += 1;
    }
    Ok(Answer::Passes)
}

/// 10: "length 0, no multiple of 8, or above 65,535 records", place 0.
fn records(list: &[u8]) -> Result<Vec<Record>, Refusal> {
    if list.is_empty() || !list.len().is_multiple_of(NODE_LENGTH) || list.len() / NODE_LENGTH > MOST_NODES {
        return refuse(10, 0);
    }
    Ok(list.chunks(NODE_LENGTH).map(Record::from_bytes).collect())
}

#[derive(Clone, Copy, PartialEq, Eq)]
enum Branch {
    Same,
    Apart,
}

/// "The splits above a record are kept with the branch taken at each."
struct Above {
    number: usize,
    a: usize,
    b: usize,
    next: usize,
    branch: Branch,
}

#[derive(PartialEq, Eq)]
enum Step {
    GoOn,
    End,
}

struct Walk<'a> {
    sheet: &'a Sheet,
    limit: Limit,
    records: &'a [Record],
    path: Vec<Above>,
}

impl Walk<'_> {
    /// "each record, in turn": 11, then "same, a split" 15 or "same, a ground" 12, and what comes after it. A clique is a leaf as a ground is, and 12 is its
    /// check too.
    fn step(&mut self, number: usize) -> Result<Step, Refusal> {
        let record = self.records[number - 1];
        if !self.in_range(&record) {
            return refuse(11, number);
        }
        if record.kind == SPLIT { self.split(number, &record) } else { self.leaf(number, &record) }
    }

    /// 11: "kind, spare, lot or condition out of range; second or next of a ground not 0", place the record. Document 02: "Checks 5 and 11 admit lot 0." There
    /// is no condition 0. Of a clique: "kind 4, other fields 0 (else 11)". Without a limit kind 4 is out of range.
    fn in_range(&self, record: &Record) -> bool {
        let lot = |lot: u16| (ZERO_LOT..=self.sheet.lots).contains(&usize::from(lot));
        let condition = |condition: u16| (1..=self.sheet.conditions.len()).contains(&usize::from(condition));
        let fields = match record.kind {
            SPLIT => lot(record.first) && lot(record.second),
            GROUND => condition(record.first) && record.second == 0 && record.next == 0,
            CLIQUE => self.limit.is_some() && record.first == 0 && record.second == 0 && record.next == 0,
            _ => false,
        };
        fields && record.spare == 0
    }

    /// 15: "1,024 splits stand above it", place the record; with a limit, "its depth check 15 then stands at 8,256 splits". Everything under its same branch
    /// follows, so a record must.
    fn split(&mut self, number: usize, record: &Record) -> Result<Step, Refusal> {
        let most = if self.limit.is_some() { MOST_SPLITS_ABOVE_LIMITED } else { MOST_SPLITS_ABOVE };
        if self.path.len() >= most {
            return refuse(15, number);
        }
        let (a, b) = (usize::from(record.first), usize::from(record.second));
        self.path.push(Above { number, a, b, next: usize::from(record.next), branch: Branch::Same });
        self.not_missing(number + 1)
    }

    /// Whether the leaf is what it says, under the path that it stands under. Of a clique: "passes a crowd exactly when more than g consignments are left and
    /// the g + 1 with the smallest lots are all marked apart pairwise, and otherwise says 12". Nothing is asked about conditions there.
    fn leaf_passes(&self, record: &Record) -> bool {
        let known = Known::from(self.sheet.lots, &self.decisions());
        match record.kind {
            GROUND => known.ground_passes(&self.sheet.conditions[usize::from(record.first) - 1]),
            _ => self.limit.is_some_and(|limit| Limited::of(limit, &known) == Limited::Clique),
        }
    }

    /// 12: "a term isn't false", or the condition is withdrawn, or the clique is none, place the record. 13: "the split's next is wrong", place the split. Of a
    /// clique: "the walk goes on as after a ground".
    fn leaf(&mut self, number: usize, record: &Record) -> Result<Step, Refusal> {
        if !self.leaf_passes(record) {
            return refuse(12, number);
        }
        // "After a ground, the nearest split above it still in its equal branch": those below it are over.
        while self.path.last().is_some_and(|above| above.branch == Branch::Apart) {
            self.path.pop();
        }
        let Some(nearest) = self.path.last_mut() else {
            return self.no_more(number + 1);
        };
        // "must have next equal to the following record, and its different branch begins"
        if nearest.next != number + 1 {
            return refuse(13, nearest.number);
        }
        nearest.branch = Branch::Apart;
        self.not_missing(number + 1)
    }

    /// The decisions of the path: each split's pair, set same or apart by the branch taken.
    fn decisions(&self) -> Vec<Decision> {
        let decision = |above: &Above| match above.branch {
            Branch::Same => Decision::Same(above.a, above.b),
            Branch::Apart => Decision::Apart(above.a, above.b),
        };
        self.path.iter().map(decision).collect()
    }

    /// 14: "the next one is missing", place "that record's number".
    fn not_missing(&self, number: usize) -> Result<Step, Refusal> {
        if number > self.records.len() { refuse(14, number) } else { Ok(Step::GoOn) }
    }

    /// 14: "a record is left over", place "that record's number". "With no such split the list must end."
    fn no_more(&self, number: usize) -> Result<Step, Refusal> {
        if number <= self.records.len() { refuse(14, number) } else { Ok(Step::End) }
    }
}
