//! The readable report of a search.
use lihumbay::{Above, Branch, Grouping, Record, RecordList, Sheet, Step, Term, Walk, ZERO_LOT};
use std::io::{self, Write};

/// The deepest indentation, in splits. What stands deeper says how deep it does.
const DEEPEST: usize = 40;

/// What a search was asked: the sheet, and the most groups, if they are limited.
#[derive(Clone, Copy)]
pub struct Question<'a> {
    pub sheet: &'a Sheet,
    pub limit: Option<u32>,
}

impl Question<'_> {
    /// Lot 0, and behind a colon the lots that are together with it. Where it is by itself, it is told to who names it, and under a limit, where its group
    /// counts.
    pub fn zero_group(self, grouping: &Grouping) -> Option<String> {
        let others = grouping.with_zero_lot();
        if others.is_empty() {
            return (self.limit.is_some() || self.sheet.names_lot(ZERO_LOT)).then(|| format!("{ZERO_LOT}:"));
        }
        Some(format!("{ZERO_LOT}: {}", spaced(&others)))
    }

    /// The classes of the clique that the walk is at, one more than the limit, and their number.
    pub fn clique(self, walk: &Walk) -> (String, String) {
        let most = self.limit.map_or(0, |limit| limit as usize);
        let classes: Vec<String> = walk.classes(self.sheet.lots()).iter().take(most + 1).map(|class| spaced(class)).collect();
        (counted(classes.len(), "class"), classes.join(" | "))
    }
}

/// A line for each group, lot 0's before the others.
pub fn met(out: &mut dyn Write, question: Question, grouping: &Grouping, records: &RecordList) -> io::Result<()> {
    let others = grouping.groups().into_iter().filter(|group| !group.contains(&ZERO_LOT.into()));
    let groups: Vec<String> = question.zero_group(grouping).into_iter().chain(others.map(|group| spaced(&group))).collect();
    writeln!(out, "met: {}, {}", counted(groups.len(), "group"), counted(records.count(), "record"))?;
    groups.iter().try_for_each(|group| writeln!(out, "  {group}"))
}

/// A line for each record, under the split that it belongs to.
pub fn cannot(out: &mut dyn Write, question: Question, refutation: &RecordList) -> io::Result<()> {
    writeln!(out, "cannot be met{}: refutation of {}", within(question.limit), counted(refutation.count(), "record"))?;
    let width = refutation.count().to_string().len();
    let mut walk = refutation.walk();
    while let Some(step) = walk.next() {
        match step {
            Ok(step) => writeln!(out, "{:width$}  {}{}", step.number, indentation(step.depth), line(question, &walk, &step))?,
            Err(error) => writeln!(out, "{error}")?,
        }
    }
    Ok(())
}

fn line(question: Question, walk: &Walk, step: &Step) -> String {
    let node = node(question, walk, step.record);
    match step.above {
        Some(above) => format!("{}: {node}", decision(above)),
        None => node,
    }
}

/// What is taken for true in a split's branch.
pub fn decision(above: Above) -> Term {
    match above.branch {
        Branch::Same => Term::Same(above.a, above.b),
        Branch::Apart => Term::Apart(above.a, above.b),
    }
}

/// A node in words, a ground with the terms of its condition and a clique with its classes.
fn node(question: Question, walk: &Walk, record: Record) -> String {
    match record {
        Record::Ground { condition: number } => match question.sheet.condition(number) {
            Some(condition) => format!("ground, condition {number}: {condition}"),
            None => format!("ground, condition {number}"),
        },
        Record::Clique => {
            let (count, classes) = question.clique(walk);
            format!("clique, {count}: {classes}")
        }
        other => other.to_string(),
    }
}

/// What a verdict under a limit is about; nothing where there is none.
pub fn within(limit: Option<u32>) -> String {
    limit.map_or(String::new(), |limit| format!(" with at most {}", counted(limit as usize, "group")))
}

fn indentation(depth: usize) -> String {
    let spaces = "  ".repeat(depth.min(DEEPEST));
    if depth > DEEPEST { format!("{spaces}({depth} deep) ") } else { spaces }
}

/// Lots parted by spaces.
fn spaced(lots: &[usize]) -> String {
    lots.iter().map(usize::to_string).collect::<Vec<_>>().join(" ")
}

/// A count and its noun.
pub fn counted(count: usize, of: &str) -> String {
    let ending = match count {
        1 => "",
        _ if of.ends_with('s') => "es",
        _ => "s",
    };
    format!("{count} {of}{ending}")
}
