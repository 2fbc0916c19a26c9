//! The nodes of a search as a Graphviz graph.
use super::report::{Question, decision};
use lihumbay::{Grouping, Record, RecordList, Walk};
use std::io::{self, Write};

/// Each node has its record's number, each edge what its branch takes for true; a met node has lot 0's group, where the report has it, and a clique its
/// classes. Labels have no quote and no backslash but the line breaks written here.
pub fn graph(out: &mut dyn Write, question: Question, records: &RecordList, grouping: Option<&Grouping>) -> io::Result<()> {
    writeln!(out, "digraph search {{\n  node [shape=box];")?;
    let mut walk = records.walk();
    while let Some(Ok(step)) = walk.next() {
        let (number, label) = (step.number, label(question, &walk, step.record, grouping));
        writeln!(out, "  {number} [label=\"{number}\\n{label}\"{}];", style(step.record))?;
        if let Some(above) = step.above {
            writeln!(out, "  {} -> {number} [label=\"{}\"];", above.number, decision(above))?;
        }
    }
    writeln!(out, "}}")
}

fn label(question: Question, walk: &Walk, record: Record, grouping: Option<&Grouping>) -> String {
    match record {
        Record::Ground { condition: number } => {
            let terms = question.sheet.condition(number).map(ToString::to_string).unwrap_or_default();
            format!("ground, condition {number}\\n{terms}")
        }
        Record::Clique => {
            let (count, classes) = question.clique(walk);
            format!("clique, {count}\\n{classes}")
        }
        Record::Met => match grouping.and_then(|grouping| question.zero_group(grouping)) {
            Some(group) => format!("{record}\\n{group}"),
            None => record.to_string(),
        },
        other => other.to_string(),
    }
}

fn style(record: Record) -> &'static str {
    match record {
        Record::Ground { .. } => ", style=filled",
        Record::Clique => ", style=\"filled,rounded\"",
        Record::Met => ", peripheries=2",
        _ => "",
    }
}
