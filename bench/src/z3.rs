//! The same sheets given to the solver z3, for scale, where the command is on the path: one process for each sheet, wall time less that of an empty input.
use crate::jobs::Job;
use crate::sheets::{Sheet, Sign, Term};
use std::fs;
use std::path::Path;
use std::process::Command;
use std::time::Instant;

/// Seconds that z3 has for a sheet.
pub const LIMIT: u64 = 10;

/// What z3 did with a sheet: its answer and the seconds it took, or none where it was over the limit.
pub struct Solved {
    pub answer: String,
    pub seconds: Option<f64>,
}

fn term(term: &Term) -> String {
    match term.sign {
        Sign::Same => format!("(= l{} l{})", term.a, term.b),
        Sign::Apart => format!("(not (= l{} l{}))", term.a, term.b),
    }
}

/// That one of these is true; of none, nothing.
fn one_of(terms: &[String]) -> String {
    match terms {
        [] => "(assert true)\n".into(),
        [term] => format!("(assert {term})\n"),
        _ => format!("(assert (or {}))\n", terms.join(" ")),
    }
}

/// A sheet as a script: lots are constants of a sort of their own, and a withdrawn condition is true. Lot 0 is a constant like the others: only which
/// numbers are equal counts, and any of them may be called 0. Under a limit there are so many constants more, and each lot is one of these.
fn script(sheet: &Sheet, limit: Option<u32>) -> String {
    let mut text = String::from("(set-logic QF_UF)\n(declare-sort L 0)\n");
    let lowest = if sheet.names_zero() || limit.is_some() { 0 } else { 1 };
    for lot in lowest..=sheet.lots {
        text += &format!("(declare-const l{lot} L)\n");
    }
    for number in 0..limit.unwrap_or(0) {
        text += &format!("(declare-const c{number} L)\n");
    }
    for (limit, lot) in limit.into_iter().flat_map(|limit| (lowest..=sheet.lots).map(move |lot| (limit, lot))) {
        text += &one_of(&(0..limit).map(|number| format!("(= l{lot} c{number})")).collect::<Vec<_>>());
    }
    for condition in &sheet.conditions {
        text += &one_of(&condition.terms.iter().map(term).collect::<Vec<_>>());
    }
    text + "(check-sat)\n"
}

/// The answer to a script and the wall time of the process.
fn run(file: &Path) -> Option<(String, f64)> {
    let start = Instant::now();
    let output = Command::new("z3").arg(format!("-T:{LIMIT}")).arg(file).output().ok()?;
    let seconds = start.elapsed().as_secs_f64();
    Some((String::from_utf8_lossy(&output.stdout).trim().to_string(), seconds))
}

/// The least time of some runs; one run only where it is long.
fn least(file: &Path) -> Option<(String, f64)> {
    let (answer, mut seconds) = run(file)?;
    for _ in 0..4 {
        if seconds < 1.0 {
            seconds = seconds.min(run(file)?.1);
        }
    }
    Some((answer, seconds))
}

/// z3 on the sheet of a search; none where z3 isn't there. It must give the product's answer.
pub fn solve(folder: &Path, job: &Job) -> Option<Solved> {
    let (empty, file) = (folder.join("empty.smt2"), folder.join(format!("{}.smt2", job.key)));
    fs::write(&empty, "(set-logic QF_UF)\n(check-sat)\n").ok()?;
    fs::write(&file, script(&job.sheet, (job.limit > 0).then_some(job.limit))).ok()?;
    let (_, start_up) = least(&empty)?;
    let (answer, seconds) = least(&file)?;
    if answer == "timeout" {
        return Some(Solved { answer: "over".into(), seconds: None });
    }
    let expected = [("met", "sat"), ("cannot", "unsat"), ("full", answer.as_str())];
    assert!(expected.contains(&(job.answer().as_str(), answer.as_str())), "{}: z3 says {answer}, the product {}", job.name, job.answer());
    Some(Solved { answer, seconds: Some((seconds - start_up).max(0.0)) })
}

#[cfg(test)]
mod tests {
    use super::*;
    use crate::sheets::{apart, same};

    #[test]
    fn a_withdrawn_condition_is_true() {
        let mut sheet = Sheet::new(1);
        sheet.withdrawn(2);
        sheet.condition([apart(1, 1)]);
        assert!(script(&sheet, None).ends_with("(assert true)\n(assert (not (= l1 l1)))\n(check-sat)\n"));
    }

    #[test]
    fn lot_zero_is_declared_where_it_is_named() {
        let mut sheet = Sheet::new(1);
        sheet.condition([same(0, 1)]);
        assert!(script(&sheet, None).ends_with("(declare-const l0 L)\n(declare-const l1 L)\n(assert (= l0 l1))\n(check-sat)\n"));
    }

    #[test]
    fn each_lot_has_one_of_the_numbers_under_a_limit() {
        let mut sheet = Sheet::new(1);
        sheet.condition([apart(1, 1)]);
        let lots = "(declare-const l0 L)\n(declare-const l1 L)\n(declare-const c0 L)\n(declare-const c1 L)\n";
        let numbers = "(assert (or (= l0 c0) (= l0 c1)))\n(assert (or (= l1 c0) (= l1 c1)))\n(assert (not (= l1 l1)))\n(check-sat)\n";
        assert!(script(&sheet, Some(2)).ends_with(&[lots, numbers].concat()));
        assert!(script(&sheet, Some(1)).contains("(assert (= l1 c0))\n"));
    }
}
