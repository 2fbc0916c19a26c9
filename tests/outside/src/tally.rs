//! How many inputs of each class there were, how often each answer was seen, and how often lot 0 played a part.
use crate::case::Case;
use crate::compare::Answers;
use second::limits::{NODE_LENGTH, SPLIT, ZERO_LOT};
use second::reader::accept;
use second::store::Record;
use std::collections::BTreeMap;
use std::fmt::Write;

#[derive(Default)]
pub struct Tally {
    /// Name, inputs, and how many of them the search found met, cannot be met, or had no room for.
    classes: Vec<(&'static str, usize, [usize; 3])>,
    /// The last of these, for the class that is running.
    running: [usize; 3],
    answers: BTreeMap<(&'static str, String), usize>,
    checks: BTreeMap<(&'static str, u32), usize>,
    zero: ZeroLot,
}

/// Of what was accepted, how many named lot 0 and how many did not: sheets that a search met, sheets that it could not, and refutations that passed.
#[derive(Clone, Copy, Debug, Default)]
pub struct ZeroLot {
    pub met: [usize; 2],
    pub cannot: [usize; 2],
    pub passed: [usize; 2],
}

impl Tally {
    pub fn class(&mut self, name: &'static str, count: usize) {
        self.classes.push((name, count, std::mem::take(&mut self.running)));
    }

    fn answers(&mut self, answers: &Answers) {
        self.answer("reader", &answers.read, "accepted".into());
        let verdict = if answers.search[1] == 1 { "met" } else { "cannot" };
        match answers.search {
            [0, 1, ..] => self.running[0] += 1,
            [0, 2, ..] => self.running[1] += 1,
            [9, ..] => self.running[2] += 1,
            _ => {}
        }
        self.answer("search", &answers.search, verdict.into());
        let evaluated = if answers.evaluate[1] == 0 { "all met" } else { "a condition not met" };
        self.answer("evaluator", &answers.evaluate, evaluated.into());
        let counted = if answers.count[1] == 0 { "none unmet" } else { "some unmet" };
        self.answer("count", &answers.count, counted.into());
        self.answer("checker", &answers.check, "passes".into());
        self.answer("repacker", &answers.repack, "written".into());
    }

    /// A case, with what the services answered.
    pub fn case(&mut self, case: &Case, answers: &Answers) {
        self.answers(answers);
        match answers.search {
            [0, 1, ..] => self.zero.met[without_zero(sheet_names_zero(&case.sheet))] += 1,
            [0, 2, ..] => self.zero.cannot[without_zero(sheet_names_zero(&case.sheet))] += 1,
            _ => {}
        }
        if answers.check == [0; 4] {
            self.zero.passed[without_zero(list_names_zero(&case.list))] += 1;
        }
    }

    pub fn zero_lot(&self) -> ZeroLot {
        self.zero
    }

    fn answer(&mut self, service: &'static str, numbers: &[u32; 4], accepted: String) {
        let what = if numbers[0] == 0 { accepted } else { format!("check {:2}", numbers[0]) };
        *self.answers.entry((service, what)).or_default() += 1;
        *self.checks.entry((service, numbers[0])).or_default() += 1;
    }

    pub fn inputs(&self) -> usize {
        self.classes.iter().map(|(_, count, _)| count).sum()
    }

    /// How often a check refused a service; 0, how often none did.
    pub fn seen(&self, service: &'static str, check: u32) -> usize {
        self.checks.get(&(service, check)).copied().unwrap_or(0)
    }

    pub fn report(&self) -> String {
        let mut text = format!("\n{} inputs, each through all services:\n", self.inputs());
        for (name, count, [met, cannot, full]) in &self.classes {
            writeln!(text, "  {count:8} {name} (met {met}, cannot {cannot}, store full {full})").expect("a string takes all");
        }
        let ZeroLot { met, cannot, passed } = self.zero;
        for (what, [with, without]) in [("sheets met", met), ("sheets that cannot be", cannot), ("lists that pass", passed)] {
            writeln!(text, "  {with:8} {what} name lot 0, {without} don't").expect("a string takes all");
        }
        for ((service, what), count) in &self.answers {
            writeln!(text, "  {count:8} {service}: {what}").expect("a string takes all");
        }
        text
    }
}

/// Which of the two counts: the first is of those that name lot 0.
fn without_zero(names_zero: bool) -> usize {
    usize::from(!names_zero)
}

fn sheet_names_zero(sheet: &[u8]) -> bool {
    let sheet = accept(sheet).expect("a sheet that was searched");
    sheet.conditions.iter().flatten().any(|term| term.a == ZERO_LOT || term.b == ZERO_LOT)
}

fn list_names_zero(list: &[u8]) -> bool {
    let mut splits = list.chunks(NODE_LENGTH).map(Record::from_bytes).filter(|record| record.kind == SPLIT);
    splits.any(|split| [split.first, split.second].contains(&(ZERO_LOT as u16)))
}
