//! `check` and `evaluate`.
use super::ending::{Failure, Status};
use super::files::{self, Source};
use super::report::{counted, within};
use super::sheets;
use lihumbay::{Evaluation, MOST_LOTS, MOST_RECORDS, RECORD_LENGTH, RecordList, Refusal, Subject};

pub fn check(sheet: &Source, list: &Source, limit: Option<u32>) -> Result<Status, Failure> {
    let sheet = sheets::read(sheet)?;
    let records = list.first_bytes(MOST_RECORDS * RECORD_LENGTH + 1)?;
    let checked = match limit {
        None => lihumbay::check(&sheet.bytes, &records),
        Some(limit) => lihumbay::check_limited(&sheet.bytes, limit, &records),
    };
    match checked {
        Ok(()) => {
            let records = counted(RecordList::from(records).count(), "record");
            files::print(|out| writeln!(out, "passed: a refutation of {records}, so nothing meets the sheet{}", within(limit)))
        }
        Err(refusal) => Err(list.refused(refusal).with(status_of(refusal))),
    }
}

pub fn evaluate(sheet: &Source, grouping: &Source) -> Result<Status, Failure> {
    let sheet = sheets::read(sheet)?;
    let numbers = grouping.first_bytes(MOST_LOTS)?;
    match lihumbay::evaluate(&sheet.bytes, &numbers) {
        Ok(Evaluation::AllMet) => files::print(|out| writeln!(out, "all conditions are met")),
        Ok(Evaluation::Unmet(number)) => {
            let terms = sheet.sheet.condition(number).map(ToString::to_string).unwrap_or_default();
            files::print(|out| writeln!(out, "condition {number} is not met: {terms}")).map(|_| Status::No)
        }
        Err(refusal) => Err(grouping.failure(refusal).with(status_of(refusal))),
    }
}

/// A list that the checker refuses is its answer; any other refusal is of what the command was given.
fn status_of(refusal: Refusal) -> Status {
    if refusal.check.subject() == Some(Subject::List) { Status::No } else { Status::Wrong }
}
