//! `count` and `reassign`.
use super::args::Reassign;
use super::ending::{Failure, Status};
use super::files::{self, Source};
use super::report::counted;
use super::{sheets, texts};
use lihumbay::{MOST_LOTS, Reassignment, Refusal, Running};
use std::io::{self, Write};

/// A move, and the count after it; or why it is refused.
type Answer = (Reassignment, Result<u32, Refusal>);

pub fn count(sheet: &Source, grouping: &Source) -> Result<Status, Failure> {
    let sheet = sheets::read(sheet)?;
    let numbers = grouping.first_bytes(MOST_LOTS)?;
    let unmet = lihumbay::count_unmet(&sheet.bytes, &numbers).map_err(|refusal| grouping.failure(refusal))?;
    files::print(|out| writeln!(out, "{}", of_all(unmet, sheet.sheet.conditions().len())))?;
    Ok(status_of(unmet))
}

/// Each move is answered, and one that is refused stops none of the others. A list that is written wrongly is refused before the first of them.
pub fn reassign(request: &Reassign) -> Result<Status, Failure> {
    let sheet = sheets::read(&request.sheet)?;
    let conditions = sheet.sheet.conditions().len();
    let numbers = request.grouping.first_bytes(MOST_LOTS)?;
    let mut running = Running::new(sheet.bytes, numbers).map_err(|refusal| request.grouping.failure(refusal))?;
    let text = texts::read(&request.moves, "this isn't text; each move is a line with a lot and its new number")?;
    let moves = Reassignment::list(&text).map_err(|error| request.moves.failure(error))?;
    let answers: Vec<Answer> = moves.into_iter().map(|one| (one, running.reassign(one.lot, one.value))).collect();
    // The file comes first: a reader of the report who stops early doesn't lose it.
    if let Some(path) = &request.output {
        files::save(path, running.grouping().as_bytes())?;
    }
    files::print(|out| tell(out, &answers, &running, conditions))?;
    match answers.iter().filter(|(_, answer)| answer.is_err()).count() {
        0 => Ok(status_of(running.count())),
        refused => Err(request.moves.failure(format!("refused: {refused} of {}", counted(answers.len(), "move")))),
    }
}

/// A line for each move, and at the end the count and the numbers of all lots.
fn tell(out: &mut dyn Write, answers: &[Answer], running: &Running, conditions: usize) -> io::Result<()> {
    for (Reassignment { lot, value }, answer) in answers {
        match answer {
            Ok(unmet) => writeln!(out, "lot {lot} to {value}: {unmet} unmet")?,
            Err(refusal) => writeln!(out, "lot {lot} to {value}: refused by {refusal}")?,
        }
    }
    writeln!(out, "{}", of_all(running.count(), conditions))?;
    let numbers: String = running.grouping().as_bytes().iter().map(|number| format!(" {number}")).collect();
    writeln!(out, "grouping:{numbers}")
}

/// A count beside the number of all conditions, withdrawn ones included.
fn of_all(unmet: u32, conditions: usize) -> String {
    format!("unmet: {unmet} of {}", counted(conditions, "condition"))
}

/// As the evaluator's: whether all conditions are met.
fn status_of(unmet: u32) -> Status {
    if unmet == 0 { Status::Yes } else { Status::No }
}
