//! `search`.
use super::args::{Options, Search};
use super::ending::{Failure, Status};
use super::report::Question;
use super::wait::with_notice;
use super::{dot, files, report, sheets};
use lihumbay::{LIMITED_SEARCH_STACK, MOST_LOTS, RECORD_LENGTH, Refusal, SEARCH_STACK, Verdict};
use std::io::{self, IsTerminal};
use std::time::Duration;

/// When a search is called long.
const LONG: Duration = Duration::from_secs(1);

pub fn run(search: &Search) -> Result<Status, Failure> {
    let accepted = sheets::read(&search.sheet)?;
    let options = &search.options;
    let (mut grouping, mut store) = ([0; MOST_LOTS], vec![0; options.records * RECORD_LENGTH]);
    let verdict = searched(&accepted.bytes, options.limit, &mut grouping, &mut store).map_err(|refusal| search.sheet.refused(refusal))?;
    // The files come first: a reader of the report who stops early loses none of them.
    save(options, &verdict)?;
    let question = Question { sheet: &accepted.sheet, limit: options.limit };
    if options.dot {
        draw(question, &verdict)?
    } else {
        tell(question, &verdict)?
    };
    Ok(match verdict {
        Verdict::Met { .. } => Status::Yes,
        Verdict::Cannot { .. } => Status::No,
        Verdict::Full { .. } => Status::Full,
    })
}

/// One thread is started, with the stack that a search needs, and searches; this one waits.
fn searched<'a>(sheet: &[u8], limit: Option<u32>, grouping: &'a mut [u8], store: &'a mut [u8]) -> Result<Verdict<'a>, Refusal> {
    match limit {
        None => with_notice(SEARCH_STACK, move || lihumbay::search_into(sheet, grouping, store), LONG, notice),
        Some(limit) => {
            with_notice(LIMITED_SEARCH_STACK, move || lihumbay::search_limited_into(sheet, limit, grouping, store), LONG, notice)
        }
    }
}

fn notice() {
    if io::stderr().is_terminal() {
        files::complain("still searching");
    }
}

fn save(options: &Options, verdict: &Verdict) -> Result<(), Failure> {
    let (wanted, bytes) = match verdict {
        Verdict::Met { grouping, .. } => (&options.grouping, grouping.as_bytes()),
        Verdict::Cannot { refutation } => (&options.refutation, refutation.as_bytes()),
        Verdict::Full { .. } => return Ok(()),
    };
    wanted.as_ref().map_or(Ok(()), |path| files::save(path, bytes))
}

fn tell(question: Question, verdict: &Verdict) -> Result<Status, Failure> {
    files::print(|out| match verdict {
        Verdict::Met { grouping, records } => report::met(out, question, grouping, records),
        Verdict::Cannot { refutation } => report::cannot(out, question, refutation),
        Verdict::Full { capacity } => writeln!(out, "{}", full(*capacity)),
    })
}

fn draw(question: Question, verdict: &Verdict) -> Result<Status, Failure> {
    match verdict {
        Verdict::Met { grouping, records } => files::print(|out| dot::graph(out, question, records, Some(grouping))),
        Verdict::Cannot { refutation } => files::print(|out| dot::graph(out, question, refutation, None)),
        // There is no graph, so nothing goes where one is expected.
        Verdict::Full { capacity } => Err(Failure::new(full(*capacity)).with(Status::Full)),
    }
}

fn full(capacity: usize) -> String {
    format!("store full: the search visits more than {capacity} nodes")
}
