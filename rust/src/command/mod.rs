//! What the command does with its arguments.
mod answers;
mod args;
mod counts;
mod dot;
mod ending;
mod files;
mod help;
mod report;
mod search;
mod sheets;
mod texts;
mod wait;

use args::Request;
use ending::{Failure, Status};
use std::ffi::OsString;
use std::process::ExitCode;

/// Runs the command, and says on standard error what went wrong.
pub fn run(arguments: impl Iterator<Item = OsString>) -> ExitCode {
    match args::parse(arguments).and_then(answer) {
        Ok(status) => status.into(),
        Err(failure) => {
            files::complain(&failure.message);
            failure.status.into()
        }
    }
}

fn answer(request: Request) -> Result<Status, Failure> {
    match request {
        Request::Help(text) => files::print(|out| out.write_all(text.as_bytes())),
        Request::Version => files::print(|out| writeln!(out, "lihumbay {}", env!("CARGO_PKG_VERSION"))),
        Request::Encode { text } => sheets::encode(&text),
        Request::Decode { sheet } => sheets::decode(&sheet),
        Request::Repack { sheet } => sheets::repack(&sheet),
        Request::Merge { first, second } => sheets::merge(&first, &second),
        Request::Withdraw { sheet, condition } => sheets::withdraw(&sheet, condition),
        Request::Search(search) => search::run(&search),
        Request::Check { sheet, list, limit } => answers::check(&sheet, &list, limit),
        Request::Evaluate { sheet, grouping } => answers::evaluate(&sheet, &grouping),
        Request::Count { sheet, grouping } => counts::count(&sheet, &grouping),
        Request::Reassign(reassign) => counts::reassign(&reassign),
    }
}
