//! How the command ends.
use std::process::ExitCode;

/// The exit statuses.
#[derive(Clone, Copy, Debug, PartialEq, Eq)]
pub enum Status {
    /// Met, passed, or written.
    Yes = 0,
    /// Cannot be met, refused by the refutation checker, or not met.
    No = 1,
    /// A refused sheet, limit or move, two sheets too large to merge, a file that can't be read or written, or wrong arguments.
    Wrong = 2,
    /// A search's store is full, which says neither yes nor no.
    Full = 3,
}

impl From<Status> for ExitCode {
    fn from(status: Status) -> Self {
        ExitCode::from(status as u8)
    }
}

/// A message for standard error, and the status that goes with it.
#[derive(Debug)]
pub struct Failure {
    pub status: Status,
    pub message: String,
}

impl Failure {
    pub fn new(message: impl Into<String>) -> Self {
        Failure { status: Status::Wrong, message: message.into() }
    }

    pub fn with(self, status: Status) -> Self {
        Failure { status, ..self }
    }

    /// The same failure, with what it is of before its message.
    pub fn of(self, what: &str) -> Self {
        Failure { message: format!("{what}, {}", self.message), ..self }
    }
}
