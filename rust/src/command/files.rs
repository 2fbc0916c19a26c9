//! Files, standard input and the two outputs.
use super::ending::{Failure, Status};
use lihumbay::{Refusal, Subject};
use std::ffi::OsString;
use std::fmt;
use std::fs::{self, File};
use std::io::{self, BufWriter, ErrorKind, Read, Write};
use std::path::{Path, PathBuf};

/// Where bytes come from.
#[derive(Clone, Debug, PartialEq, Eq)]
pub enum Source {
    Input,
    File(PathBuf),
}

impl From<OsString> for Source {
    fn from(name: OsString) -> Self {
        if name == "-" { Source::Input } else { Source::File(name.into()) }
    }
}

impl fmt::Display for Source {
    fn fmt(&self, f: &mut fmt::Formatter) -> fmt::Result {
        match self {
            Source::Input => f.write_str("standard input"),
            Source::File(path) => write!(f, "{}", path.display()),
        }
    }
}

impl Source {
    /// All bytes.
    pub fn bytes(&self) -> Result<Vec<u8>, Failure> {
        self.first_bytes(usize::MAX)
    }

    /// The bytes, at most so many. Where one more than the longest input is asked for, the services refuse what was cut as they would the whole.
    pub fn first_bytes(&self, most: usize) -> Result<Vec<u8>, Failure> {
        let mut bytes = Vec::new();
        let most = most as u64;
        let read = match self {
            Source::Input => io::stdin().lock().take(most).read_to_end(&mut bytes),
            Source::File(path) => File::open(path).and_then(|file| file.take(most).read_to_end(&mut bytes)),
        };
        match read {
            Ok(_) => Ok(bytes),
            Err(error) => Err(self.failure(format!("can't be read: {error}"))),
        }
    }

    /// A failure that names the source.
    pub fn failure(&self, why: impl fmt::Display) -> Failure {
        Failure::new(format!("{self}: {why}"))
    }

    /// A refusal that names the source, or the option where the limit is refused.
    pub fn refused(&self, refusal: Refusal) -> Failure {
        match refusal.check.subject() {
            Some(Subject::Limit) => Failure::new(format!("`--limit`: {refusal}")),
            _ => self.failure(refusal),
        }
    }
}

/// Writes a file anew.
pub fn save(path: &Path, bytes: &[u8]) -> Result<(), Failure> {
    fs::write(path, bytes).map_err(|error| Failure::new(format!("{}: can't be written: {error}", path.display())))
}

/// Writes to standard output. A reader that has gone away has read what it wanted: that is no failure.
pub fn print(write: impl FnOnce(&mut dyn Write) -> io::Result<()>) -> Result<Status, Failure> {
    let mut out = BufWriter::new(io::stdout().lock());
    match write(&mut out).and_then(|()| out.flush()) {
        Err(error) if error.kind() != ErrorKind::BrokenPipe => Err(Failure::new(format!("standard output: can't be written: {error}"))),
        _ => Ok(Status::Yes),
    }
}

/// Writes a line to standard error; where that is closed, nobody is told.
pub fn complain(message: &str) {
    let _ = writeln!(io::stderr(), "lihumbay: {message}");
}
