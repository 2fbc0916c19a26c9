//! Runs the command on bytes and files.
use std::fs;
use std::io::Write;
use std::path::PathBuf;
use std::process::{Command, Stdio};
use std::sync::atomic::{AtomicUsize, Ordering};

/// How a run ended.
#[derive(Debug)]
pub struct Run {
    pub status: i32,
    pub out: Vec<u8>,
    pub errors: String,
}

impl Run {
    pub fn text(&self) -> &str {
        std::str::from_utf8(&self.out).expect("the output is text")
    }
}

pub fn command() -> Command {
    Command::new(env!("CARGO_BIN_EXE_lihumbay"))
}

/// Runs the command with this standard input.
pub fn run(arguments: &[&str], input: &[u8]) -> Run {
    let mut child =
        command().args(arguments).stdin(Stdio::piped()).stdout(Stdio::piped()).stderr(Stdio::piped()).spawn().expect("the command starts");
    // A command that needs no input may have ended before it is written.
    let _ = child.stdin.take().expect("standard input is piped").write_all(input);
    let output = child.wait_with_output().expect("the command ends");
    let errors = String::from_utf8(output.stderr).expect("messages are text");
    Run { status: output.status.code().expect("the command ends by itself"), out: output.stdout, errors }
}

/// The run wrote this, complained of nothing, and ended with this status.
pub fn assert_said(run: &Run, status: i32, text: &str) {
    assert_eq!((run.status, run.text(), run.errors.as_str()), (status, text, ""));
}

/// The run wrote nothing, complained so, and ended with this status.
pub fn assert_complained(run: &Run, status: i32, message: &str) {
    assert_eq!((run.status, run.text(), run.errors.as_str()), (status, "", format!("lihumbay: {message}\n").as_str()));
}

/// A sheet's bytes, made by the command.
pub fn encoded(text: &str) -> Vec<u8> {
    let run = run(&["encode"], text.as_bytes());
    assert_eq!((run.status, run.errors.as_str()), (0, ""), "{text}");
    run.out
}

/// A file that is there for one test.
pub struct Scratch(PathBuf);

impl Scratch {
    /// A name that nothing has yet.
    pub fn unwritten(name: &str) -> Self {
        static COUNT: AtomicUsize = AtomicUsize::new(0);
        let number = COUNT.fetch_add(1, Ordering::Relaxed);
        Scratch(PathBuf::from(env!("CARGO_TARGET_TMPDIR")).join(format!("{}-{number}-{name}", std::process::id())))
    }

    pub fn with(name: &str, bytes: &[u8]) -> Self {
        let file = Self::unwritten(name);
        fs::write(&file.0, bytes).expect("the scratch file is written");
        file
    }

    pub fn path(&self) -> &str {
        self.0.to_str().expect("the scratch folder's name is text")
    }

    pub fn bytes(&self) -> Option<Vec<u8>> {
        fs::read(&self.0).ok()
    }
}

impl Drop for Scratch {
    fn drop(&mut self) {
        let _ = fs::remove_file(&self.0);
    }
}
