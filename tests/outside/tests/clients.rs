//! Clients of the header in C, C++ and Python, built with the tools that are there. What is not there is said.
use outside::run::say;
use std::env;
use std::ffi::OsStr;
use std::path::{Path, PathBuf};
use std::process::Command;

fn root() -> PathBuf {
    Path::new(env!("CARGO_MANIFEST_DIR")).join("../..")
}

fn client(name: &str) -> PathBuf {
    Path::new(env!("CARGO_MANIFEST_DIR")).join("clients").join(name)
}

/// Where the archive lies: as the package that links it has it.
fn archive() -> PathBuf {
    let folder = env::var_os("LIHUMBAY_ARCHIVE").map(PathBuf::from).unwrap_or_else(|| root().join("target/staticlib"));
    folder.join("liblihumbay.a")
}

fn built(name: &str) -> PathBuf {
    Path::new(env!("CARGO_TARGET_TMPDIR")).join(name)
}

/// Whether a tool can be started. Where it can't, the output says what is left out.
fn is_there(tool: &str, what: &str) -> bool {
    let found = Command::new(tool).arg("--version").output().is_ok_and(|output| output.status.success());
    if !found {
        say(&format!("SKIPPED: {what}, since there is no `{tool}`"));
    }
    found
}

/// Runs a command; where it fails, the test does, with what the command printed.
fn succeeds(command: &mut Command) -> String {
    let output = command.output().expect("the command can be started");
    let printed = [output.stdout, output.stderr].map(|bytes| String::from_utf8_lossy(&bytes).into_owned()).concat();
    assert!(output.status.success(), "{command:?} ended with {}:\n{printed}", output.status);
    printed
}

fn compile(tool: &str, standard: &str, source: &str, out: &Path) {
    let mut command = Command::new(tool);
    command.args(["-Wall", "-Wextra", "-Werror", "-pedantic", standard, "-O1", "-I"]).arg(root().join("include"));
    succeeds(command.arg(client(source)).arg(archive()).arg("-o").arg(out));
}

fn runs(program: impl AsRef<OsStr>) {
    say(succeeds(&mut Command::new(program)).trim_end());
}

#[test]
fn from_c() {
    if is_there("cc", "the client in C") {
        let out = built("calls_c");
        compile("cc", "-std=c99", "calls.c", &out);
        runs(out);
    }
}

#[test]
fn from_cpp() {
    if is_there("c++", "the client in C++") {
        let out = built("calls_cpp");
        compile("c++", "-std=c++11", "calls.cpp", &out);
        runs(out);
    }
}

#[test]
fn from_python() {
    if !is_there("cc", "the client in Python") || !is_there("python3", "the client in Python") {
        return;
    }
    let library = built("liblihumbay.so");
    let mut link = Command::new("cc");
    link.arg("-shared").arg("-Wl,--whole-archive").arg(archive()).arg("-Wl,--no-whole-archive").arg("-o").arg(&library);
    succeeds(&mut link);
    say(succeeds(Command::new("python3").arg(client("calls.py")).arg(&library)).trim_end());
}
