//! The command `lihumbay`: the services over files, with readable sheets and reports.
mod command;

fn main() -> std::process::ExitCode {
    command::run(std::env::args_os().skip(1))
}
