//! Instructions by callgrind, where valgrind is installed: unlike times they don't depend on what else the machine does. The program runs itself for one call of one
//! contender, and once for the set-up alone, which is subtracted.
use crate::jobs::{self, Buffers, Job, Service};
use std::env;
use std::hint::black_box;
use std::process::Command;

/// The contender's name for the set-up alone.
const NOTHING: &str = "nothing";

/// One call of one contender: what is counted.
pub fn once(service: &str, key: &str, contender: &str) {
    let service = Service::named(service);
    let job = jobs::one(service, key).expect("the key of a job");
    let mut buffers = Buffers::new();
    // Every name is looked at, whichever is wanted, so that each run takes as much before the call.
    let named = |found, (i, name): (usize, &&str)| if *name == contender { Some(i) } else { found };
    if let Some(contender) = service.contenders().iter().enumerate().fold(None, named) {
        black_box(job.run(contender, &mut buffers));
    }
    black_box(&buffers);
}

/// The whole program's instructions. The length of its arguments and variables moves the stack, and with it what copies take, by some hundred instructions: a
/// variable that nothing reads makes up for a shorter name.
fn counted(job: &Job, contender: &str) -> Option<u64> {
    let program = env::current_exe().ok()?;
    let mut command = Command::new("valgrind");
    command.args(["--tool=callgrind", "--callgrind-out-file=/dev/null"]).arg(program);
    command.env("MEASURE_FILL", "-".repeat(32 - contender.len()));
    let output = command.args(["once", job.service.word(), &job.key, contender]).output().ok()?;
    let said = String::from_utf8_lossy(&output.stderr).into_owned();
    let line = said.lines().find(|line| line.contains("Collected :"))?;
    line.split_whitespace().last()?.parse().ok()
}

/// The instructions of a call by some contenders; none where valgrind isn't there.
pub fn by(job: &Job, contenders: &[&str]) -> Vec<Option<u64>> {
    let nothing = counted(job, NOTHING);
    let one = |contender: &&str| nothing.and_then(|nothing| Some(counted(job, contender)?.saturating_sub(nothing)));
    contenders.iter().map(one).collect()
}

/// The instructions of a call by each contender.
pub fn of(job: &Job) -> Vec<Option<u64>> {
    by(job, &job.service.contenders())
}
