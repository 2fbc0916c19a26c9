//! Runs the classes of input. A failure names class, case and seed, and has the input in hexadecimal.
use crate::case::Case;
use crate::compare::{Answers, compare};
use crate::laws::laws;
use crate::random::Random;
use crate::tally::Tally;
use std::io::Write;
use std::thread;

/// A class of input: its name, how many there are, and how the case of a number is made.
pub struct Class {
    pub name: &'static str,
    pub count: usize,
    pub make: fn(&mut Random, usize) -> Case,
}

/// The seed of a case: the class's name, mixed (FNV-1a), and the case's number.
pub(crate) fn seed(name: &str, number: usize) -> u64 {
    let mixed = name.bytes().fold(0xCBF2_9CE4_8422_2325_u64, |mixed, byte| (mixed ^ u64::from(byte)).wrapping_mul(0x0100_0000_01B3));
    mixed.wrapping_add(number as u64)
}

pub fn run(class: &Class, tally: &mut Tally) {
    for number in 0..class.count {
        run_one(class, number, tally);
    }
    tally.class(class.name, class.count);
}

pub fn run_one(class: &Class, number: usize, tally: &mut Tally) {
    let seed = seed(class.name, number);
    let case = (class.make)(&mut Random::new(seed), number);
    match compare_and_laws(&case) {
        Ok(answers) => tally.case(&case, &answers),
        Err(difference) => panic!("class \"{}\", case {number}, seed {seed:#x}: {difference}\n{case}", class.name),
    }
}

/// A case that no seed made.
pub fn run_case(case: &Case, tally: &mut Tally) {
    match compare_and_laws(case) {
        Ok(answers) => tally.case(case, &answers),
        Err(difference) => panic!("{difference}\n{case}"),
    }
}

fn compare_and_laws(case: &Case) -> Result<Answers, String> {
    let answers = compare(case)?;
    laws(case)?;
    Ok(answers)
}

/// Searches on both sides call themselves up to 1,024 levels deep, and under a limit deeper: more stack than a test's thread has by itself.
pub fn with_stack(work: impl FnOnce() + Send) {
    thread::scope(|scope| {
        let worker = thread::Builder::new().stack_size(64 << 20).spawn_scoped(scope, work).expect("a thread can be started");
        if let Err(panic) = worker.join() {
            std::panic::resume_unwind(panic);
        }
    });
}

/// Prints a line also where the test passes, when the test harness takes what `println!` prints.
pub fn say(text: &str) {
    let mut out = std::io::stdout().lock();
    writeln!(out, "{text}").expect("standard output can be written");
}
