//! The whole measurement: what is run, and where its data, plots and tables are written.
use crate::jobs::{self, Buffers, Job, Service};
use crate::rounds::{self, Plan};
use crate::rows::{self, Row};
use crate::{compare, instructions, limited_compare, merges, parts, places, plots, reassignments, sizes, stack, tables, z3};
use std::fs;
use std::hint::black_box;
use std::path::{Path, PathBuf};
use std::process::Command;

fn root() -> &'static Path {
    Path::new(env!("CARGO_MANIFEST_DIR")).parent().expect("the package lies in the repository")
}

fn results(file: &str) -> PathBuf {
    root().join("bench/results").join(file)
}

fn save(file: &str, text: &str) {
    fs::create_dir_all(results("")).expect("bench/results can be made");
    fs::write(results(file), text).expect("bench/results can be written");
}

fn load(file: &str) -> String {
    fs::read_to_string(results(file)).unwrap_or_default()
}

/// Every job, compared.
fn compared(service: Service) -> impl Iterator<Item = Job> {
    jobs::of(service, &|_| true).into_iter().map(|mut job| {
        compare::compare(&mut job);
        job
    })
}

/// All that is compared beside the jobs.
fn compare_others() {
    compare::withdrawn_sheets();
    compare::random_sheets();
    compare::random_lists();
    limited_compare::random_sheets();
    limited_compare::random_lists();
    merges::random_pairs();
    reassignments::random_sheets();
}

pub fn compare_all() {
    compare_others();
    let count = Service::ALL.into_iter().flat_map(compared).count();
    println!(
        "{count} inputs, 66 small and 200 random sheets, 2,000 random lists, 340 random sheets and 2,000 random lists under limits, 300 random pairs of \
         sheets, 600 small random sheets for reassignments: all contenders agree"
    );
}

/// Times the contenders of a job in turns.
fn timed(plan: Plan, job: &Job) -> Vec<rounds::Taken> {
    let contenders = 0..job.service.contenders().len();
    let call = |contender: usize| -> Box<dyn FnMut() + '_> {
        let mut buffers = Buffers::new();
        Box::new(move || {
            black_box(job.run(contender, black_box(&mut buffers)));
        })
    };
    rounds::take(plan, &mut contenders.map(call).collect::<Vec<_>>())
}

/// Nanoseconds a unit of one input by each contender, and the product's time divided by the contender's.
pub fn time_row(service: &str, key: &str) {
    let service = Service::named(service);
    let job = jobs::one(service, key).expect("the key of a job");
    let taken = timed(Plan { rounds: 9, batch: 0.05 }, &job);
    for (name, taken) in service.contenders().into_iter().zip(taken) {
        let time = taken.time.times(1e9 / job.units as f64);
        println!("{name:<16} {:>10.1} {:>6.2}", time.least, taken.ratio.middle);
    }
}

fn measure_job(plan: Plan, job: &Job) -> Vec<Row> {
    let taken = timed(plan, job);
    let counts = instructions::of(job);
    let mut line = format!("{:<46} {:>6}", job.name, job.units);
    let mut rows = Vec::new();
    for (i, name) in job.service.contenders().into_iter().enumerate() {
        let row = Row::new(job, name, taken[i], counts[i]);
        line += &format!("  {:>9.1}", row.time.least);
        if i > 0 {
            line += &format!(" {:>6.2}", row.ratio.middle);
        }
        rows.push(row);
    }
    println!("{line}");
    rows
}

fn measure_service(plan: Plan, service: Service) -> Vec<Row> {
    println!(
        "\n{}, nanoseconds a {}: {} (the product's time divided by each)",
        service.word(),
        service.unit(),
        service.contenders().join(" | ")
    );
    compared(service).flat_map(|job| measure_job(plan, &job)).collect()
}

/// Milliseconds that z3 took: a process starts no more evenly than to a millisecond, so that less isn't told apart.
fn z3_time(seconds: Option<f64>) -> String {
    match seconds {
        None => format!("over {},000", z3::LIMIT),
        Some(seconds) if seconds < 1e-3 => "under 1".into(),
        Some(seconds) => format!("{:.0}", seconds * 1e3),
    }
}

/// z3 on the sheets of the searches, without a limit on classes and with one, beside the product's time.
fn measure_z3(rows: &[Row]) -> String {
    let folder = root().join("target/bench");
    fs::create_dir_all(&folder).expect("target/bench can be made");
    let mut text = String::from("Sheet\tAnswer\tProduct, ms\tz3, ms\tz3 says\n");
    for job in [Service::Search, Service::SearchLimited].into_iter().flat_map(|service| jobs::of(service, &|_| true)) {
        let Some(solved) = z3::solve(&folder, &job) else { return String::new() };
        let own = rows.iter().find(|row| row.service == job.service.word() && row.key == job.key && row.contender == "product");
        let product = own.map_or(0.0, |row| row.time.least * row.units as f64 / 1e6);
        text += &format!("{}\t{}\t{product:.2}\t{}\t{}\n", job.name, job.answer(), z3_time(solved.seconds), solved.answer);
    }
    text
}

fn measure_stack() -> String {
    let mut text = String::from("Call\tBytes of stack\n");
    for (name, bytes) in stack::all() {
        text += &format!("{name}\t{}\n", crate::axis::grouped(bytes as u64));
    }
    text
}

/// The first line of a file or of a command's output that begins with a word.
fn line_of(text: &str, word: &str) -> String {
    text.lines().find(|line| line.starts_with(word)).unwrap_or("").trim().to_string()
}

fn said(program: &str) -> String {
    let output = Command::new(program).arg("--version").output();
    output.map_or(format!("no {program}"), |output| line_of(&String::from_utf8_lossy(&output.stdout), ""))
}

/// What the figures were taken on.
fn machine() -> String {
    let processor = line_of(&fs::read_to_string("/proc/cpuinfo").unwrap_or_default(), "model name");
    let processor = processor.split(':').nth(1).unwrap_or(" unknown").trim().to_string();
    let cores = std::thread::available_parallelism().map_or(0, usize::from);
    let load = fs::read_to_string("/proc/loadavg").unwrap_or_default();
    let load = load.split_whitespace().next().unwrap_or("unknown").to_string();
    format!("{processor}, {cores} cores; load at the start {load}; {}; {}; {}\n", said("rustc"), said("z3"), said("valgrind"))
}

pub fn measure(plan: Plan) {
    let machine = machine();
    compare_others();
    let rows: Vec<Row> = Service::ALL.into_iter().flat_map(|service| measure_service(plan, service)).collect();
    save("machine.txt", &format!("{} rounds of {} s; {machine}", plan.rounds, plan.batch));
    save("times.tsv", &rows::write(&rows));
    save("sizes.tsv", &sizes::measure());
    save("places.tsv", &places::measure());
    save("parts.tsv", &parts::measure());
    save("stack.tsv", &measure_stack());
    save("z3.tsv", &measure_z3(&rows));
    write();
}

/// Some services alone, compared, timed and counted again, and the stack of all; the rows of the other services stay, and what they were taken on.
pub fn measure_again(plan: Plan, words: &[&str]) {
    let again: Vec<Service> = words.iter().map(|word| Service::named(word)).collect();
    let old = rows::read(&load("times.tsv"));
    let kept = |service: Service| old.iter().filter(|row| row.service == service.word()).cloned().collect();
    let measured = |service| if again.contains(&service) { measure_service(plan, service) } else { kept(service) };
    let rows: Vec<Row> = Service::ALL.into_iter().flat_map(measured).collect();
    save("times.tsv", &rows::write(&rows));
    save("stack.tsv", &measure_stack());
    write();
}

/// The cost against sizes alone: it is counted and not timed, so that it can be had by itself.
pub fn measure_sizes() {
    save("sizes.tsv", &sizes::measure());
    write();
}

/// The same for the cost against the place of the first true term.
pub fn measure_places() {
    save("places.tsv", &places::measure());
    write();
}

/// The same for the parts of a reassignment.
pub fn measure_parts() {
    save("parts.tsv", &parts::measure());
    write();
}

/// z3 on the sheets of the searches, beside the product's times that are there.
pub fn measure_beside_z3() {
    save("z3.tsv", &measure_z3(&rows::read(&load("times.tsv"))));
    write();
}

/// The plots and the tables, from the data.
pub fn write() {
    let rows = rows::read(&load("times.tsv"));
    for (file, picture) in plots::all(&rows) {
        save(file, &picture);
    }
    let page = root().join("docs/PERFORMANCE.md");
    let mut text = fs::read_to_string(&page).expect("docs/PERFORMANCE.md can be read");
    let blocks = [
        ("machine", load("machine.txt")),
        ("search times", tables::times(&rows, "search", "Node")),
        ("search instructions", tables::instructions(&rows, "search")),
        ("check times", tables::times(&rows, "check", "Record")),
        ("check instructions", tables::instructions(&rows, "check")),
        ("limited search times", tables::times(&rows, "search_limited", "Node")),
        ("limited search instructions", tables::instructions(&rows, "search_limited")),
        ("limited check times", tables::times(&rows, "check_limited", "Record")),
        ("limited check instructions", tables::instructions(&rows, "check_limited")),
        ("sizes", tables::plain(&load("sizes.tsv"))),
        ("read times", tables::times(&rows, "read", "Term record")),
        ("read instructions", tables::instructions(&rows, "read")),
        ("evaluate times", tables::times(&rows, "evaluate", "Condition")),
        ("evaluate instructions", tables::instructions(&rows, "evaluate")),
        ("places", tables::plain(&load("places.tsv"))),
        ("count times", tables::times(&rows, "count_unmet", "Condition")),
        ("count instructions", tables::instructions(&rows, "count_unmet")),
        ("reassign times", tables::times(&rows, "reassign", "Condition")),
        ("reassign instructions", tables::instructions(&rows, "reassign")),
        ("parts", tables::plain(&load("parts.tsv"))),
        ("repack times", tables::times(&rows, "repack", "Term record")),
        ("repack instructions", tables::instructions(&rows, "repack")),
        ("merge times", tables::times(&rows, "merge", "Term record")),
        ("merge instructions", tables::instructions(&rows, "merge")),
        ("z3", tables::plain(&load("z3.tsv"))),
        ("stack", tables::plain(&load("stack.tsv"))),
    ];
    for (name, block) in blocks {
        text = tables::replaced(&text, name, &block);
    }
    fs::write(page, text).expect("docs/PERFORMANCE.md can be written");
}
