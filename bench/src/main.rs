//! Measures the proved services beside Rust baselines: `bench/run.sh` runs all of it.
mod axis;
mod cases;
mod check;
mod classes;
mod clock;
mod compare;
mod count;
mod count_cases;
mod evaluate;
mod evaluations;
mod families;
mod first_true;
mod instructions;
mod jobs;
mod limited_cases;
mod limited_compare;
mod lists;
mod marks;
mod merge;
mod merges;
mod named;
mod pairs;
mod parts;
mod places;
mod plots;
mod random;
mod read;
mod reassign;
mod reassignments;
mod records;
mod repack;
mod report;
mod rounds;
mod rows;
mod search;
mod sheets;
mod sizes;
mod slow;
mod stack;
mod svg;
mod tables;
mod terms;
mod window;
mod z3;

use std::process::ExitCode;

const USAGE: &str = "measure all [quick]       compare, time, count instructions, run z3 and the stack test, write data, plots and tables
measure again SERVICE..   the same for some services, and the stack; the other services' data stay
measure sizes             count the instructions of a node against the sizes of a sheet, and write its table
measure places            count the instructions of an evaluation against the place of the first true term, and write its table
measure parts             count the instructions of a reassignment beside the reading of its sheet, and write their table
measure z3                run z3 beside the product's times that are there, and write its table
measure report            write the plots and tables again from the data
measure row SERVICE KEY   time one input alone, and write nothing
measure compare           compare alone
measure stack             run the deepest search and check on the program's own stack
measure deepest           the stack of a limited search on a path of 8,256 splits, for bench/deepest.sh
measure once SERVICE KEY CONTENDER     one call, for counting instructions";

fn main() -> ExitCode {
    let words: Vec<String> = std::env::args().skip(1).collect();
    match words.iter().map(String::as_str).collect::<Vec<_>>()[..] {
        ["all"] => report::measure(rounds::Plan { rounds: 9, batch: 0.1 }),
        ["all", "quick"] => report::measure(rounds::Plan { rounds: 3, batch: 0.02 }),
        ["again", ref services @ ..] => report::measure_again(rounds::Plan { rounds: 9, batch: 0.1 }, services),
        ["sizes"] => report::measure_sizes(),
        ["places"] => report::measure_places(),
        ["parts"] => report::measure_parts(),
        ["z3"] => report::measure_beside_z3(),
        ["report"] => report::write(),
        ["row", service, key] => report::time_row(service, key),
        ["compare"] => report::compare_all(),
        ["stack"] => stack::on_own(),
        ["deepest"] => stack::deepest(),
        ["once", service, key, contender] => instructions::once(service, key, contender),
        _ => {
            eprintln!("{USAGE}");
            return ExitCode::from(2);
        }
    }
    ExitCode::SUCCESS
}
