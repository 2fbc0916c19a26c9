//! What a reassignment takes beside the reading of its sheet, and what counting anew takes so, in instructions of a call.
use crate::axis::grouped;
use crate::{compare, instructions, jobs};

const HEADER: &str = "Input\tReading\tReassignment, less reading\tCounting anew, less reading\n";

/// The fields of a row, parted by tabs; nothing where valgrind isn't there.
fn line(mut jobs: [jobs::Job; 2]) -> Option<String> {
    jobs.iter_mut().for_each(compare::compare);
    let calls = instructions::by(&jobs[0], &["product", "counting anew"]);
    let reading = instructions::by(&jobs[1], &["product"])[0]?;
    let [own, anew] = [calls[0]?, calls[1]?].map(|call| grouped(call.saturating_sub(reading)));
    Some([jobs[0].name.clone(), grouped(reading), own, anew].join("\t"))
}

/// A line for each row of the reassignments.
pub fn measure() -> String {
    let mut text = HEADER.to_string();
    for jobs in jobs::with_readings() {
        let Some(line) = line(jobs) else { return String::new() };
        println!("{line}");
        text += &(line + "\n");
    }
    text
}
