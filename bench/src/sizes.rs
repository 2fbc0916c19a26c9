//! What a node and a ground cost against the sizes of a sheet, in instructions: sheets of one kind whose terms and pairs differ, searched, and their refutations
//! checked.
use crate::axis::grouped;
use crate::jobs::{self, Job};
use crate::{compare, instructions, tables};

const HEADER: &str = "Terms false\tPairs apart\tBytes\tNodes\tSearch: product\tplain\tplain, undone\ttuned\tCheck: product\tplain\ttuned\n";

/// Instructions a node or a record of the contenders that don't check the sheet, and of the product; nothing where valgrind isn't there.
fn costs(job: &Job) -> Option<Vec<String>> {
    let counts = job.service.contenders().into_iter().zip(instructions::of(job));
    let shown = counts.filter(|(name, _)| *name != "tuned, checked");
    shown.map(|(_, count)| Some(tables::short(count? as f64 / job.units as f64))).collect()
}

/// A line for each sheet, fields parted by tabs.
pub fn measure() -> String {
    let mut text = String::from(HEADER);
    for (terms, pairs, mut jobs) in jobs::sizes() {
        jobs.iter_mut().for_each(compare::compare);
        let [search, check] = jobs;
        let (Some(node), Some(record)) = (costs(&search), costs(&check)) else { return String::new() };
        let sizes = [terms, pairs, search.bytes.len(), search.units].map(|size| grouped(size as u64));
        let line = sizes.into_iter().chain(node).chain(record).collect::<Vec<_>>().join("\t");
        println!("{line}");
        text += &(line + "\n");
    }
    text
}
