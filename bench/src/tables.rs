//! The tables of docs/PERFORMANCE.md, written from the measured rows between marks in its text, so that text and figures can't part.
use crate::axis::grouped;
use crate::rounds::Spread;
use crate::rows::Row;

/// A time with as many places as it is worth.
pub fn short(value: f64) -> String {
    if value >= 100.0 { grouped(value.round() as u64) } else { format!("{value:.1}") }
}

fn ratio(spread: Spread) -> String {
    format!("{:.2} ({:.2} to {:.2})", spread.middle, spread.least, spread.most)
}

/// The rows of a service, those of one job together.
fn jobs<'a>(rows: &'a [Row], service: &str) -> Vec<Vec<&'a Row>> {
    let mut jobs: Vec<Vec<&Row>> = Vec::new();
    for row in rows.iter().filter(|row| row.service == service) {
        match jobs.last_mut() {
            Some(job) if job[0].key == row.key => job.push(row),
            _ => jobs.push(vec![row]),
        }
    }
    jobs
}

fn table(header: &[&str], lines: impl Iterator<Item = Vec<String>>) -> String {
    let rule: String = std::iter::repeat_n("---:|", header.len() - 1).collect();
    let mut text = format!("| {} |\n|---|{rule}\n", header.join(" | "));
    for line in lines {
        text += &format!("| {} |\n", line.join(" | "));
    }
    text
}

/// Name, units, the product's time, and for each other contender its time and the ratio.
pub fn times(rows: &[Row], service: &str, unit: &str) -> String {
    let jobs = jobs(rows, service);
    let Some(first) = jobs.first() else { return String::new() };
    let mut header = vec!["Input".to_string(), format!("{unit}s"), "Answer".into(), "Product".into()];
    for row in &first[1..] {
        header.extend([row.contender[..1].to_uppercase() + &row.contender[1..], "Ratio".into()]);
    }
    let header: Vec<&str> = header.iter().map(String::as_str).collect();
    let line = |job: &Vec<&Row>| {
        let mut line = vec![job[0].name.clone(), grouped(job[0].units as u64), job[0].answer.clone(), short(job[0].time.least)];
        for row in &job[1..] {
            line.extend([short(row.time.least), ratio(row.ratio)]);
        }
        line
    };
    table(&header, jobs.iter().map(line))
}

/// Instructions a unit, and the product's divided by each other contender's.
pub fn instructions(rows: &[Row], service: &str) -> String {
    let jobs = jobs(rows, service);
    let Some(first) = jobs.first() else { return String::new() };
    if first.iter().any(|row| row.instructions.is_none()) {
        return "valgrind wasn't there in this run.\n".into();
    }
    let mut header = vec!["Input".to_string(), "Product".into()];
    for row in &first[1..] {
        header.extend([row.contender[..1].to_uppercase() + &row.contender[1..], "Ratio".into()]);
    }
    let header: Vec<&str> = header.iter().map(String::as_str).collect();
    let line = |job: &Vec<&Row>| {
        let own = job[0].instructions_a_unit().unwrap_or(0.0);
        let mut line = vec![job[0].name.clone(), short(own)];
        for count in job[1..].iter().map(|row| row.instructions_a_unit().unwrap_or(0.0)) {
            line.extend([short(count), format!("{:.2}", own / count)]);
        }
        line
    };
    table(&header, jobs.iter().map(line))
}

/// Lines of a file of fields, as a table. The file is empty where its command wasn't there.
pub fn plain(text: &str) -> String {
    let mut lines = text.lines().map(|line| line.split('\t').map(String::from).collect::<Vec<_>>());
    let Some(header) = lines.next() else { return "Not measured in this run.\n".into() };
    table(&header.iter().map(String::as_str).collect::<Vec<_>>(), lines)
}

/// The text with what stands between a pair of marks replaced.
pub fn replaced(text: &str, name: &str, block: &str) -> String {
    let (open, close) = (format!("<!-- {name} -->\n"), format!("<!-- end of {name} -->"));
    let (Some(from), Some(to)) = (text.find(&open), text.find(&close)) else { return text.into() };
    format!("{}\n{block}\n{}", &text[..from + open.len()], &text[to..])
}
