//! The measured rows, and the file that has them: one line for each job and contender, fields parted by tabs.
use crate::jobs::Job;
use crate::rounds::{Spread, Taken};

#[derive(Clone, Debug)]
pub struct Row {
    pub service: String,
    pub key: String,
    pub name: String,
    pub family: String,
    pub answer: String,
    pub terms: usize,
    pub longest: usize,
    pub units: usize,
    pub contender: String,
    /// Nanoseconds a unit: a node, a record of a list, a term record, or a condition.
    pub time: Spread,
    /// The product's time divided by this contender's, round by round.
    pub ratio: Spread,
    /// Instructions of the whole call.
    pub instructions: Option<u64>,
}

const HEADER: &str = "service\tkey\tname\tfamily\tanswer\tterms\tlongest condition\tunits\tcontender\tns a unit, least\tns a unit, middle\tns a unit, most\tratio, least\tratio, middle\tratio, most\tinstructions";

impl Row {
    pub fn new(job: &Job, contender: &str, taken: Taken, instructions: Option<u64>) -> Row {
        Row {
            service: job.service.word().into(),
            key: job.key.clone(),
            name: job.name.clone(),
            family: job.family.into(),
            answer: job.answer(),
            terms: job.sheet.terms(),
            longest: job.sheet.longest(),
            units: job.units,
            contender: contender.into(),
            time: taken.time.times(1e9 / job.units as f64),
            ratio: taken.ratio,
            instructions,
        }
    }

    fn line(&self) -> String {
        let words = [&self.service, &self.key, &self.name, &self.family, &self.answer].map(String::as_str).join("\t");
        let [time, ratio] = [self.time, self.ratio].map(|s| format!("{:.3}\t{:.3}\t{:.3}", s.least, s.middle, s.most));
        let counts = format!("{}\t{}\t{}\t{}", self.terms, self.longest, self.units, self.contender);
        let instructions = self.instructions.map_or(String::new(), |count| count.to_string());
        format!("{words}\t{counts}\t{time}\t{ratio}\t{instructions}")
    }

    fn parse(line: &str) -> Option<Row> {
        let fields: Vec<&str> = line.split('\t').collect();
        let word = |i: usize| fields.get(i).map(|field| field.to_string());
        let count = |i: usize| fields.get(i)?.parse::<usize>().ok();
        let value = |i: usize| fields.get(i)?.parse::<f64>().ok();
        let spread = |i: usize| Some(Spread { least: value(i)?, middle: value(i + 1)?, most: value(i + 2)? });
        Some(Row {
            service: word(0)?,
            key: word(1)?,
            name: word(2)?,
            family: word(3)?,
            answer: word(4)?,
            terms: count(5)?,
            longest: count(6)?,
            units: count(7)?,
            contender: word(8)?,
            time: spread(9)?,
            ratio: spread(12)?,
            instructions: fields.get(15)?.parse().ok(),
        })
    }

    pub fn instructions_a_unit(&self) -> Option<f64> {
        Some(self.instructions? as f64 / self.units as f64)
    }
}

pub fn write(rows: &[Row]) -> String {
    std::iter::once(HEADER.to_string()).chain(rows.iter().map(Row::line)).map(|line| line + "\n").collect()
}

pub fn read(text: &str) -> Vec<Row> {
    text.lines().skip(1).map(|line| Row::parse(line).expect("a line of the data file")).collect()
}
