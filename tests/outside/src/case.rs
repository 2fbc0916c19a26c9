//! One input of all services.
use crate::random::Random;
use second::answer::{Answer, Refusal};
use second::limits::NODE_LENGTH;
use std::fmt;

pub struct Case {
    pub sheet: Vec<u8>,
    /// What the evaluator is given. The search's grouping has the same length.
    pub grouping: Vec<u8>,
    pub store_length: usize,
    /// What the checker is given.
    pub list: Vec<u8>,
    /// The length of the repacker's output.
    pub out_length: usize,
    /// The buffers that are written are filled with this byte beforehand. It isn't 0, so that a zero which should not be written is seen.
    pub fill: u8,
}

impl Case {
    /// A sheet with a random grouping of at least n bytes, mostly exactly n, a store around the count of nodes, a list that is the search's own, and an output
    /// around the canonical length.
    pub fn of(sheet: Vec<u8>, random: &mut Random) -> Case {
        Case::with_room(sheet, 300, random)
    }

    /// As `of`; where the search takes more than `room` nodes, the store is around that.
    pub fn with_room(sheet: Vec<u8>, room: usize, random: &mut Random) -> Case {
        let found = probe(&sheet, room);
        let lots = usize::from(*sheet.first().unwrap_or(&0));
        let grouping = grouping(lots, random);
        let store_length = store_length(found.count(), random);
        Case { grouping, store_length, list: found.nodes, fill: random.byte() | 1, out_length: out_length(&sheet, random), sheet }
    }
}

/// Few different numbers, so that lots are often equal; now and then a length that isn't n.
pub fn grouping(lots: usize, random: &mut Random) -> Vec<u8> {
    let length = match random.below(10) {
        0 => lots.saturating_sub(1),
        1 => lots + random.range(1, 9),
        2 => random.below(lots + 1),
        _ => lots,
    };
    let few = random.pick(&[1, 2, 3, 8, 256]);
    (0..length).map(|_| random.below(few) as u8).collect()
}

/// Around the exact count of nodes, also no whole number of records, and 0.
pub fn store_length(count: usize, random: &mut Random) -> usize {
    let records = match random.below(8) {
        0 => 0,
        1 | 2 => count.saturating_sub(1),
        3 | 4 => count,
        5 => count + 1,
        6 => random.below(count + 1),
        _ => count + random.below(20),
    };
    NODE_LENGTH * records + if random.chance(50) { random.below(NODE_LENGTH) } else { 0 }
}

/// Around the canonical length, and 0. Now and then the low 16 bits alone would be too short.
pub fn out_length(sheet: &[u8], random: &mut Random) -> usize {
    let exact = canonical_length(sheet);
    match random.below(10) {
        0 => 0,
        1 | 2 => exact.saturating_sub(1),
        3 => exact.saturating_sub(random.range(2, 9)),
        4 => random.below(exact + 1),
        5 | 6 => exact,
        7 => exact + 1,
        8 if random.chance(2) => (1 << 16) + random.below(exact + 1),
        _ => exact + random.below(40),
    }
}

/// The length of the canonical bytes, or the sheet's own where it is refused.
pub fn canonical_length(sheet: &[u8]) -> usize {
    match second::repack(sheet, &mut []) {
        Err(Refusal { check: 16, place }) => place,
        _ => sheet.len(),
    }
}

/// What the second implementation finds with room for `room` records.
pub struct Found {
    pub answer: Option<Answer>,
    pub grouping: Vec<u8>,
    /// The records written, or none where the store was full or the sheet is refused.
    pub nodes: Vec<u8>,
    room: usize,
}

impl Found {
    /// The count of records, or the room where the count is above it.
    pub fn count(&self) -> usize {
        match self.answer {
            Some(Answer::Met { count }) | Some(Answer::Cannot { count }) => count,
            _ => self.room,
        }
    }

    pub fn cannot(&self) -> bool {
        matches!(self.answer, Some(Answer::Cannot { .. }))
    }
}

pub fn probe(sheet: &[u8], room: usize) -> Found {
    probe_by(room, |grouping, nodes| second::search(sheet, grouping, nodes))
}

/// As `probe`, with a limit.
pub fn probe_limited(sheet: &[u8], limit: u32, room: usize) -> Found {
    probe_by(room, |grouping, nodes| second::search_limited(sheet, limit, grouping, nodes))
}

fn probe_by(room: usize, search: impl FnOnce(&mut [u8], &mut [u8]) -> Result<Answer, Refusal>) -> Found {
    let (mut grouping, mut nodes) = (vec![0; 256], vec![0; NODE_LENGTH * room]);
    let answer = search(&mut grouping, &mut nodes).ok();
    let mut found = Found { answer, grouping, nodes, room };
    let written = if answer.is_some() { found.count() } else { 0 };
    found.nodes.truncate(NODE_LENGTH * written);
    found
}

pub(crate) fn hex(bytes: &[u8]) -> String {
    bytes.iter().map(|byte| format!("{byte:02x}")).collect()
}

impl fmt::Display for Case {
    fn fmt(&self, out: &mut fmt::Formatter) -> fmt::Result {
        writeln!(out, "sheet    {}", hex(&self.sheet))?;
        writeln!(out, "grouping {}", hex(&self.grouping))?;
        writeln!(out, "store    {} bytes, output {} bytes, both filled with {:02x}", self.store_length, self.out_length, self.fill)?;
        writeln!(out, "list     {}", hex(&self.list))
    }
}
