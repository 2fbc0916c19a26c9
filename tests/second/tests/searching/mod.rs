//! What a search is held to: its answer, and every byte of both buffers.
use second::answer::Answer;
use second::sheet::Term;
use second::store::{Record, list_bytes};
use second::writer::sheet_bytes;
use second::{check, evaluate, search};

const FILL: u8 = 0xA7;

/// The search answers as stated, and writes these records and nothing after them; what it leaves of the grouping, whose bytes past n stay as they were.
fn searched(sheet: &[u8], lots: usize, expected: Answer, nodes: &[Record]) -> Vec<u8> {
    let (mut grouping, mut store) = (vec![FILL; lots + 2], vec![FILL; 8 * nodes.len() + 59]);
    assert_eq!(search(sheet, &mut grouping, &mut store), Ok(expected));
    assert_eq!(store, [list_bytes(nodes), vec![FILL; 59]].concat());
    assert_eq!(grouping[lots..], [FILL; 2]);
    grouping.truncate(lots);
    grouping
}

pub fn cannot(lots: usize, conditions: &[Vec<Term>], nodes: &[Record]) {
    let sheet = sheet_bytes(lots, conditions);
    assert_eq!(searched(&sheet, lots, Answer::Cannot { count: nodes.len() }, nodes), vec![FILL; lots]);
    assert_eq!(check(&sheet, &list_bytes(nodes)), Ok(Answer::Passes));
}

pub fn met_by(lots: usize, conditions: &[Vec<Term>], nodes: &[Record], expected: &[u8]) {
    let sheet = sheet_bytes(lots, conditions);
    assert_eq!(searched(&sheet, lots, Answer::Met { count: nodes.len() }, nodes), expected);
    assert_eq!(evaluate(&sheet, expected), Ok(Answer::AllMet));
}
