//! The archive beside the second implementation: four numbers for each service, and every byte of the buffers that are written.
use crate::case::Case;
use crate::guarded::Guarded;
use lihumbay::raw;
use second::answer::{Answer, Refusal, numbers};

/// The four numbers of each service.
#[derive(Clone, Debug, PartialEq, Eq)]
pub struct Answers {
    pub read: [u32; 4],
    pub search: [u32; 4],
    pub evaluate: [u32; 4],
    pub count: [u32; 4],
    pub check: [u32; 4],
    pub repack: [u32; 4],
}

/// What a search answers and leaves behind.
#[derive(Clone, Debug, PartialEq, Eq)]
pub struct Searched {
    pub answer: [u32; 4],
    pub grouping: Vec<u8>,
    pub store: Vec<u8>,
    /// No byte next to a buffer was written.
    pub guards: bool,
}

/// What the repacker answers and leaves behind.
#[derive(Clone, Debug, PartialEq, Eq)]
pub struct Repacked {
    pub answer: [u32; 4],
    pub out: Vec<u8>,
    /// No byte next to the output was written.
    pub guards: bool,
}

pub fn plain(answer: raw::Numbers) -> [u32; 4] {
    [answer.check, answer.first, answer.second, answer.third]
}

/// The archive's search.
pub fn searched(case: &Case) -> Searched {
    searched_on(&case.sheet, case)
}

/// The archive's search of another sheet, with the case's buffers.
pub fn searched_on(sheet: &[u8], case: &Case) -> Searched {
    let (mut grouping, mut store) = (Guarded::new(case.grouping.len(), case.fill), Guarded::new(case.store_length, case.fill));
    let answer = plain(raw::search(sheet, grouping.inside(), store.inside()));
    let guards = grouping.is_intact() && store.is_intact();
    Searched { answer, grouping: grouping.inside().to_vec(), store: store.inside().to_vec(), guards }
}

/// The archive's repacking.
pub fn repacked(case: &Case) -> Repacked {
    repacked_on(&case.sheet, case)
}

/// The archive's repacking of another sheet, with the case's output.
pub fn repacked_on(sheet: &[u8], case: &Case) -> Repacked {
    let mut out = Guarded::new(case.out_length, case.fill);
    let answer = plain(raw::repack(sheet, out.inside()));
    Repacked { answer, guards: out.is_intact(), out: out.inside().to_vec() }
}

fn searched_by_second(case: &Case) -> Searched {
    let (mut grouping, mut store) = (vec![case.fill; case.grouping.len()], vec![case.fill; case.store_length]);
    let answer = numbers(&second::search(&case.sheet, &mut grouping, &mut store));
    Searched { answer, grouping, store, guards: true }
}

fn repacked_by_second(case: &Case) -> Repacked {
    let mut out = vec![case.fill; case.out_length];
    let answer = numbers(&second::repack(&case.sheet, &mut out));
    Repacked { answer, out, guards: true }
}

/// The answers, if both implementations give the same, else what differs.
pub fn compare(case: &Case) -> Result<Answers, String> {
    let searched = compare_search(case)?;
    let repacked = compare_repack(case)?;
    Ok(Answers {
        read: equal("reader", raw::read(&case.sheet), second::read(&case.sheet))?,
        search: searched.answer,
        evaluate: equal("evaluator", raw::evaluate(&case.sheet, &case.grouping), second::evaluate(&case.sheet, &case.grouping))?,
        count: equal("count", raw::count_unmet(&case.sheet, &case.grouping), second::count_unmet(&case.sheet, &case.grouping))?,
        check: equal("checker", raw::check(&case.sheet, &case.list), second::check(&case.sheet, &case.list))?,
        repack: repacked.answer,
    })
}

fn compare_search(case: &Case) -> Result<Searched, String> {
    let (archive, second) = (searched(case), searched_by_second(case));
    guarded("search", archive.guards)?;
    same("search", &archive.answer, &second.answer)?;
    same_bytes("grouping", &archive.grouping, &second.grouping)?;
    same_bytes("store", &archive.store, &second.store)?;
    Ok(archive)
}

fn compare_repack(case: &Case) -> Result<Repacked, String> {
    let (archive, second) = (repacked(case), repacked_by_second(case));
    guarded("repacker", archive.guards)?;
    same("repacker", &archive.answer, &second.answer)?;
    same_bytes("output", &archive.out, &second.out)?;
    Ok(archive)
}

pub(crate) fn guarded(service: &str, guards: bool) -> Result<(), String> {
    if guards { Ok(()) } else { Err(format!("{service}: a byte next to a buffer was written")) }
}

fn equal(service: &str, archive: raw::Numbers, second: Result<Answer, Refusal>) -> Result<[u32; 4], String> {
    let archive = plain(archive);
    same(service, &archive, &numbers(&second))?;
    Ok(archive)
}

pub(crate) fn same(service: &str, archive: &[u32; 4], second: &[u32; 4]) -> Result<(), String> {
    if archive == second { Ok(()) } else { Err(format!("{service}: the archive gives {archive:?}, the second implementation {second:?}")) }
}

pub(crate) fn same_bytes(buffer: &str, archive: &[u8], second: &[u8]) -> Result<(), String> {
    match archive.iter().zip(second).position(|(one, other)| one != other) {
        None => Ok(()),
        Some(at) => Err(format!("{buffer}, byte {at}: {:02x} in the archive's, {:02x} in the second's", archive[at], second[at])),
    }
}
