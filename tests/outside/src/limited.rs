//! One input of the two services that take a limit on the number of classes, and the archive beside the second implementation on it: four numbers for each
//! service, and every byte of the buffers that are written.
use crate::case::{grouping, hex, probe_limited, store_length};
use crate::compare::{Searched, guarded, plain, same, same_bytes};
use crate::guarded::Guarded;
use crate::random::Random;
use lihumbay::raw;
use second::answer::numbers;
use second::limits::{GREATEST_LIMIT, LEAST_LIMIT};
use std::fmt;

pub struct Limited {
    pub sheet: Vec<u8>,
    pub limit: u32,
    pub grouping_length: usize,
    pub store_length: usize,
    /// What the checker is given.
    pub list: Vec<u8>,
    /// The buffers that are written are filled with this byte beforehand. It isn't 0, so that a zero which should not be written is seen.
    pub fill: u8,
}

impl Limited {
    /// A sheet with a grouping of mostly n bytes, a store around the count of nodes, and a list that is the search's own. Where the search takes more than
    /// `room` nodes, the store is around that.
    pub fn of(sheet: Vec<u8>, limit: u32, room: usize, random: &mut Random) -> Limited {
        let found = probe_limited(&sheet, limit, room);
        let grouping_length = grouping(lots(&sheet), random).len();
        let store_length = store_length(found.count(), random);
        Limited { sheet, limit, grouping_length, store_length, list: found.nodes, fill: random.byte() | 1 }
    }

    /// Buffers that are long enough for so many records, and this list.
    pub fn with_list(sheet: Vec<u8>, limit: u32, records: usize, list: Vec<u8>) -> Limited {
        Limited { grouping_length: lots(&sheet), sheet, limit, store_length: 8 * records, list, fill: 0x6D }
    }
}

/// The number of lots, as the first byte has it.
pub fn lots(sheet: &[u8]) -> usize {
    usize::from(*sheet.first().unwrap_or(&0))
}

pub fn is_admitted(limit: u32) -> bool {
    (LEAST_LIMIT as u32..=GREATEST_LIMIT as u32).contains(&limit)
}

/// Limits that 20 refuses: 0, the first above the greatest, and numbers whose last byte or last two bytes alone would be a limit.
pub const REFUSED: [u32; 12] = [0, 130, 255, 256, 257, 258, 65_535, 65_536, 65_537, 65_793, (1 << 31) + 2, u32::MAX];

/// A limit for a sheet with so many lots: mostly one that decides something, now and then one that nothing passes, or one that is refused.
pub fn some_limit(lots: usize, random: &mut Random) -> u32 {
    let classes = lots as u32 + 1;
    match random.below(20) {
        0 => random.pick(&REFUSED),
        1 => classes + random.below(3) as u32,
        2 => random.pick(&[128, 129]),
        3 | 4 => classes.saturating_sub(random.range(1, 2) as u32),
        5..=9 => random.range(1, 3) as u32,
        _ => random.range(1, lots + 1) as u32,
    }
}

/// Every limit that matters to a sheet with so many lots, and those that are refused.
pub fn every_limit(lots: usize) -> Vec<u32> {
    [(1..=lots as u32 + 3).collect(), vec![128, 129], REFUSED.to_vec()].concat()
}

/// The four numbers of each of the two services.
#[derive(Clone, Copy, Debug, PartialEq, Eq)]
pub struct LimitedAnswers {
    pub search: [u32; 4],
    pub check: [u32; 4],
}

/// The archive's search.
pub fn searched(limited: &Limited) -> Searched {
    searched_on(&limited.sheet, limited)
}

/// The archive's search of another sheet, with the same limit and buffers.
pub fn searched_on(sheet: &[u8], limited: &Limited) -> Searched {
    searched_by(limited, |grouping, store| plain(raw::search_limited(sheet, limited.limit, grouping, store)))
}

/// The archive's search without a limit, with the same buffers.
pub fn searched_without(limited: &Limited) -> Searched {
    searched_by(limited, |grouping, store| plain(raw::search(&limited.sheet, grouping, store)))
}

fn searched_by(limited: &Limited, search: impl FnOnce(&mut [u8], &mut [u8]) -> [u32; 4]) -> Searched {
    let (mut grouping, mut store) = (Guarded::new(limited.grouping_length, limited.fill), Guarded::new(limited.store_length, limited.fill));
    let answer = search(grouping.inside(), store.inside());
    let guards = grouping.is_intact() && store.is_intact();
    Searched { answer, grouping: grouping.inside().to_vec(), store: store.inside().to_vec(), guards }
}

fn searched_by_second(limited: &Limited) -> Searched {
    let (mut grouping, mut store) = (vec![limited.fill; limited.grouping_length], vec![limited.fill; limited.store_length]);
    let answer = numbers(&second::search_limited(&limited.sheet, limited.limit, &mut grouping, &mut store));
    Searched { answer, grouping, store, guards: true }
}

/// The answers, if both implementations give the same, else what differs.
pub fn compare_limited(limited: &Limited) -> Result<LimitedAnswers, String> {
    let search = compare_search(limited)?.answer;
    Ok(LimitedAnswers { search, check: compare_check(&limited.sheet, limited.limit, &limited.list)? })
}

fn compare_search(limited: &Limited) -> Result<Searched, String> {
    let (archive, second) = (searched(limited), searched_by_second(limited));
    guarded("search with a limit", archive.guards)?;
    same("search with a limit", &archive.answer, &second.answer)?;
    same_bytes("grouping", &archive.grouping, &second.grouping)?;
    same_bytes("store", &archive.store, &second.store)?;
    Ok(archive)
}

pub fn compare_check(sheet: &[u8], limit: u32, list: &[u8]) -> Result<[u32; 4], String> {
    let archive = plain(raw::check_limited(sheet, limit, list));
    same("checker with a limit", &archive, &numbers(&second::check_limited(sheet, limit, list)))?;
    Ok(archive)
}

impl fmt::Display for Limited {
    fn fmt(&self, out: &mut fmt::Formatter) -> fmt::Result {
        let Limited { limit, grouping_length, store_length, fill, .. } = self;
        writeln!(out, "limit    {limit}")?;
        writeln!(out, "sheet    {}", hex(&self.sheet))?;
        writeln!(out, "grouping {grouping_length} bytes, store {store_length} bytes, both filled with {fill:02x}")?;
        writeln!(out, "list     {}", hex(&self.list))
    }
}
