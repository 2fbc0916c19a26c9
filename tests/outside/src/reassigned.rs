//! One input of the reassignment of a lot, and the archive beside the second implementation on it: four numbers, and every byte of the grouping.
use crate::case::hex;
use crate::compare::{guarded, plain, same, same_bytes};
use crate::guarded::Guarded;
use lihumbay::raw;
use second::answer::numbers;
use std::fmt;
use std::hint::black_box;

#[derive(Clone)]
pub struct Reassignment {
    pub sheet: Vec<u8>,
    /// As it is before the call.
    pub grouping: Vec<u8>,
    /// The running count, be it right or wrong.
    pub count: u32,
    pub lot: u32,
    pub value: u8,
}

/// What a reassignment answers and leaves behind.
#[derive(Clone, Debug, PartialEq, Eq)]
pub struct Reassigned {
    pub answer: [u32; 4],
    pub grouping: Vec<u8>,
    /// No byte next to the grouping was written.
    pub guards: bool,
}

/// The archive's reassignment.
pub fn reassigned(input: &Reassignment) -> Reassigned {
    reassigned_on(&input.sheet, 0x5A, input)
}

/// The archive's reassignment on another sheet, with bytes next to the grouping that are not `fill`.
pub fn reassigned_on(sheet: &[u8], fill: u8, input: &Reassignment) -> Reassigned {
    let mut grouping = Guarded::new(input.grouping.len(), fill);
    grouping.inside().copy_from_slice(&input.grouping);
    let answer = plain(raw::reassign(sheet, grouping.inside(), input.count, input.lot, input.value));
    Reassigned { answer, guards: grouping.is_intact(), grouping: grouping.inside().to_vec() }
}

/// What the archive gives and leaves behind, if the second implementation gives and leaves the same, else what differs.
pub fn compare_reassignment(input: &Reassignment) -> Result<Reassigned, String> {
    let sheet = input.sheet.clone();
    let archive = reassigned(input);
    let mut grouping = input.grouping.clone();
    let answer = numbers(&second::reassign(&input.sheet, &mut grouping, input.count, input.lot, input.value));
    guarded("reassignment", archive.guards)?;
    same("reassignment", &archive.answer, &answer)?;
    same_bytes("grouping", &archive.grouping, &grouping)?;
    // Without the black box the compiler may take it for granted that what is lent to be read stays.
    if sheet != *black_box(&input.sheet) {
        return Err("the sheet, which is only read, was changed".into());
    }
    Ok(archive)
}

impl fmt::Display for Reassignment {
    fn fmt(&self, out: &mut fmt::Formatter) -> fmt::Result {
        let Reassignment { count, lot, value, .. } = self;
        writeln!(out, "sheet    {}", hex(&self.sheet))?;
        writeln!(out, "grouping {}", hex(&self.grouping))?;
        writeln!(out, "running count {count}, lot {lot}, value {value:02x}")
    }
}
