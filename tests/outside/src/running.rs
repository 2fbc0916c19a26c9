//! A grouping and its running count through a list of reassignments, in one buffer for the archive and one for the second implementation.
use crate::case::hex;
use crate::compare::{guarded, plain, same, same_bytes};
use crate::guarded::Guarded;
use crate::reassigned::Reassignment;
use lihumbay::raw;
use second::answer::numbers;
use std::fmt;

pub struct Running {
    pub sheet: Vec<u8>,
    archive: Guarded,
    second: Vec<u8>,
    pub count: u32,
    /// How many reassignments there were, refused ones among them.
    steps: usize,
}

impl Running {
    /// A counted start. Where something differs, here or at a step, the test ends.
    pub fn of(sheet: Vec<u8>, grouping: &[u8]) -> Running {
        let mut archive = Guarded::new(grouping.len(), 0xC6);
        archive.inside().copy_from_slice(grouping);
        let [_, count, ..] = plain(raw::count_unmet(&sheet, grouping));
        let mut running = Running { sheet, archive, second: grouping.to_vec(), count, steps: 0 };
        running.counted().unwrap_or_else(|difference| panic!("at the start: {difference}\n{running}"));
        running
    }

    /// The grouping as it is now.
    pub fn grouping(&self) -> &[u8] {
        &self.second
    }

    /// The reassignment of a lot that there is, with the running count: it is never refused. The new running count.
    pub fn step(&mut self, lot: u32, value: u8) -> u32 {
        let answer = self.step_within(self.second.len(), self.count, lot, value);
        assert_eq!(answer, [0, self.count, 0, 0], "step {}, lot {lot}, value {value}\n{self}", self.steps);
        self.count
    }

    /// A reassignment that is to be refused, whatever is wrong with it, lending so many bytes of the grouping. The check.
    pub fn refused(&mut self, length: usize, count: u32, lot: u32, value: u8) -> u32 {
        let [check, ..] = self.step_within(length, count, lot, value);
        assert_ne!(check, 0, "step {}, running count {count}, lot {lot}, value {value}, {length} bytes lent\n{self}", self.steps);
        check
    }

    fn step_within(&mut self, length: usize, count: u32, lot: u32, value: u8) -> [u32; 4] {
        let before = self.second.clone();
        self.steps += 1;
        self.reassigned(&before, length, count, lot, value).unwrap_or_else(|difference| {
            let input = Reassignment { sheet: self.sheet.clone(), grouping: before, count, lot, value };
            panic!("step {}, {length} bytes lent: {difference}\n{input}", self.steps)
        })
    }

    /// Both implementations answer alike and leave the same bytes. A refused reassignment changes none; after any other the running count is the count over
    /// all conditions.
    fn reassigned(&mut self, before: &[u8], length: usize, count: u32, lot: u32, value: u8) -> Result<[u32; 4], String> {
        let answer = plain(raw::reassign(&self.sheet, &mut self.archive.inside()[..length], count, lot, value));
        let expected = numbers(&second::reassign(&self.sheet, &mut self.second[..length], count, lot, value));
        same("reassignment", &answer, &expected)?;
        guarded("reassignment", self.archive.is_intact())?;
        same_bytes("grouping", self.archive.inside(), &self.second)?;
        if answer[0] != 0 {
            return if self.second == before { Ok(answer) } else { Err(format!("{answer:?}, and the grouping was changed")) };
        }
        self.count = answer[1];
        self.counted()?;
        Ok(answer)
    }

    /// The running count is the count over all conditions, by both implementations.
    fn counted(&mut self) -> Result<(), String> {
        let counts =
            [plain(raw::count_unmet(&self.sheet, self.archive.inside())), numbers(&second::count_unmet(&self.sheet, &self.second))];
        if counts == [[0, self.count, 0, 0]; 2] {
            return Ok(());
        }
        Err(format!("the running count is {}, and the counts over all conditions are {counts:?}", self.count))
    }
}

impl fmt::Display for Running {
    fn fmt(&self, out: &mut fmt::Formatter) -> fmt::Result {
        writeln!(out, "sheet    {}", hex(&self.sheet))?;
        writeln!(out, "grouping {}, running count {}", hex(&self.second), self.count)
    }
}
