//! Laws of the reassignment of a lot that need no second implementation. Its reader and writer serve to withdraw some of a sheet's conditions.
use crate::canonical::canonical;
use crate::compare::{plain, same};
use crate::laws::{AROUND, among, counted};
use crate::reassigned::{Reassigned, Reassignment, reassigned, reassigned_on};
use lihumbay::raw;
use second::limits::ZERO_LOT;
use second::reader::accept;
use second::sheet::Term;
use second::writer::sheet_bytes;

/// Every law, on one input and what the archive gave.
pub fn reassign_laws(input: &Reassignment, found: &Reassigned) -> Result<(), String> {
    alike(input, found)?;
    counted(&input.sheet, &input.grouping)?;
    written(input, found)?;
    let [check, before, ..] = count(&input.sheet, &input.grouping);
    if check != 0 {
        return same("reassignment, beside the count", &found.answer, &[check, before, 0, 0]);
    }
    let parts = Parts::of(input);
    refused(input, &parts, found)?;
    weighed(input, &parts, found)?;
    if found.answer[0] == 0 {
        counted(&input.sheet, &found.grouping)?;
        equation(input, before, found)?;
        there_and_back(input, found)?;
    }
    Ok(())
}

fn count(sheet: &[u8], grouping: &[u8]) -> [u32; 4] {
    plain(raw::count_unmet(sheet, grouping))
}

/// The same call gives the same, with other bytes around those that are lent too; and so does the packed sheet.
fn alike(input: &Reassignment, found: &Reassigned) -> Result<(), String> {
    if reassigned(input) != *found {
        return Err("the same call gave two answers, or left other bytes".into());
    }
    for around in [0x00, 0xFF] {
        let sheet = among(&input.sheet, around);
        if reassigned_on(&sheet[AROUND..AROUND + input.sheet.len()], around, input) != *found {
            return Err("an answer depends on bytes that were not lent".into());
        }
    }
    match canonical(&input.sheet)? {
        Some(packed) if reassigned_on(&packed, 0, input) != *found => Err("the packed sheet is answered in another way".into()),
        _ => Ok(()),
    }
}

/// The lot's byte has the value afterwards, and every other byte is as it was; on a refusal every byte is.
fn written(input: &Reassignment, found: &Reassigned) -> Result<(), String> {
    let mut expected = input.grouping.clone();
    if found.answer[0] == 0 {
        expected[input.lot as usize - 1] = input.value;
    }
    if found.grouping == expected { Ok(()) } else { Err(format!("after {:?} the grouping is {:02x?}", found.answer, found.grouping)) }
}

/// An accepted sheet by its conditions: those that name the lot, and the others. In either sheet the other part is withdrawn, so that m stays.
struct Parts {
    lots: u32,
    conditions: u32,
    naming: Vec<u8>,
    others: Vec<u8>,
}

impl Parts {
    fn of(input: &Reassignment) -> Parts {
        let sheet = accept(&input.sheet).expect("a sheet that the archive accepts");
        let names = |condition: &[Term]| condition.iter().any(|term| [term.a, term.b].contains(&(input.lot as usize)));
        let with = |wanted: bool| -> Vec<u8> {
            let part = |condition: &Vec<Term>| if names(condition) == wanted { condition.clone() } else { vec![] };
            sheet_bytes(sheet.lots, &sheet.conditions.iter().map(part).collect::<Vec<_>>())
        };
        Parts { lots: sheet.lots as u32, conditions: sheet.conditions.len() as u32, naming: with(true), others: with(false) }
    }
}

/// 21 refuses exactly lot 0 and those above n; then 22 refuses exactly the running counts above m and those below the count of the conditions naming the lot.
fn refused(input: &Reassignment, parts: &Parts, found: &Reassigned) -> Result<(), String> {
    let [_, named, ..] = count(&parts.naming, &input.grouping);
    let expected = match input {
        Reassignment { lot, .. } if *lot == ZERO_LOT as u32 || *lot > parts.lots => [21, *lot],
        Reassignment { count, .. } if *count > parts.conditions || *count < named => [22, *count],
        _ => [0, found.answer[1]],
    };
    let [check, place] = expected;
    same("reassignment, beside the lots, the conditions and those named", &found.answer, &[check, place, 0, 0])
}

/// Only the conditions naming the lot are weighed: with the others withdrawn nothing changes, and with those withdrawn every running count up to m stays.
fn weighed(input: &Reassignment, parts: &Parts, found: &Reassigned) -> Result<(), String> {
    if reassigned_on(&parts.naming, 0, input) != *found {
        return Err("a condition that doesn't name the lot was weighed".into());
    }
    let answer = reassigned_on(&parts.others, 0, input).answer;
    let expected = match found.answer {
        [21, ..] => found.answer,
        _ if input.count > parts.conditions => [22, input.count, 0, 0],
        _ => [0, input.count, 0, 0],
    };
    same("reassignment, with the conditions that name the lot withdrawn", &answer, &expected)
}

/// The running count changes by as much as the count over all conditions; so a right one stays right.
fn equation(input: &Reassignment, before: u32, found: &Reassigned) -> Result<(), String> {
    let [_, after, ..] = count(&input.sheet, &found.grouping);
    let by = |from: u32, to: u32| i64::from(to) - i64::from(from);
    if by(input.count, found.answer[1]) == by(before, after) {
        return Ok(());
    }
    Err(format!("{before} conditions were unmet and {after} are, but the running count went from {} to {}", input.count, found.answer[1]))
}

/// The lot's old byte given back gives the running count and every byte back, but where the count is above m now.
fn there_and_back(input: &Reassignment, found: &Reassigned) -> Result<(), String> {
    let [_, count, ..] = found.answer;
    let back = reassigned(&Reassignment {
        sheet: input.sheet.clone(),
        grouping: found.grouping.clone(),
        count,
        lot: input.lot,
        value: input.grouping[input.lot as usize - 1],
    });
    let [_, _, conditions, _] = plain(raw::read(&input.sheet));
    let expected = if count > conditions { ([22, count, 0, 0], &found.grouping) } else { ([0, input.count, 0, 0], &input.grouping) };
    if (back.answer, &back.grouping) == expected {
        return Ok(());
    }
    Err(format!("there it gave {:?}, and back {:?}, or other bytes", found.answer, back.answer))
}
