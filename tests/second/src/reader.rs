//! The sheet reader: checks 1 to 7, and document 02's 17.
use crate::answer::{Answer, Refusal, refuse};
use crate::limits::*;
use crate::sheet::{Sheet, Sign, Term};

/// "A sheet is accepted when none of the table's checks on its own bytes, here 1 to 7, refuses it; the reader then answers n, m and k." Document 02 has one
/// more check on these bytes, 17, and says of vacant records: "k, read or printed, still counts them".
pub fn read(bytes: &[u8]) -> Result<Answer, Refusal> {
    let sheet = accept(bytes)?;
    Ok(Answer::Accepted { lots: sheet.lots, conditions: sheet.conditions.len(), terms: sheet.records })
}

/// The bytes of a sheet with its three counts. Condition and record numbers count from 1, lots from 0.
struct Raw<'a> {
    bytes: &'a [u8],
    lots: usize,
    conditions: usize,
    records: usize,
}

/// "sign (one byte, ...), spare (one byte, 0), lot a, lot b, next (two bytes each)"
struct RawTerm {
    sign: u8,
    spare: u8,
    a: usize,
    b: usize,
    next: usize,
}

/// "Two-byte numbers have the low byte first."
fn two_bytes(bytes: &[u8], at: usize) -> usize {
    usize::from(bytes[at]) + 256 * usize::from(bytes[at + 1])
}

impl Raw<'_> {
    /// "m heads, two bytes each: the record number of the condition's first term"
    fn head(&self, condition: usize) -> usize {
        two_bytes(self.bytes, HEADER_LENGTH + HEAD_LENGTH * (condition - 1))
    }

    /// "k records of eight bytes", after the heads
    fn record(&self, record: usize) -> &[u8] {
        let at = HEADER_LENGTH + HEAD_LENGTH * self.conditions + TERM_LENGTH * (record - 1);
        &self.bytes[at..at + TERM_LENGTH]
    }

    /// Document 02: "Its old records are blanked to eight zero bytes, which makes them vacant."
    fn is_vacant(&self, record: usize) -> bool {
        self.record(record).iter().all(|&byte| byte == 0)
    }

    fn term(&self, record: usize) -> RawTerm {
        let bytes = self.record(record);
        RawTerm { sign: bytes[0], spare: bytes[1], a: two_bytes(bytes, 2), b: two_bytes(bytes, 4), next: two_bytes(bytes, 6) }
    }
}

/// "Checks run down the table."
pub fn accept(bytes: &[u8]) -> Result<Sheet, Refusal> {
    let raw = header(bytes)?;
    length(&raw)?;
    heads(&raw)?;
    records(&raw)?;
    let conditions = chains(&raw)?;
    Ok(Sheet { lots: raw.lots, records: raw.records, conditions })
}

/// 1: "fewer than 6 bytes", place 0. 2: "n, m or k above its most, in this order", place 1, 2 or 3.
fn header(bytes: &[u8]) -> Result<Raw<'_>, Refusal> {
    if bytes.len() < HEADER_LENGTH {
        return refuse(1, 0);
    }
    let raw = Raw { bytes, lots: two_bytes(bytes, 0), conditions: two_bytes(bytes, 2), records: two_bytes(bytes, 4) };
    if raw.lots > MOST_LOTS {
        return refuse(2, 1);
    }
    if raw.conditions > MOST_CONDITIONS {
        return refuse(2, 2);
    }
    if raw.records > MOST_TERMS {
        return refuse(2, 3);
    }
    Ok(raw)
}

/// 3: "length wrong", place 0. "The length is 6 + 2m + 8k."
fn length(raw: &Raw) -> Result<(), Refusal> {
    if raw.bytes.len() != HEADER_LENGTH + HEAD_LENGTH * raw.conditions + TERM_LENGTH * raw.records {
        return refuse(3, 0);
    }
    Ok(())
}

/// 4: "heads, rising", "head above k", place the condition.
fn heads(raw: &Raw) -> Result<(), Refusal> {
    for condition in 1..=raw.conditions {
        if raw.head(condition) > raw.records {
            return refuse(4, condition);
        }
    }
    Ok(())
}

/// 5: "records, rising", "sign, spare or lot out of range, next above k", place the record. Document 02: "Checks 5 and 7 pass over vacant records", "Checks 5
/// and 11 admit lot 0."
fn records(raw: &Raw) -> Result<(), Refusal> {
    for record in 1..=raw.records {
        if raw.is_vacant(record) {
            continue;
        }
        let term = raw.term(record);
        let sign = term.sign == SAME || term.sign == APART;
        let spare = term.spare == 0;
        let lots = (ZERO_LOT..=raw.lots).contains(&term.a) && (ZERO_LOT..=raw.lots).contains(&term.b);
        let next = term.next <= raw.records;
        if !(sign && spare && lots && next) {
            return refuse(5, record);
        }
    }
    Ok(())
}

/// 6: "chains, by condition", "a record reached a second time", place the record. 7: "after the chains", "a record never reached", place "lowest such".
/// Document 02: "Checks 5 and 7 pass over vacant records".
fn chains(raw: &Raw) -> Result<Vec<Vec<Term>>, Refusal> {
    let mut reached = vec![false; raw.records + 1];
    let mut conditions = Vec::new();
    for condition in 1..=raw.conditions {
        conditions.push(chain(raw, raw.head(condition), &mut reached)?);
    }
    for (record, &was_reached) in reached.iter().enumerate().skip(1) {
        if !was_reached && !raw.is_vacant(record) {
            return refuse(7, record);
        }
    }
    Ok(conditions)
}

/// "A chain is walked from its head, term by term, to the zero." Document 02: "17, a chain reaches a vacant record, tested before 6 at each record; place is
/// the record."
fn chain(raw: &Raw, head: usize, reached: &mut [bool]) -> Result<Vec<Term>, Refusal> {
    let mut terms = Vec::new();
    let mut record = head;
    while record != 0 {
        if raw.is_vacant(record) {
            return refuse(17, record);
        }
        if reached[record] {
            return refuse(6, record);
        }
        reached[record] = true;
        let term = raw.term(record);
        let sign = if term.sign == SAME { Sign::Same } else { Sign::Apart };
        terms.push(Term { sign, a: term.a, b: term.b });
        record = term.next;
    }
    Ok(terms)
}
