//! A tuned reader. A sheet whose records stand in the order of their chains, the common case, is accepted by one pass over the records, eight two-byte fields
//! at a time without a branch, and one over the heads. Where records may be vacant, another pass over the records takes that one's place, a record at a time.
//! Of a sheet whose records are in another order the chains are walked. Whatever isn't accepted is read again by the plain reader, which knows which check
//! refuses it.
use crate::read::plain;
use crate::records::answered;
use lihumbay::raw::Numbers;
use std::array::from_fn;

fn number(bytes: [u8; 2]) -> usize {
    usize::from(u16::from_le_bytes(bytes))
}

fn next_of(record: &[u8; 8]) -> usize {
    number([record[6], record[7]])
}

/// What a pass over the records found: a record that isn't well formed, a next that isn't the following record, how many records aren't vacant, and how many
/// chains end.
struct Fields {
    wrong: bool,
    scattered: bool,
    live: usize,
    ends: usize,
}

/// Two records: sign with spare, two lots and next, twice.
type Pair = [u16; 8];

/// What the pairs so far gathered. A field less its least must be at most its room: `over` has what is above. A next is zero or the following record: `astray` has
/// the lesser of its distances from the two, which is zero where it is one of them.
#[derive(Clone, Copy)]
struct Gathered {
    over: Pair,
    astray: Pair,
    zeros: Pair,
    expected: Pair,
}

impl Gathered {
    #[inline]
    fn with(self, pair: &[[u8; 8]; 2], room: &Pair) -> Gathered {
        const LEAST: Pair = [1, 0, 0, 0, 1, 0, 0, 0];
        let bytes = pair.as_flattened().as_chunks::<2>().0;
        let field: Pair = from_fn(|j| u16::from_le_bytes(bytes[j]));
        Gathered {
            over: from_fn(|j| self.over[j] | field[j].wrapping_sub(LEAST[j]).saturating_sub(room[j])),
            astray: from_fn(|j| self.astray[j] | field[j].min(field[j] ^ self.expected[j])),
            zeros: from_fn(|j| self.zeros[j] + u16::from(field[j] == 0)),
            expected: self.expected.map(|expected| expected.wrapping_add(2)),
        }
    }
}

/// The pass for sheets without a vacant record: such a record is wrong here, as its sign is 0. Within its caller the compiler doesn't do eight fields at a
/// time.
#[inline(never)]
fn fields(n: u16, records: &[[u8; 8]]) -> Fields {
    let k = records.len() as u16;
    let room = [1, n, n, k, 1, n, n, k];
    let mut all = Gathered { over: [0; 8], astray: [0; 8], zeros: [0; 8], expected: [0, 0, 0, 2, 0, 0, 0, 3] };
    let (pairs, odd) = records.as_chunks::<2>();
    for pair in pairs {
        all = all.with(pair, &room);
    }
    if let [record] = odd {
        // A record that names lot 0 and has no next fills the last pair up.
        all = all.with(&[*record, [1, 0, 0, 0, 0, 0, 0, 0]], &room);
    }
    Fields {
        wrong: all.over != [0; 8],
        scattered: all.astray[3] | all.astray[7] != 0,
        live: records.len(),
        ends: usize::from(all.zeros[3] + all.zeros[7]) - odd.len(),
    }
}

/// The high bit of each of a record's four fields: sign with spare, two lots, next.
const HIGH: u64 = 0x8000_8000_8000_8000;

/// The pass for sheets with vacant records. A record is one number, its fields side by side.
///
/// No field is above its most: taken from that with its high bit set it leaves the bit, and it has none itself. `given` then has the high bit of each field
/// that isn't zero. `signless` has all of a record whose sign is zero, and must have nothing: so a record that begins with zero is vacant. A next isn't
/// astray where it is zero, or differs by zero from the following record and that one isn't vacant.
fn fields_with_vacant(n: u64, records: &[[u8; 8]]) -> Fields {
    let most = HIGH | 2 | n << 16 | n << 32 | (records.len() as u64) << 48;
    let (mut fit, mut signless, mut astray, mut counts, mut following, mut before) = (HIGH, 0, 0, 0, 2 << 48, 0);
    for record in records {
        let record = u64::from_le_bytes(*record);
        let given = record.wrapping_add(!HIGH) & HIGH;
        fit &= most.wrapping_sub(record) & !record;
        signless |= record & (given >> 15 & 1).wrapping_sub(1);
        astray |= given & (record ^ following).wrapping_add(!HIGH) | before & !(given << 48);
        counts += given >> 15;
        following += 1 << 48;
        before = given;
    }
    let (live, nexts) = (usize::from(counts as u16), (counts >> 48) as usize);
    Fields { wrong: fit != HIGH || signless != 0, scattered: astray >> 63 != 0, live, ends: live.wrapping_sub(nexts) }
}

/// Of a record that is well formed or vacant.
fn is_vacant(record: &[u8; 8]) -> bool {
    record[0] == 0
}

/// Of records that stand in the order of their chains: whether the heads name, rising, each record where a chain begins. Each beginning has its end, so that it
/// is enough to compare the numbers of both.
fn heads_in_order(heads: &[[u8; 2]], records: &[[u8; 8]], ends: usize) -> bool {
    let (mut before, mut chains) = (0, 0);
    for head in heads.iter().map(|head| number(*head)).filter(|head| *head != 0) {
        let begins = head == 1 || records.get(head.wrapping_sub(2)).is_some_and(|record| next_of(record) == 0);
        if head <= before || !begins || records.get(head - 1).is_none_or(is_vacant) {
            return false;
        }
        (before, chains) = (head, chains + 1);
    }
    chains == ends
}

/// Of records that are well formed or vacant, in any order: the chains have each that isn't vacant, and have it once.
fn each_reached(heads: &[[u8; 2]], records: &[[u8; 8]], live: usize) -> bool {
    let mut reached = [false; 1024];
    let mut count = 0;
    for head in heads {
        let mut at = number(*head);
        while at != 0 {
            let Some(record) = records.get(at - 1) else { return false };
            if std::mem::replace(&mut reached[(at - 1) & 1023], true) || is_vacant(record) {
                return false;
            }
            count += 1;
            at = next_of(record);
        }
    }
    count == live
}

pub fn read(sheet: &[u8]) -> Numbers {
    let Some((counts, rest)) = sheet.split_first_chunk::<6>() else { return plain::read(sheet) };
    let [n, m, k] = [0, 2, 4].map(|i| number([counts[i], counts[i + 1]]));
    if n > 128 || m > 256 || k > 1024 || rest.len() != 2 * m + 8 * k {
        return plain::read(sheet);
    }
    let (heads, records) = rest.split_at(2 * m);
    let (heads, records) = (heads.as_chunks().0, records.as_chunks().0);
    // Where a condition is withdrawn, records are likely to be vacant.
    let expected = heads.iter().fold(false, |any, head| any | (*head == [0; 2]));
    let found = if expected { fields_with_vacant(n as u64, records) } else { fields(n as u16, records) };
    let found = if found.wrong && !expected { fields_with_vacant(n as u64, records) } else { found };
    let in_order = !found.scattered && heads_in_order(heads, records, found.ends);
    if !found.wrong && (in_order || each_reached(heads, records, found.live)) {
        return answered(n as u32, m as u32, k as u32);
    }
    plain::read(sheet)
}

#[cfg(test)]
mod tests {
    use super::*;
    use crate::families;

    /// What isn't accepted is read again, so that an answer doesn't show which pass gave it.
    #[test]
    fn both_passes_accept_lot_zero() {
        let sheet = families::from_zero(families::mixed(1, 129));
        assert!(sheet.names_zero() && sheet.lots == 128);
        let bytes = sheet.packed();
        let records = bytes[6 + 2 * sheet.conditions.len()..].as_chunks().0;
        for found in [fields(128, records), fields_with_vacant(128, records)] {
            assert!(!found.wrong && !found.scattered && found.live == sheet.terms() && found.ends == sheet.conditions.len());
        }
        let zero = [[1, 0, 0, 0, 0, 0, 0, 0]];
        assert!(!fields(0, &zero).wrong && !fields_with_vacant(0, &zero).wrong);
    }
}
