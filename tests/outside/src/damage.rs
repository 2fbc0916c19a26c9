//! Faults put into sheets and lists that had none.
use crate::lists::any_record;
use crate::random::Random;
use second::limits::*;

/// A sheet's bytes with the counts of its header, as they were before any fault.
pub struct Damaged {
    pub bytes: Vec<u8>,
    lots: usize,
    conditions: usize,
    terms: usize,
}

impl Damaged {
    pub fn of(bytes: Vec<u8>) -> Damaged {
        let pair = |at: usize| usize::from(u16::from_le_bytes([bytes[at], bytes[at + 1]]));
        let (lots, conditions, terms) = (pair(0), pair(2), pair(4));
        Damaged { bytes, lots, conditions, terms }
    }

    fn set(&mut self, at: usize, value: usize) {
        if at + 2 <= self.bytes.len() {
            self.bytes[at..at + 2].copy_from_slice(&(value as u16).to_le_bytes());
        }
    }

    fn set_byte(&mut self, at: usize, value: u8) {
        if at < self.bytes.len() {
            self.bytes[at] = value;
        }
    }

    fn head(&self, random: &mut Random) -> usize {
        HEADER_LENGTH + HEAD_LENGTH * random.below(self.conditions.max(1))
    }

    fn record(&self, number: usize) -> usize {
        HEADER_LENGTH + HEAD_LENGTH * self.conditions + TERM_LENGTH * (number - 1)
    }

    /// One fault of a random kind. Some leave a sheet that is accepted, with another meaning.
    pub fn fault(&mut self, random: &mut Random) {
        match random.below(16) {
            0 => self.header(random),
            1 | 2 => self.a_head(random),
            3 => self.length(random),
            4 => self.an_unreached_record(random),
            6..=8 if self.terms > 0 => self.a_blank(random),
            9 => self.a_vacant_record_more(random),
            5 if !self.bytes.is_empty() => {
                let at = random.below(self.bytes.len());
                self.bytes[at] = random.byte();
            }
            _ if self.terms > 0 => self.a_record(random),
            _ => self.a_head(random),
        }
    }

    fn header(&mut self, random: &mut Random) {
        let (field, most) = random.pick(&[(0, MOST_LOTS), (2, MOST_CONDITIONS), (4, MOST_TERMS)]);
        let value = match random.below(4) {
            0 => most + 1,
            1 => most,
            2 => random.below(1 << 16),
            _ => random.below(8),
        };
        self.set(field, value);
    }

    /// Above k, zero, or another record.
    fn a_head(&mut self, random: &mut Random) {
        let at = self.head(random);
        let value = self.record_number(random);
        self.set(at, value);
    }

    fn record_number(&self, random: &mut Random) -> usize {
        match random.below(6) {
            0 => self.terms + 1,
            1 => 256 + random.below(self.terms + 1),
            2 => random.below(1 << 16),
            3 => 0,
            _ => random.range(0, self.terms),
        }
    }

    /// Above n, lot 0, or another lot.
    fn lot(&self, random: &mut Random) -> usize {
        match random.below(5) {
            0 => ZERO_LOT,
            1 => self.lots + 1,
            2 => 256 + random.range(0, self.lots),
            3 => random.below(1 << 16),
            _ => random.range(ZERO_LOT, self.lots),
        }
    }

    /// Sign, spare, a lot, or next: to itself, to another record, to none, above k.
    fn a_record(&mut self, random: &mut Random) {
        let number = random.range(1, self.terms);
        let at = self.record(number);
        match random.below(8) {
            0 => self.set_byte(at, random.pick(&[0, 1, 2, 3, 255])),
            1 => self.set_byte(at + 1, random.pick(&[1, 2, 255])),
            2 => self.set(at + 2, self.lot(random)),
            3 => self.set(at + 4, self.lot(random)),
            4 => self.set(at + 6, number),
            5 => self.set(at + 6, self.record_number(random)),
            6 => self.set(at + 6, random.range(1, self.terms)),
            _ => self.set(at + 6, 0),
        }
    }

    /// A record blanked, wholly or but for one byte, while the chain that had it stays; or a head that is zero, or leads elsewhere, while its records stay. A
    /// record whose one byte is a sign is a term on lot 0 twice.
    fn a_blank(&mut self, random: &mut Random) {
        let at = self.record(random.range(1, self.terms));
        (at..at + TERM_LENGTH).for_each(|byte| self.set_byte(byte, 0));
        match random.below(5) {
            0 => self.set_byte(at + random.below(TERM_LENGTH), random.pick(&[1, 2, 255])),
            1 => self.set(self.head(random), 0),
            2 => self.set(self.head(random), random.range(0, self.terms)),
            3 => self.set(self.record(random.range(1, self.terms)) + 6, random.range(0, self.terms)),
            _ => {}
        }
    }

    /// A vacant record more at the end, which is accepted; at times a head or a next leads to it.
    fn a_vacant_record_more(&mut self, random: &mut Random) {
        if self.terms == MOST_TERMS {
            return;
        }
        self.terms += 1;
        self.bytes.extend([0; TERM_LENGTH]);
        self.set(4, self.terms);
        match random.below(4) {
            0 => self.set(self.head(random), self.terms),
            1 => self.set(self.record(random.range(1, self.terms)) + 6, self.terms),
            _ => {}
        }
    }

    /// Cut or longer, by a few bytes or by a record.
    fn length(&mut self, random: &mut Random) {
        let by = random.pick(&[1, 2, 7, 8, 16]);
        match random.below(3) {
            0 => self.bytes.truncate(self.bytes.len().saturating_sub(by)),
            1 => self.bytes.truncate(random.below(self.bytes.len() + 1)),
            _ => self.bytes.extend(random.bytes(by)),
        }
    }

    /// A whole record more that no chain reaches, with a next of its own: also into a circle.
    fn an_unreached_record(&mut self, random: &mut Random) {
        if self.terms == MOST_TERMS {
            return;
        }
        self.terms += 1;
        let any = random.range(1, self.terms);
        let next = random.pick(&[0, self.terms, any]) as u16;
        let lot = random.range(ZERO_LOT, self.lots) as u8;
        self.bytes.extend([1, 0, lot, 0, lot, 0, next as u8, (next >> 8) as u8]);
        self.set(4, self.terms);
    }
}

/// One fault in a list: a byte, or a record dropped, inserted, moved or cut.
pub fn list_fault(list: &mut Vec<u8>, lots: usize, conditions: usize, random: &mut Random) {
    let count = list.len() / NODE_LENGTH;
    if count == 0 {
        list.extend(random.bytes(NODE_LENGTH));
        return;
    }
    let at = NODE_LENGTH * random.below(count);
    match random.below(10) {
        0 => list[at] = random.pick(&[0, 1, 2, 3, 4, 255]),
        1 => list[at + 1] = random.pick(&[0, 1, 255]),
        2 => list[at + random.range(2, 7)] = random.pick(&[0, 1, 2, 255]),
        3 | 4 => list[at + random.pick(&[2, 4, 6])] = random.below(count + 2) as u8,
        5 => drop(list.drain(at..at + NODE_LENGTH)),
        6 => {
            let record = any_record(lots, conditions, at / NODE_LENGTH + 1, random).to_bytes();
            list.splice(at..at, record);
        }
        7 => {
            let other = NODE_LENGTH * random.below(count);
            (0..NODE_LENGTH).for_each(|i| list.swap(at + i, other + i));
        }
        8 => list.truncate(if random.chance(70) { at } else { at + random.below(NODE_LENGTH) }),
        _ => list.extend(random.some_bytes(&[NODE_LENGTH, NODE_LENGTH, 16, 3])),
    }
}
