//! The form of cases that other implementations of the documents made, each with the answer that they gave.
//!
//! A case is the service in one byte, then three buffers, each its length in four bytes, low byte first, and its bytes; one that the service doesn't take is
//! empty. A line has the service, the four numbers of the answer, and a checksum of the second and of the third buffer as they are after the call: the sum of
//! (position from 1) × byte, modulo 65,521.

pub struct Case {
    pub service: u8,
    pub buffers: [Vec<u8>; 3],
}

/// The first bytes of what is left, which then begins after them.
fn take<'a>(left: &mut &'a [u8], count: usize) -> &'a [u8] {
    let (taken, rest) = left.split_at(count);
    *left = rest;
    taken
}

/// Four bytes, low byte first.
fn number(bytes: &[u8]) -> u32 {
    u32::from_le_bytes(bytes.try_into().expect("four bytes"))
}

/// All cases of a file.
pub fn cases(mut left: &[u8]) -> Vec<Case> {
    let mut cases = Vec::new();
    while !left.is_empty() {
        let service = take(&mut left, 1)[0];
        let buffers = [(); 3].map(|()| {
            let length = number(take(&mut left, 4));
            take(&mut left, length as usize).to_vec()
        });
        cases.push(Case { service, buffers });
    }
    cases
}

/// The first buffer of a service that takes a limit: the limit in four bytes, then the sheet.
pub fn limit_and_sheet(first: &[u8]) -> (u32, &[u8]) {
    let (limit, sheet) = first.split_at(4);
    (number(limit), sheet)
}

/// What a reassignment is given in the third buffer, each in four bytes: the running count, the lot, and the value, which is a byte.
pub fn count_lot_and_value(third: &[u8]) -> (u32, u32, u8) {
    let value = u8::try_from(number(&third[8..])).expect("a value is a byte");
    (number(&third[..4]), number(&third[4..8]), value)
}

/// The line of a case, with the four numbers of its answer and the buffers as they are after the call.
pub fn line(case: &Case, [check, first, second, third]: [u32; 4]) -> String {
    let [_, one, other] = &case.buffers;
    format!("{} {check} {first} {second} {third} {} {}", case.service, checksum(one), checksum(other))
}

fn checksum(bytes: &[u8]) -> u64 {
    bytes.iter().zip(1..).map(|(&byte, position)| u64::from(byte) * position).sum::<u64>() % 65_521
}
