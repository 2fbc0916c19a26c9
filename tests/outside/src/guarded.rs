//! Buffers that are lent to be written, with bytes around them that tell whether a service wrote past them.

/// Bytes before and after a buffer that is lent: an odd number of them, so that the buffer lies at an odd address.
const GUARD: usize = 17;

/// A buffer inside a larger one, so that a byte written outside it is seen.
pub struct Guarded {
    bytes: Vec<u8>,
    guard: u8,
}

impl Guarded {
    pub fn new(length: usize, fill: u8) -> Guarded {
        let mut bytes = vec![fill; length + 2 * GUARD];
        let guard = !fill;
        bytes[..GUARD].fill(guard);
        bytes[GUARD + length..].fill(guard);
        Guarded { bytes, guard }
    }

    pub fn inside(&mut self) -> &mut [u8] {
        let end = self.bytes.len() - GUARD;
        &mut self.bytes[GUARD..end]
    }

    pub fn is_intact(&self) -> bool {
        let end = self.bytes.len() - GUARD;
        self.bytes[..GUARD].iter().chain(&self.bytes[end..]).all(|&byte| byte == self.guard)
    }
}
