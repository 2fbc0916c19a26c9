//! The numbers of the format, each once.

/// "lots n (at most 128)"
pub const MOST_LOTS: usize = 128;
/// Document 02: "Lot 0 now stands for the hold and may appear in terms and in splits". n doesn't count it.
pub const ZERO_LOT: usize = 0;
/// "conditions m (at most 256)"
pub const MOST_CONDITIONS: usize = 256;
/// "term records k (at most 1,024)"
pub const MOST_TERMS: usize = 1024;
/// "Bytes 0 to 5"
pub const HEADER_LENGTH: usize = 6;
/// "m heads, two bytes each"
pub const HEAD_LENGTH: usize = 2;
/// "k records of eight bytes"
pub const TERM_LENGTH: usize = 8;
/// "One record of eight bytes per node visited"
pub const NODE_LENGTH: usize = 8;
/// "The store holds S records: ... at most 65,535", and check 10's "above 65,535 records"
pub const MOST_NODES: usize = 65_535;
/// Check 15: "1,024 splits stand above it"
pub const MOST_SPLITS_ABOVE: usize = 1024;
/// Document 02, of the checker that is given a limit: "its depth check 15 then stands at 8,256 splits"
pub const MOST_SPLITS_ABOVE_LIMITED: usize = 8256;
/// Document 02: "a cap g from 1 to 129"
pub const LEAST_LIMIT: usize = 1;
pub const GREATEST_LIMIT: usize = 129;
/// "sign (one byte, 1 "same", 2 "apart")"
pub const SAME: u8 = 1;
pub const APART: u8 = 2;
/// "Kind 1 split", "Kind 2 ground", "Kind 3 met"
pub const SPLIT: u8 = 1;
pub const GROUND: u8 = 2;
pub const MET: u8 = 3;
/// Document 02: "the node is a crowd: kind 4"
pub const CLIQUE: u8 = 4;
