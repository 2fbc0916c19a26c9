//! The archive's merge beside the second implementation's, in every number and every byte.
use crate::compare::{guarded, plain, same, same_bytes};
use crate::guarded::Guarded;
use crate::random::Random;
use lihumbay::raw;
use second::answer::{Answer, Refusal};
use second::merge::{MergeRefusal, merge_numbers, merge_where};
use std::hint::black_box;

/// What a merge answers and leaves behind.
#[derive(Clone, Debug, PartialEq, Eq)]
pub struct Merged {
    pub answer: [u32; 4],
    pub out: Vec<u8>,
    /// No byte next to the output was written.
    pub guards: bool,
}

/// The archive's merge, into an output that has these bytes beforehand.
pub fn merged(first: &[u8], second: &[u8], before: &[u8]) -> Merged {
    let mut out = Guarded::new(before.len(), 0x5A);
    out.inside().copy_from_slice(before);
    let answer = plain(raw::merge(first, second, out.inside()));
    Merged { answer, guards: out.is_intact(), out: out.inside().to_vec() }
}

/// The four numbers, if both implementations give the same and leave the same bytes behind, else what differs.
pub fn compare_merge(first: &[u8], second: &[u8], before: &[u8]) -> Result<[u32; 4], String> {
    let inputs = (first.to_vec(), second.to_vec());
    let archive = merged(first, second, before);
    let mut out = before.to_vec();
    let answer = merge_numbers(&second::merge(first, second, &mut out));
    guarded("merge", archive.guards)?;
    same("merge", &archive.answer, &answer)?;
    same_bytes("output", &archive.out, &out)?;
    let written = if archive.answer[0] == 0 { archive.answer[1] as usize } else { 0 };
    same_bytes("output past what was written", &archive.out[written..], &before[written..])?;
    // Without the black box the compiler may take it for granted that what is lent to be read stays.
    if inputs != (black_box(first).to_vec(), black_box(second).to_vec()) {
        return Err("a sheet that is only read was changed".into());
    }
    Ok(archive.answer)
}

/// The length that 19 asks for, or that of both sheets where they are refused otherwise.
pub fn merged_length(first: &[u8], second: &[u8]) -> usize {
    length_asked(second::merge(first, second, &mut [])).unwrap_or(first.len() + second.len())
}

/// What 19 would ask for if any condition might be left out as a repeat: of all that are withdrawn one stays, so that it may be shorter. It is at most
/// `merged_length`.
pub fn length_by_request_4(first: &[u8], second: &[u8]) -> usize {
    length_asked(merge_where(|_| true, first, second, &mut [])).unwrap_or(usize::MAX).min(merged_length(first, second))
}

fn length_asked(answer: Result<Answer, MergeRefusal>) -> Option<usize> {
    match answer {
        Err(MergeRefusal { refusal: Refusal { check: 19, place }, .. }) => Some(place),
        _ => None,
    }
}

/// Both implementations with no output, one that is a byte too short, one that fits, and longer ones, all with random bytes in them; also with one that is too
/// short by withdrawn conditions alone, where there are such. Now and then the low 16 bits of the length alone would be too short.
pub fn compare_lengths(first: &[u8], second: &[u8], random: &mut Random) -> Result<Vec<[u32; 4]>, String> {
    let (exact, shorter) = (merged_length(first, second), length_by_request_4(first, second));
    let long = if random.chance(1) { (1 << 16) + random.below(exact + 1) } else { exact + random.range(2, 60) };
    let lengths = [0, random.below(exact + 1), random.range(shorter, exact), exact.saturating_sub(1), exact, exact + 1, long];
    lengths.into_iter().map(|length| compare_merge(first, second, &random.bytes(length))).collect()
}
