//! The repacker, with an output of its own or a lent one.
use crate::limits::MOST_SHEET_LENGTH;
use crate::raw;
use crate::refusal::Refusal;

/// Repacks a sheet: the same lots and conditions, with the records of condition 1 first, in the order of its chain, then those of condition 2, and so on.
/// Vacant records are dropped, and withdrawn conditions keep their places. Sheets with equal lots and equal conditions, withdrawn ones included, give equal
/// bytes, others never do, and a packed sheet stays as it is. They are the canonical bytes, which [`Sheet::to_bytes`](crate::Sheet::to_bytes) has too.
///
/// ```
/// // "same 1 2 | apart 2 1", whose first term is record 2.
/// let sheet = [2, 0, 1, 0, 2, 0, 2, 0, 2, 0, 2, 0, 1, 0, 0, 0, 1, 0, 1, 0, 2, 0, 1, 0];
/// let packed = lihumbay::repack(&sheet)?;
/// assert_eq!(packed, [2, 0, 1, 0, 2, 0, 1, 0, 1, 0, 1, 0, 2, 0, 2, 0, 2, 0, 2, 0, 1, 0, 0, 0]);
/// assert_eq!(lihumbay::repack(&packed)?, packed);
/// # Ok::<(), lihumbay::Refusal>(())
/// ```
pub fn repack(sheet: &[u8]) -> Result<Vec<u8>, Refusal> {
    // A packed sheet is no longer than the sheet, and no accepted sheet is longer than this.
    let mut out = vec![0; sheet.len().min(MOST_SHEET_LENGTH)];
    let length = repack_into(sheet, &mut out)?;
    out.truncate(length);
    Ok(out)
}

/// Repacks a sheet into a lent output, and answers the bytes written. The rest of the output stays as it was, and a refusal writes nothing. Check 16 refuses an
/// output that is shorter than the packed sheet, and its place is the length needed, which may be below the sheet's own; [`MOST_SHEET_LENGTH`] bytes are always
/// enough.
///
/// ```
/// let mut out = [7; 8];
/// assert_eq!(lihumbay::repack_into(&[9, 0, 0, 0, 0, 0], &mut out)?, 6);
/// assert_eq!(out, [9, 0, 0, 0, 0, 0, 7, 7]);
/// let refusal = lihumbay::repack_into(&[9, 0, 0, 0, 0, 0], &mut out[..5]).unwrap_err();
/// assert_eq!((refusal.check.number(), refusal.place), (16, 6));
/// # Ok::<(), lihumbay::Refusal>(())
/// ```
pub fn repack_into(sheet: &[u8], out: &mut [u8]) -> Result<usize, Refusal> {
    Refusal::or_numbers(raw::repack(sheet, out)).map(|numbers| numbers.first as usize)
}
