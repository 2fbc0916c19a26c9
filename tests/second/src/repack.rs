//! The writer of canonical bytes, and check 16: document 02's jobs 1 and 2.
use crate::answer::{Answer, Refusal, refuse};
use crate::reader::accept;
use crate::writer::sheet_bytes;

/// "Add a writer that repacks an accepted sheet into another buffer." "Output past the packed length is untouched, by later sheet writers too; each answers the
/// length it wrote." Of vacant records and withdrawn conditions: "Repacking drops them and keeps struck heads in place".
pub fn repack(bytes: &[u8], out: &mut [u8]) -> Result<Answer, Refusal> {
    let sheet = accept(bytes)?;
    let canonical = sheet_bytes(sheet.lots, &sheet.conditions);
    // "Checks: 16, output shorter than the packed sheet, after 7, place the packed length; nothing is written."
    let length = canonical.len();
    if out.len() < length {
        return refuse(16, length);
    }
    out[..length].copy_from_slice(&canonical);
    Ok(Answer::Written { length })
}
