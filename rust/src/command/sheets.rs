//! Sheets from files, and `encode`, `decode`, `repack`, `merge` and `withdraw`.
use super::ending::{Failure, Status};
use super::files::{self, Source};
use super::texts::{self, is_text};
use lihumbay::{MOST_SHEET_LENGTH, Sheet};

/// An accepted sheet, with the bytes that it came from.
pub struct Accepted {
    pub bytes: Vec<u8>,
    pub sheet: Sheet,
}

/// Reads a sheet's bytes. What isn't accepted and looks like text may be a sheet that was not encoded.
pub fn read(source: &Source) -> Result<Accepted, Failure> {
    let bytes = source.first_bytes(MOST_SHEET_LENGTH + 1)?;
    match Sheet::from_bytes(&bytes) {
        Ok(sheet) => Ok(Accepted { bytes, sheet }),
        Err(refusal) if !bytes.is_empty() && is_text(&bytes) => {
            Err(source.failure(format!("{refusal}; this looks like text: `lihumbay encode` makes a sheet of it")))
        }
        Err(refusal) => Err(source.failure(refusal)),
    }
}

pub fn encode(source: &Source) -> Result<Status, Failure> {
    let text = texts::read(source, "this isn't text; if it is a sheet, `lihumbay decode` writes it as text")?;
    let sheet: Sheet = text.parse().map_err(|error| source.failure(error))?;
    files::print(|out| out.write_all(&sheet.to_bytes()))
}

pub fn decode(source: &Source) -> Result<Status, Failure> {
    let accepted = read(source)?;
    files::print(|out| write!(out, "{}", accepted.sheet))
}

pub fn repack(source: &Source) -> Result<Status, Failure> {
    let accepted = read(source)?;
    let canonical = lihumbay::repack(&accepted.bytes).map_err(|refusal| source.failure(refusal))?;
    files::print(|out| out.write_all(&canonical))
}

/// Both files have sheets, so a failure says which of the two it is of. The first is looked at before the second is opened.
pub fn merge(first: &Source, second: &Source) -> Result<Status, Failure> {
    let first = read(first).map_err(|failure| failure.of("first sheet"))?;
    let second = read(second).map_err(|failure| failure.of("second sheet"))?;
    let merged = lihumbay::merge(&first.bytes, &second.bytes).map_err(|refusal| Failure::new(refusal.to_string()))?;
    files::print(|out| out.write_all(&merged))
}

pub fn withdraw(source: &Source, condition: u32) -> Result<Status, Failure> {
    let accepted = read(source)?;
    let bytes = lihumbay::withdraw(&accepted.bytes, condition).map_err(|error| source.failure(error))?;
    files::print(|out| out.write_all(&bytes))
}
