//! Text from files.
use super::ending::Failure;
use super::files::Source;

/// All text of a source. Where it isn't text, the failure says `otherwise`.
pub fn read(source: &Source, otherwise: &str) -> Result<String, Failure> {
    let text = String::from_utf8(source.bytes()?).ok().filter(|text| is_text(text.as_bytes()));
    let text = text.ok_or_else(|| source.failure(otherwise))?;
    // Some editors begin a file with this mark.
    Ok(text.strip_prefix('\u{feff}').map(Into::into).unwrap_or(text))
}

/// Whether bytes have nothing but what text has. A byte sequence that the input's end cut in two is passed over.
pub fn is_text(bytes: &[u8]) -> bool {
    let text = String::from_utf8_lossy(bytes);
    text.trim_end_matches(char::REPLACEMENT_CHARACTER)
        .chars()
        .all(|letter| letter != char::REPLACEMENT_CHARACTER && (!letter.is_control() || letter.is_whitespace()))
}

#[cfg(test)]
mod tests {
    use super::is_text;

    #[test]
    fn text_is_told_from_sheets() {
        assert!(is_text("same 1 2\r\n\tapart 1 2 # é".as_bytes()));
        assert!(is_text(&"é".as_bytes()[..1]));
        assert!(!is_text(&[1, 0, 0, 0, 0, 0]));
        assert!(!is_text(&[b'a', 0xff, b'a']));
    }
}
