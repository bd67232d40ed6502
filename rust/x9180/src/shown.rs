//! Bytes of a file, and counts of things, as a person can read them. Every module but `character_set` may import this one, which imports that one alone.

use crate::character_set::CharacterSet;

/// Bytes as text in quotes where all are characters of the set, otherwise as hexadecimal numbers.
pub(crate) fn shown(set: CharacterSet, bytes: &[u8]) -> String {
    match set.text(bytes) {
        Some(text) => format!("\"{text}\""),
        None => {
            let numbers: Vec<String> = bytes.iter().map(|byte| format!("{byte:02X}")).collect();
            format!("the byte{} {} (hexadecimal)", if bytes.len() == 1 { "" } else { "s" }, numbers.join(" "))
        }
    }
}

/// A field of characters. In EBCDIC the characters among bytes that are none are shown all the same, since few know its numbers by heart:
/// `"BANK\x4A"`.
pub(crate) fn shown_field(set: CharacterSet, bytes: &[u8]) -> String {
    let has_character = bytes.iter().any(|byte| set.character(*byte).is_some());
    let has_both = has_character && set.text(bytes).is_none();
    if set == CharacterSet::Ascii || !has_both {
        return shown(set, bytes);
    }
    let one = |byte: &u8| match set.character(*byte) {
        // Told apart from the backslash of a byte that is no character.
        Some('\\') => "\\\\".to_string(),
        Some(character) => character.to_string(),
        None => format!("\\x{byte:02X}"),
    };
    format!("\"{}\"", bytes.iter().map(one).collect::<String>())
}

/// A number with its noun: `1 byte`, `2 bytes`.
pub(crate) fn counted(number: u64, noun: &str) -> String {
    format!("{number} {noun}{}", if number == 1 { "" } else { "s" })
}

#[cfg(test)]
mod tests {
    use super::*;
    use CharacterSet::{Ascii, Ebcdic};

    #[test]
    fn text_where_it_can_be_and_numbers_otherwise() {
        assert_eq!(shown(Ascii, b"A\\1"), "\"A\\1\"");
        assert_eq!(shown(Ebcdic, &[0xC1, 0xE0, 0xF1]), "\"A\\1\"");
        assert_eq!(shown(Ascii, &[0xC1]), "the byte C1 (hexadecimal)");
        assert_eq!(shown(Ebcdic, &[0xC1, 0x4A]), "the bytes C1 4A (hexadecimal)");
        assert_eq!(shown(Ebcdic, b""), "\"\"");
    }

    #[test]
    fn characters_among_bytes_that_are_none() {
        assert_eq!(shown_field(Ebcdic, &[0xC1, 0x4A, 0xE0, 0x00]), "\"A\\x4A\\\\\\x00\"");
        assert_eq!(shown_field(Ebcdic, &[0xC1, 0xE0]), "\"A\\\"");
        assert_eq!(shown_field(Ebcdic, b"03"), "the bytes 30 33 (hexadecimal)");
        // In ASCII the numbers, as before request 5.
        assert_eq!(shown_field(Ascii, b"A\n"), "the bytes 41 0A (hexadecimal)");
        assert_eq!(shown_field(Ascii, b"A1"), "\"A1\"");
    }
}
