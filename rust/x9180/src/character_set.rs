//! The two character sets that a file may be in (request 5), and their characters. Every module may import this one, which imports none.
//!
//! What is a character here serves to show and to find fields; what is right in a file, the proved library alone decides.

/// The set that the characters of a file are in. The Binary fields of a file are in none.
#[derive(Clone, Copy, Debug, PartialEq, Eq, Hash)]
pub enum CharacterSet {
    /// ASCII.
    Ascii,
    /// EBCDIC, code page 037 (clause 5).
    Ebcdic,
}

/// Code page 037, as far as the characters of clause 5 go: the first byte of each run, and the characters from there on. The page decides
/// where the EBCDIC column of Table 1 prints other bytes, at `[`, `]`, `^`, `` ` `` and `|`.
const CODE_PAGE_037: [(u8, &[u8]); 16] = [
    (0x40, b" "),
    (0x4B, b".<(+|&"),
    (0x5A, b"!$*);"),
    (0x60, b"-/"),
    (0x6B, b",%_>?"),
    (0x79, b"`:#@'=\""),
    (0x81, b"abcdefghi"),
    (0x91, b"jklmnopqr"),
    (0xA1, b"~stuvwxyz"),
    (0xB0, b"^"),
    (0xBA, b"[]"),
    (0xC0, b"{ABCDEFGHI"),
    (0xD0, b"}JKLMNOPQR"),
    (0xE0, b"\\"),
    (0xE2, b"STUVWXYZ"),
    (0xF0, b"0123456789"),
];

impl CharacterSet {
    /// The set of a file: EBCDIC where its bytes 5 and 6, the first two characters after the first length, are F0 F1, the digits 01. Anything
    /// else is ASCII, a file of fewer than six bytes too.
    ///
    /// ```
    /// use x9180::CharacterSet;
    ///
    /// assert_eq!(CharacterSet::of(b"\x00\x00\x00\x50\xF0\xF1"), CharacterSet::Ebcdic);
    /// assert_eq!(CharacterSet::of(b"\x00\x00\x00\x5001"), CharacterSet::Ascii);
    /// ```
    pub fn of(file: &[u8]) -> CharacterSet {
        match file.get(4..6) {
            Some([0xF0, 0xF1]) => CharacterSet::Ebcdic,
            _ => CharacterSet::Ascii,
        }
    }

    /// The character that a byte stands for, one of the 95 of Table 1 (clause 5); `None` for a byte that stands for none of them.
    ///
    /// ```
    /// use x9180::CharacterSet::{Ascii, Ebcdic};
    ///
    /// assert_eq!((Ascii.character(0x41), Ebcdic.character(0xC1)), (Some('A'), Some('A')));
    /// assert_eq!((Ascii.character(0xC1), Ebcdic.character(0x41)), (None, None));
    /// ```
    pub fn character(self, byte: u8) -> Option<char> {
        let in_ascii = match self {
            CharacterSet::Ascii => Some(byte).filter(|byte| (b' '..=b'~').contains(byte)),
            CharacterSet::Ebcdic => CODE_PAGE_037.iter().find_map(|(first, run)| {
                let place = byte.checked_sub(*first)?;
                run.get(usize::from(place)).copied()
            }),
        };
        in_ascii.map(char::from)
    }

    /// Bytes as text; `None` where one of them stands for no character.
    ///
    /// ```
    /// use x9180::CharacterSet::Ebcdic;
    ///
    /// assert_eq!(Ebcdic.text(&[0xC2, 0xC1, 0xD5, 0xD2, 0x40, 0xF1]).as_deref(), Some("BANK 1"));
    /// assert_eq!(Ebcdic.text(b"BANK 1"), None);
    /// ```
    pub fn text(self, bytes: &[u8]) -> Option<String> {
        bytes.iter().map(|byte| self.character(*byte)).collect()
    }

    /// The byte that stands for a character, one of the 95 of Table 1 (clause 5); `None` for any other.
    ///
    /// ```
    /// use x9180::CharacterSet::{Ascii, Ebcdic};
    ///
    /// assert_eq!((Ascii.byte('A'), Ebcdic.byte('A')), (Some(0x41), Some(0xC1)));
    /// assert_eq!((Ascii.byte('\u{e9}'), Ebcdic.byte('\n')), (None, None));
    /// ```
    pub fn byte(self, character: char) -> Option<u8> {
        let in_ascii = u8::try_from(character).ok().filter(|byte| (b' '..=b'~').contains(byte))?;
        match self {
            CharacterSet::Ascii => Some(in_ascii),
            CharacterSet::Ebcdic => CODE_PAGE_037.iter().find_map(|(first, run)| {
                let place = run.iter().position(|other| *other == in_ascii)?;
                first.checked_add(u8::try_from(place).ok()?)
            }),
        }
    }

    /// The value of a digit.
    pub(crate) fn digit(self, byte: u8) -> Option<u64> {
        let zero = match self {
            CharacterSet::Ascii => b'0',
            CharacterSet::Ebcdic => 0xF0,
        };
        byte.checked_sub(zero).filter(|digit| *digit <= 9).map(u64::from)
    }

    /// The set that a record's sender may have meant instead.
    pub(crate) fn other(self) -> CharacterSet {
        match self {
            CharacterSet::Ascii => CharacterSet::Ebcdic,
            CharacterSet::Ebcdic => CharacterSet::Ascii,
        }
    }

    /// The number by which include/x9180.h tells the set to `x9_record_in`.
    pub(crate) fn number(self) -> u64 {
        match self {
            CharacterSet::Ascii => 0,
            CharacterSet::Ebcdic => 1,
        }
    }
}

impl std::fmt::Display for CharacterSet {
    /// `ASCII` or `EBCDIC`.
    fn fmt(&self, f: &mut std::fmt::Formatter<'_>) -> std::fmt::Result {
        f.write_str(match self {
            CharacterSet::Ascii => "ASCII",
            CharacterSet::Ebcdic => "EBCDIC",
        })
    }
}

#[cfg(test)]
mod tests {
    use super::CharacterSet::{Ascii, Ebcdic};

    #[test]
    fn each_of_the_95_characters_has_one_byte_in_each_set() {
        for set in [Ascii, Ebcdic] {
            let mut characters: Vec<char> = (0..=255).filter_map(|byte| set.character(byte)).collect();
            characters.sort();
            assert!(characters.into_iter().eq(' '..='~'), "{set}");
            for character in ' '..='~' {
                assert_eq!(set.byte(character).and_then(|byte| set.character(byte)), Some(character), "{set}");
            }
        }
        assert_eq!((' '..='~').count(), 95);
    }

    /// Ends of runs, and the five characters at which the EBCDIC column of Table 1 differs from the code page.
    #[test]
    fn known_bytes_of_code_page_037() {
        for (byte, character) in [
            (0x40, ' '),
            (0xF0, '0'),
            (0xF9, '9'),
            (0xC1, 'A'),
            (0xC9, 'I'),
            (0xD1, 'J'),
            (0xD9, 'R'),
            (0xE2, 'S'),
            (0xE9, 'Z'),
            (0x81, 'a'),
            (0x89, 'i'),
            (0x91, 'j'),
            (0x99, 'r'),
            (0xA2, 's'),
            (0xA9, 'z'),
            (0x60, '-'),
            (0x5C, '*'),
            (0x61, '/'),
            (0x6F, '?'),
            (0x7F, '"'),
            (0xE0, '\\'),
            (0xA1, '~'),
            (0xBA, '['),
            (0xBB, ']'),
            (0xB0, '^'),
            (0x79, '`'),
            (0x4F, '|'),
        ] {
            assert_eq!(Ebcdic.character(byte), Some(character), "{byte:02X}");
        }
        // What Table 1 prints for [ ^ ` | is, in the code page, no character of clause 5; so are the bytes beside the runs.
        for byte in
            [0x4A, 0x5F, 0xB9, 0x6A, 0x00, 0x41, 0x80, 0x8A, 0x90, 0x9A, 0xA0, 0xAA, 0xCA, 0xDA, 0xE1, 0xEA, 0xFA]
        {
            assert_eq!(Ebcdic.character(byte), None, "{byte:02X}");
        }
    }

    /// The proved library and the independent reader each have a table of their own; this one is laid beside the reader's.
    #[test]
    fn the_independent_reader_has_the_same_characters() {
        for (set, other) in [(Ascii, peer_reader::charset::Set::Ascii), (Ebcdic, peer_reader::charset::Set::Ebcdic)] {
            for byte in 0..=255 {
                let theirs = Some(other.character(byte)).filter(|_| other.is_character(byte)).map(char::from);
                assert_eq!(set.character(byte), theirs, "{set} {byte:02X}");
                assert_eq!(set.digit(byte), theirs.and_then(|digit| digit.to_digit(10)).map(u64::from));
            }
        }
    }

    #[test]
    fn the_set_is_told_by_bytes_5_and_6_alone() {
        assert_eq!(super::CharacterSet::of(b"\xFF\xFF\xFF\xFF\xF0\xF1 and more"), Ebcdic);
        let ascii: [&[u8]; 6] =
            [b"", b"\0\0\0\x50\xF0", b"\xF0\xF1", b"\0\0\0\x500\xF1", b"\0\0\0\x50\xF01", b"\0\0\0\x50\xF1\xF0"];
        for file in ascii {
            assert_eq!(super::CharacterSet::of(file), Ascii, "{}", file.escape_ascii());
        }
    }
}
