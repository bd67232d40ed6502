//! The two character sets of clause 5, ASCII and EBCDIC (request 5), and the set of a file.
//!
//! EBCDIC is code page 037, which clause 5 names. The EBCDIC column of Table 1 prints other bytes for five characters, [ 4A, ] 4F, ^ 5F,
//! ` B9 and | 6A; the code page decides (reading 35).

/// Whether the proved library carries EBCDIC. While it does not, nothing in EBCDIC is put to it: `compare`, `tests`, `fuzz` and `bench` run
/// as they did before request 5. With `true` the files, records, seeds, points of coverage and timings in EBCDIC join.
pub const EBCDIC_CARRIED: bool = true;

/// A character set. Characters are spoken of by their ASCII bytes.
#[derive(Clone, Copy, Debug, PartialEq, Eq, PartialOrd, Ord)]
pub enum Set {
    Ascii,
    Ebcdic,
}

/// The characters of Table 1: ASCII 20 to 7E.
pub const CHARACTERS: std::ops::RangeInclusive<u8> = 0x20..=0x7E;

/// The byte of each of them in code page 037.
#[rustfmt::skip]
const IN_037: [u8; 95] = [
    //    !     "     #     $     %     &     '     (     )     *     +     ,     -     .     /
    0x40, 0x5A, 0x7F, 0x7B, 0x5B, 0x6C, 0x50, 0x7D, 0x4D, 0x5D, 0x5C, 0x4E, 0x6B, 0x60, 0x4B, 0x61,
    // 0  1     2     3     4     5     6     7     8     9     :     ;     <     =     >     ?
    0xF0, 0xF1, 0xF2, 0xF3, 0xF4, 0xF5, 0xF6, 0xF7, 0xF8, 0xF9, 0x7A, 0x5E, 0x4C, 0x7E, 0x6E, 0x6F,
    // @  A     B     C     D     E     F     G     H     I     J     K     L     M     N     O
    0x7C, 0xC1, 0xC2, 0xC3, 0xC4, 0xC5, 0xC6, 0xC7, 0xC8, 0xC9, 0xD1, 0xD2, 0xD3, 0xD4, 0xD5, 0xD6,
    // P  Q     R     S     T     U     V     W     X     Y     Z     [     \     ]     ^     _
    0xD7, 0xD8, 0xD9, 0xE2, 0xE3, 0xE4, 0xE5, 0xE6, 0xE7, 0xE8, 0xE9, 0xBA, 0xE0, 0xBB, 0xB0, 0x6D,
    // `  a     b     c     d     e     f     g     h     i     j     k     l     m     n     o
    0x79, 0x81, 0x82, 0x83, 0x84, 0x85, 0x86, 0x87, 0x88, 0x89, 0x91, 0x92, 0x93, 0x94, 0x95, 0x96,
    // p  q     r     s     t     u     v     w     x     y     z     {     |     }     ~
    0x97, 0x98, 0x99, 0xA2, 0xA3, 0xA4, 0xA5, 0xA6, 0xA7, 0xA8, 0xA9, 0xC0, 0x4F, 0xD0, 0xA1,
];

/// What stands for a byte that has no counterpart: in ASCII it is in no data type (request 5).
pub const NO_CHARACTER: u8 = 0x00;

/// The character of each byte in code page 037.
const FROM_037: [u8; 256] = {
    let mut characters = [NO_CHARACTER; 256];
    let mut at = 0;
    while at < IN_037.len() {
        characters[IN_037[at] as usize] = 0x20 + at as u8;
        at += 1;
    }
    characters
};

impl Set {
    /// The set of a file, told by its bytes 5 and 6 alone, whatever the first length says; a file of fewer bytes is ASCII (clause 5,
    /// reading 34).
    pub fn of(file: &[u8]) -> Set {
        match file.get(4..6) {
            Some([0xF0, 0xF1]) => Set::Ebcdic,
            _ => Set::Ascii,
        }
    }

    /// The set by which the proved library reads a file: ASCII, while it carries nothing else.
    pub fn by_library(file: &[u8]) -> Set {
        match EBCDIC_CARRIED {
            true => Set::of(file),
            false => Set::Ascii,
        }
    }

    /// The character of a byte, by its ASCII byte. In ASCII that is the byte itself; what is no character there is in no data type.
    pub fn character(self, byte: u8) -> u8 {
        match self {
            Set::Ascii => byte,
            Set::Ebcdic => FROM_037[byte as usize],
        }
    }

    /// The byte of a character of Table 1.
    pub fn byte(self, character: u8) -> u8 {
        match self {
            Set::Ascii => character,
            Set::Ebcdic => IN_037[usize::from(character - 0x20)],
        }
    }

    /// Whether a byte is one of the 95 characters.
    pub fn is_character(self, byte: u8) -> bool {
        CHARACTERS.contains(&self.character(byte))
    }

    /// The bytes that are no characters, in rising order: 161 in either set.
    pub fn strangers(self) -> Vec<u8> {
        (0..=255).filter(|byte| !self.is_character(*byte)).collect()
    }

    /// The bytes of characters that are given in ASCII.
    pub fn bytes(self, characters: &[u8]) -> Vec<u8> {
        characters.iter().map(|character| self.byte(*character)).collect()
    }

    pub fn other(self) -> Set {
        match self {
            Set::Ascii => Set::Ebcdic,
            Set::Ebcdic => Set::Ascii,
        }
    }
}

/// Bytes of a file that are read as characters of its set.
#[derive(Clone, Copy, Debug)]
pub struct Text<'a> {
    set: Set,
    bytes: &'a [u8],
}

impl<'a> Text<'a> {
    pub fn new(set: Set, bytes: &'a [u8]) -> Text<'a> {
        Text { set, bytes }
    }

    pub fn len(self) -> usize {
        self.bytes.len()
    }

    pub fn is_empty(self) -> bool {
        self.bytes.is_empty()
    }

    /// The character at a place.
    pub fn at(self, place: usize) -> u8 {
        self.set.character(self.bytes[place])
    }

    pub fn characters(self) -> impl DoubleEndedIterator<Item = u8> + ExactSizeIterator + 'a {
        self.bytes.iter().map(move |byte| self.set.character(*byte))
    }

    /// Whether all characters are of a class. The set is asked once, not at each byte: ASCII is to be read as fast as before.
    pub fn all(self, class: impl Fn(u8) -> bool) -> bool {
        match self.set {
            Set::Ascii => self.bytes.iter().all(|byte| class(*byte)),
            Set::Ebcdic => self.bytes.iter().all(|byte| class(FROM_037[usize::from(*byte)])),
        }
    }

    pub fn contains(self, character: u8) -> bool {
        !self.all(|one| one != character)
    }

    /// Whether these are the characters.
    pub fn is(self, characters: &[u8]) -> bool {
        self.len() == characters.len() && self.characters().eq(characters.iter().copied())
    }

    /// The characters from one place up to another.
    pub fn part(self, from: usize, to: usize) -> Text<'a> {
        Text { bytes: &self.bytes[from..to], ..self }
    }
}

#[cfg(test)]
mod tests {
    use super::*;

    #[test]
    fn each_character_has_one_byte_in_each_set() {
        for set in [Set::Ascii, Set::Ebcdic] {
            assert!(CHARACTERS.into_iter().all(|character| set.character(set.byte(character)) == character));
            assert_eq!((0..=255).filter(|byte| set.is_character(*byte)).count(), 95);
            assert_eq!(set.strangers().len(), 161);
        }
        let all: std::collections::BTreeSet<u8> = IN_037.into_iter().collect();
        assert_eq!(all.len(), 95);
    }

    /// The ranges and single characters that Table 1 prints in its EBCDIC column, but for the five of reading 35.
    #[test]
    fn table_1_prints_the_same_but_for_five_characters() {
        let printed: [(&[u8], &[u8]); 12] = [
            (b"abcdefghi", &[0x81, 0x82, 0x83, 0x84, 0x85, 0x86, 0x87, 0x88, 0x89]),
            (b"jklmnopqr", &[0x91, 0x92, 0x93, 0x94, 0x95, 0x96, 0x97, 0x98, 0x99]),
            (b"stuvwxyz", &[0xA2, 0xA3, 0xA4, 0xA5, 0xA6, 0xA7, 0xA8, 0xA9]),
            (b"ABCDEFGHI", &[0xC1, 0xC2, 0xC3, 0xC4, 0xC5, 0xC6, 0xC7, 0xC8, 0xC9]),
            (b"JKLMNOPQR", &[0xD1, 0xD2, 0xD3, 0xD4, 0xD5, 0xD6, 0xD7, 0xD8, 0xD9]),
            (b"STUVWXYZ", &[0xE2, 0xE3, 0xE4, 0xE5, 0xE6, 0xE7, 0xE8, 0xE9]),
            (b" ", &[0x40]),
            (b"0123456789", &[0xF0, 0xF1, 0xF2, 0xF3, 0xF4, 0xF5, 0xF6, 0xF7, 0xF8, 0xF9]),
            (
                b"!\"#$%&'()*+,-./",
                &[0x5A, 0x7F, 0x7B, 0x5B, 0x6C, 0x50, 0x7D, 0x4D, 0x5D, 0x5C, 0x4E, 0x6B, 0x60, 0x4B, 0x61],
            ),
            (b":;<=>?@", &[0x7A, 0x5E, 0x4C, 0x7E, 0x6E, 0x6F, 0x7C]),
            (b"\\_", &[0xE0, 0x6D]),
            (b"{}~", &[0xC0, 0xD0, 0xA1]),
        ];
        let mut count = 0;
        for (characters, bytes) in printed {
            assert_eq!(Set::Ebcdic.bytes(characters), bytes, "{}", characters.escape_ascii());
            count += characters.len();
        }
        assert_eq!(count, 90);
        assert_eq!(Set::Ebcdic.bytes(b"[]^`|"), [0xBA, 0xBB, 0xB0, 0x79, 0x4F]);
        let in_table_1 = [0x4A, 0x4F, 0x5F, 0xB9, 0x6A].map(|byte| Set::Ebcdic.character(byte));
        assert_eq!(in_table_1, [0, b'|', 0, 0, 0]);
    }

    #[test]
    fn the_set_is_told_by_bytes_5_and_6() {
        assert_eq!(Set::of(b"\0\0\0\x50\xF0\xF1"), Set::Ebcdic);
        assert_eq!(Set::of(b"\xFF\xFF\xFF\xFF\xF0\xF1 and more"), Set::Ebcdic);
        for file in [
            &b""[..],
            b"\0\0\0\x50\xF0",
            b"\0\0\0\x50\xF1\xF0",
            b"\0\0\0\x5001",
            b"\0\0\0\x50\xF0\x31",
            b"\0\0\0\x500\xF1",
        ] {
            assert_eq!(Set::of(file), Set::Ascii, "{}", file.escape_ascii());
        }
    }
}
