//! The character set of a record or file (request 5). The judge reads EBCDIC through ASCII: it translates every byte and judges what comes
//! out. The Binary parts of a 52 are translated with the rest, and nothing looks at them.

#[derive(Clone, Copy, Debug, PartialEq, Eq)]
pub enum Set {
    Ascii,
    Ebcdic,
}

/// Code page 037: the first byte of each run, and the characters of Table 1 that the run holds. At [ ] ^ ` | the code page and Table 1's own
/// column differ, and the code page decides (reading 35).
const RUNS: [(u8, &[u8]); 16] = [
    (0x40, b" "),
    (0x4B, b".<(+|&"),
    (0x5A, b"!$*);"),
    (0x60, b"-/"),
    (0x6B, b",%_>?"),
    (0x79, b"`:#@'=\""),
    (0x81, b"abcdefghi"),
    (0x91, b"jklmnopqr"),
    (0xA1, b"~stuvwxyz"),
    (0xB0, b"^"),
    (0xBA, b"[]"),
    (0xC0, b"{ABCDEFGHI"),
    (0xD0, b"}JKLMNOPQR"),
    (0xE0, b"\\"),
    (0xE2, b"STUVWXYZ"),
    (0xF0, b"0123456789"),
];

impl Set {
    /// Bytes 5 and 6 tell it, whatever the first length says (reading 34).
    pub fn of(file: &[u8]) -> Set {
        if file.len() >= 6 && file[4..6] == [0xF0, 0xF1] {
            Set::Ebcdic
        } else {
            Set::Ascii
        }
    }

    /// The body in ASCII. A byte without a counterpart becomes 00, which is in no data type.
    pub fn to_ascii(self, body: &[u8]) -> Vec<u8> {
        match self {
            Set::Ascii => body.to_vec(),
            Set::Ebcdic => body.iter().map(|byte| character(*byte).unwrap_or(0)).collect(),
        }
    }

    /// An ASCII body in this set; a byte that is no character becomes FF, which has no counterpart.
    pub fn from_ascii(self, body: &[u8]) -> Vec<u8> {
        match self {
            Set::Ascii => body.to_vec(),
            Set::Ebcdic => body.iter().map(|byte| byte_of(*byte).unwrap_or(0xFF)).collect(),
        }
    }
}

/// The character of a byte in code page 037.
fn character(byte: u8) -> Option<u8> {
    let in_run = |(first, run): &(u8, &[u8])| run.get(usize::from(byte.checked_sub(*first)?)).copied();
    RUNS.iter().find_map(in_run)
}

/// The byte of a character in code page 037.
fn byte_of(character: u8) -> Option<u8> {
    let in_run = |(first, run): &(u8, &[u8])| Some(first + run.iter().position(|one| *one == character)? as u8);
    RUNS.iter().find_map(in_run)
}
