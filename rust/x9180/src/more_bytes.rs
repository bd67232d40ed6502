//! Whether bytes that follow could mend a refused file (request 7).
//!
//! It is proved of the library that the bytes up to the end of the record which a TYPE, PLACE, LENGTH, FIELD, LINK or TOTAL names decide the
//! whole answer, and that no accepted file begins a longer one. So the answer and the length at its record tell all that is said here, and
//! this module decides nothing.

use crate::refusal::Number;

/// The most bytes that a file may have.
pub const LIMIT: usize = 268_435_456;

/// The most bytes that a file may have to be read slowly ([`read_slowly`](crate::read_slowly)).
pub const SLOW_LIMIT: usize = 65_536;

/// The fewest bytes that the record which ends a file has: the File Control Record (type 99, clause 35).
const SHORTEST_END: u64 = 80;

/// What the library answered of a file, but for its size, and what the four-byte length at that offset says; `None` where they are not there.
pub(crate) struct Answered {
    pub number: Number,
    pub record: u64,
    pub offset: u64,
    pub length: Option<u64>,
}

impl Answered {
    /// How many of the file's first bytes decide the answer, whatever follows them.
    pub fn decided_by(&self) -> Option<u64> {
        match self.number {
            Number::TYPE | Number::PLACE | Number::LENGTH | Number::FIELD | Number::LINK | Number::TOTAL => {
                Some(self.behind_length().saturating_add(self.length?))
            }
            Number::AFTER => Some(self.offset.saturating_add(1)),
            Number::CUT if self.length.is_some() && self.is_past_limit() => Some(self.behind_length()),
            _ => None,
        }
    }

    /// Whether bytes that follow could mend the file, in plain words.
    pub fn words(&self) -> Option<String> {
        let (record, offset) = (self.record, self.offset);
        match (self.number, self.decided_by()) {
            (Number::ROOM, _) => {
                Some("nothing is to be mended: with memory for its rows it would be accepted".to_string())
            }
            (Number::CUT | Number::OPEN, _) => Some(self.words_of_unfinished()),
            (Number::AFTER, _) => Some(cannot(&format!(
                "the file is whole up to the end of record {}, before offset {offset}, and no byte may follow",
                record.saturating_sub(1)
            ))),
            (_, Some(end)) => Some(cannot(&format!(
                "the fault stands in the bytes up to the end of record {record}, before offset {end}"
            ))),
            _ => None,
        }
    }

    /// Of CUT and OPEN. More bytes bring no fault at an earlier record; whether they mend the file hangs on them and on what has come.
    fn words_of_unfinished(&self) -> String {
        let (record, offset) = (self.record, self.offset);
        if self.is_past_limit() {
            return cannot(&format!("record {record} would end past the {LIMIT} bytes that a file may have"));
        }
        if self.length.is_some_and(|length| length < 2) {
            return cannot(&format!("the length of record {record} leaves no room for its type"));
        }
        might(&match record {
            0 | 1 => "no record has come whole".to_string(),
            2 => format!("the record before offset {offset} stands as it is, whatever follows"),
            _ => format!("the {} records before offset {offset} stand as they are, whatever follows", record - 1),
        })
    }

    fn behind_length(&self) -> u64 {
        self.offset.saturating_add(4)
    }

    /// Whether the record that is cut off or has yet to come would end past the limit.
    fn is_past_limit(&self) -> bool {
        self.behind_length().saturating_add(self.length.unwrap_or(SHORTEST_END)) > LIMIT as u64
    }
}

/// The words for a file that is refused by its length alone.
pub(crate) fn words_of_size(length: u64) -> String {
    match length {
        0 => might("the file has none"),
        _ => cannot("the file has too many already"),
    }
}

fn might(why: &str) -> String {
    format!("more bytes might mend it: {why}")
}

fn cannot(why: &str) -> String {
    format!("no bytes that follow can mend it: {why}")
}
