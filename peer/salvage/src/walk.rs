//! The walk (reading 60): the records that the lengths frame from the start, each with the type that its first two characters name.

use peer_reader::charset::{Set, Text};
use peer_reader::descent::split_record;
use peer_reader::judge::{all_digits_in, number_in};

/// One record of the walk.
#[derive(Clone, Copy, Debug)]
pub struct Walked<'a> {
    /// Where its length field stands.
    pub offset: usize,
    /// The number that its first two characters spell, if they are digits; carried or not, sound or not.
    pub kind: Option<u8>,
    pub body: &'a [u8],
}

impl Walked<'_> {
    pub fn is(&self, code: u8) -> bool {
        self.kind == Some(code)
    }

    /// Whether it is of one of these types.
    pub fn is_any(&self, codes: &[u8]) -> bool {
        self.kind.is_some_and(|kind| codes.contains(&kind))
    }
}

/// Why the walk went no further.
#[derive(Clone, Copy, Debug, PartialEq, Eq, PartialOrd, Ord)]
pub enum End {
    /// The bytes end behind a record, or there are none.
    Bytes,
    /// Fewer than four bytes are left.
    CutInLength,
    /// Fewer bytes are left than the length says.
    CutInRecord,
    /// A length of 0 or 1.
    BelowTwo(u8),
    /// Behind the first 99, and whether bytes stand there.
    Behind99(bool),
}

/// Walks the lengths from the start until the bytes end, CUT, a length below 2, or behind the first 99.
pub fn walk(file: &[u8]) -> (Vec<Walked<'_>>, End) {
    let set = Set::of(file);
    let mut walked = Vec::new();
    let mut at = 0;
    loop {
        let left = &file[at..];
        let body = match split_record(left) {
            _ if left.is_empty() => return (walked, End::Bytes),
            None if left.len() < 4 => return (walked, End::CutInLength),
            None => return (walked, End::CutInRecord),
            Some(body) if body.len() < 2 => return (walked, End::BelowTwo(body.len() as u8)),
            Some(body) => body,
        };
        let record = Walked { offset: at, kind: kind_of(set, body), body };
        walked.push(record);
        at += 4 + body.len();
        if record.is(99) {
            return (walked, End::Behind99(at < file.len()));
        }
    }
}

/// The type by the first two characters alone.
fn kind_of(set: Set, body: &[u8]) -> Option<u8> {
    let characters = Text::new(set, &body[..2]);
    all_digits_in(characters).then(|| number_in(characters) as u8)
}
