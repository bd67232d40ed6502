//! The records that the lengths of a file frame, whatever they hold: from the start, until fewer bytes are left than a length says.

use x9180::{CharacterSet, Kind};

/// A record by its length alone.
#[derive(Clone, Copy)]
pub struct Framed<'f> {
    /// Counted from 1.
    pub record: u64,
    /// Of its length field.
    pub offset: u64,
    pub body: &'f [u8],
}

impl Framed<'_> {
    /// The kind that its first two characters name.
    pub fn kind(&self, set: CharacterSet) -> Option<&'static Kind> {
        Kind::of_body(set, self.body)
    }

    /// The offset of the byte behind it.
    pub fn end(&self) -> u64 {
        self.offset + 4 + self.body.len() as u64
    }
}

pub fn records(file: &[u8]) -> impl Iterator<Item = Framed<'_>> {
    let mut at = 0;
    (1..).map_while(move |record| {
        let (length, after) = file.get(at..)?.split_first_chunk()?;
        let body = after.get(..u32::from_be_bytes(*length) as usize)?;
        let framed = Framed { record, offset: at as u64, body };
        at += 4 + body.len();
        Some(framed)
    })
}
