//! The records of a torn file that are walked (request 11): those that its lengths frame from the start, up to the first 99. Serves to make room for
//! them and to speak of them; what is walked, the proved library decides.

use crate::character_set::CharacterSet;
use crate::digits::number_in;

/// A record by its length alone.
#[derive(Clone, Copy)]
pub(crate) struct Walked<'f> {
    pub offset: u64,
    /// By its first two characters; 0 where they are no digits.
    pub record_type: u64,
    pub body: &'f [u8],
}

/// The records in their order.
pub(crate) fn walked(file: &[u8]) -> impl Iterator<Item = Walked<'_>> {
    let set = CharacterSet::of(file);
    let (mut at, mut ended) = (0, false);
    std::iter::from_fn(move || {
        let (length, after) = file.get(at..).filter(|_| !ended)?.split_first_chunk()?;
        let body = after.get(..u32::from_be_bytes(*length) as usize)?;
        let record_type = number_in(set, body.get(..2)?).unwrap_or(0);
        let record = Walked { offset: at as u64, record_type, body };
        at += 4 + body.len();
        ended = record_type == 99;
        Some(record)
    })
}
