//! What is asked about each draft: the lengths of the buffers that are lent.

use peer_reader::descent::Number;
use peer_reader::random::Random;

use crate::write::Verdict;

/// Buffers for files above this many bytes are lent only short.
const LARGE: u64 = 8_000_000;

/// Buffer lengths: exactly enough, one byte short, none, one byte more, a chance shorter one, a chance larger one.
pub fn buffer_lengths(verdict: &Verdict, random: &mut Random) -> Vec<usize> {
    let needed = verdict.answer.offset as usize;
    if verdict.answer.number != Number::Accepted {
        return vec![0, random.below(700)];
    }
    if needed as u64 > LARGE {
        return vec![0, random.below(5_000)];
    }
    vec![needed, needed - 1, 0, needed + 1, random.below(needed), needed + random.below(300)]
}

/// Draft lengths for a file of so many records: rows to spare, exactly enough, a number short, a row short, a chance length, none.
pub fn draft_lengths(rows: usize, random: &mut Random) -> Vec<usize> {
    let enough = rows * crate::draft::ROW;
    if enough == 0 {
        return vec![random.below(80), 0];
    }
    vec![enough + random.below(30), enough, enough - 1, enough - crate::draft::ROW, random.below(enough), 0]
}
