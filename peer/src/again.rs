//! A file as the text of its own draft (request 4, readings 44 and 45): the draft of it, and an accepted file written again.

use peer_reader::copy::copy;
use peer_reader::descent::{Answer, Number, Reading};
use peer_reader::random::Random;
use peer_writer::draft::{draft_by, ROW};

use crate::{abi, Difference};

/// Bytes before and behind a lent buffer that no call may touch.
const GUARD: usize = 64;

/// An accepted file there and back: its draft into exactly enough rows and into one row less, and what is written of that draft into a buffer
/// of exactly the file's length and into one byte less.
pub fn round_trip(file: &[u8], reading: &Reading, random: &mut Random) -> Result<(), Difference> {
    let enough = reading.rows.len() * ROW;
    drafts_agree(file, reading, enough - ROW, random)?;
    let draft = drafts_agree(file, reading, enough, random)?;
    written_again(file, reading, &draft, random)
}

/// Both sides on the draft of one file in so many numbers: the number, the answer, every row, every number left alone, guards on either side.
/// Gives the draft as the proved library leaves it.
pub fn drafts_agree(
    file: &[u8],
    reading: &Reading,
    length: usize,
    random: &mut Random,
) -> Result<Vec<u64>, Difference> {
    let pattern = random.draw() | 1;
    let mut theirs = vec![pattern; ROW + length + ROW];
    let mut ours = theirs.clone();
    let expected = draft_by(file, reading, &mut ours[ROW..ROW + length]).listed();
    let (number, answer) = abi::draft_of(file, &mut theirs[ROW..ROW + length])?;
    if answer != expected || number != expected[0] {
        return Err(format!(
            "draft of {length} numbers\n  proved      returns {number}, answer {answer:?}\n  independent answer {expected:?} ({})",
            reading.why
        ));
    }
    if let Some(at) = (0..ours.len()).find(|at| ours[*at] != theirs[*at]) {
        return Err(format!(
            "draft of {length} numbers, answer {answer:?}: row {} number {}\n  proved      {}\n  independent {} (untouched is {pattern})",
            at / ROW,
            at % ROW + 1,
            theirs[at],
            ours[at]
        ));
    }
    theirs.truncate(ROW + length);
    Ok(theirs.split_off(ROW))
}

/// An accepted file by its draft, in a buffer one byte short and in one of its length: ROOM with the bytes needed and nothing touched, then the
/// same bytes, or those of its ASCII copy, with the answer of a reading.
pub fn written_again(file: &[u8], reading: &Reading, draft: &[u64], random: &mut Random) -> Result<(), Difference> {
    let pattern = random.byte();
    let size = file.len();
    let mut out = vec![pattern; GUARD + size + GUARD];
    let room = Answer::refused(Number::Room, size as u64, 0, 0);
    answers("one byte short", abi::write(file, draft, &mut out[GUARD..GUARD + size - 1])?, &room)?;
    if let Some(at) = out.iter().position(|byte| *byte != pattern) {
        let at = at as i64 - GUARD as i64;
        return Err(format!("written again, one byte short: byte {at} of the buffer was touched"));
    }
    answers("of its length", abi::write(file, draft, &mut out[GUARD..GUARD + size])?, &reading.answer)?;
    let (before, rest) = out.split_at(GUARD);
    let (written, behind) = rest.split_at(size);
    if before.iter().chain(behind).any(|byte| *byte != pattern) {
        return Err("written again: bytes beside the buffer were touched".to_string());
    }
    let copied = copy(file);
    if written == &*copied {
        return Ok(());
    }
    let at = (0..size).find(|at| written[*at] != copied[*at]).unwrap_or(size);
    Err(format!(
        "written again: byte {at}\n  proved      {}\n  independent {} (that of the file, or of its ASCII copy)",
        written[at], copied[at]
    ))
}

fn answers(buffer: &str, (number, answer): abi::Listed, expected: &Answer) -> Result<(), Difference> {
    let expected = expected.listed();
    if answer == expected && number == expected[0] {
        return Ok(());
    }
    Err(format!(
        "written again, buffer {buffer}\n  proved      returns {number}, answer {answer:?}\n  independent answer {expected:?}"
    ))
}
