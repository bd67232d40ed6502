//! One draft, or one file, put to both sides.

use peer_reader::descent::{read, Answer, Number};
use peer_reader::random::Random;

use peer_writer::asked::{buffer_lengths, draft_lengths};
use peer_writer::draft::ROW;
use peer_writer::points::Tally;
use peer_writer::promises::{as_the_reader_would, written_is_accepted};
use peer_writer::sheet::Made;
use peer_writer::write::{judge, write};

use proved::again::{drafts_agree, written_again};
use proved::amid::{amid, within};
use proved::{abi, Difference};

/// Counts of what was put to both sides.
#[derive(Clone, Copy, Default)]
pub struct Counts {
    pub drafts: u64,
    pub accepted: u64,
    pub writings: u64,
    pub bytes: u64,
    /// Written files that were read, and their values compared with the draft's.
    pub read_back: u64,
    pub files: u64,
    /// Accepted files that were written again.
    pub again: u64,
}

impl Counts {
    pub fn add(&mut self, other: &Counts) {
        self.drafts += other.drafts;
        self.accepted += other.accepted;
        self.writings += other.writings;
        self.bytes += other.bytes;
        self.read_back += other.read_back;
        self.files += other.files;
        self.again += other.again;
    }

    pub fn in_words(&self) -> String {
        format!(
            "{} drafts ({} accepted), {} writings, {} bytes lent, {} read back, {} files, {} written again",
            self.drafts, self.accepted, self.writings, self.bytes, self.read_back, self.files, self.again
        )
    }
}

/// Compares both sides on one draft with every buffer that is asked for, and asserts the promises of reading 44 and the statement of reading 43.
pub fn check_draft(made: &Made, random: &mut Random, tally: &mut Tally, counts: &mut Counts) -> Result<(), Difference> {
    let verdict = judge(&made.text, &made.numbers);
    tally.note_draft(made, &verdict);
    counts.drafts += 1;
    counts.accepted += u64::from(verdict.answer.number == Number::Accepted);
    for room in buffer_lengths(&verdict, random) {
        tally.note_buffer(made, &verdict, room);
        let written = writings_agree(&made.text, &made.numbers, room, random)?;
        counts.writings += 1;
        counts.bytes += room as u64;
        if verdict.answer.number == Number::Accepted && verdict.answer.offset == room as u64 {
            read_back(made, &verdict.answer, &written)?;
            counts.read_back += 1;
        }
    }
    if made.numbers.len() <= SHORT && verdict.answer.number != Number::Size {
        as_the_reader_would(&made.text, &made.numbers, &verdict.answer)?;
    }
    Ok(())
}

/// The records of drafts up to this many numbers are completed and read.
const SHORT: usize = 20_000;

/// What the proved library has written it reads with the answer it wrote it with, and the independent reader finds the draft's values there.
fn read_back(made: &Made, answer: &Answer, file: &[u8]) -> Result<(), Difference> {
    let mut table = vec![0; answer.record as usize * 7];
    let (number, read) = abi::read(file, &mut table)?;
    if number != 0 || read != answer.listed() {
        return Err(format!(
            "written with {:?}\n  proved reads it, returns {number}, answer {read:?}",
            answer.listed()
        ));
    }
    written_is_accepted(&made.text, &made.numbers, answer, file)
}

/// Bytes before and behind a lent buffer that no call may touch.
const GUARD: usize = 64;

/// Both sides on one draft and one buffer length: the number, the answer, every byte written, every byte left alone, guards on either side.
/// Gives the buffer as the proved library leaves it.
pub fn writings_agree(text: &[u8], numbers: &[u64], room: usize, random: &mut Random) -> Result<Vec<u8>, Difference> {
    let pattern = random.byte();
    let mut theirs = vec![pattern; GUARD + room + GUARD];
    let mut ours = theirs.clone();
    let expected = write(text, numbers, &mut ours[GUARD..GUARD + room]).listed();
    let text_amid = amid(text, random.pick(b" 0\xF0\xF1\x40\x00"));
    let numbers_amid = amid(numbers, random.pick(&[0, 1, 28, 35, 99, u64::MAX]));
    let (number, answer) = abi::write(within(&text_amid), within(&numbers_amid), &mut theirs[GUARD..GUARD + room])?;
    if answer != expected || number != expected[0] {
        return Err(format!(
            "buffer of {room} bytes\n  proved      returns {number}, answer {answer:?}\n  independent answer {expected:?} ({})",
            judge(text, numbers).why
        ));
    }
    if let Some(at) = (0..ours.len()).find(|at| ours[*at] != theirs[*at]) {
        return Err(format!(
            "buffer of {room} bytes, answer {answer:?}: byte {} of the buffer\n  proved      {}\n  independent {} (untouched is {pattern})",
            at as i64 - GUARD as i64,
            theirs[at],
            ours[at]
        ));
    }
    theirs.truncate(GUARD + room);
    Ok(theirs.split_off(GUARD))
}

/// Compares both sides on the draft of one file, sound or damaged, in drafts of several lengths, and has the proved library write an accepted
/// file again.
pub fn check_file(file: &[u8], random: &mut Random, counts: &mut Counts) -> Result<(), Difference> {
    let reading = read(file);
    let rows = reading.rows.len();
    counts.files += 1;
    let file_amid = amid(file, random.pick(b" 0\xF0\xF1\x40\x00"));
    for length in draft_lengths(rows, random) {
        let draft = drafts_agree(within(&file_amid), &reading, length, random)?;
        if length == rows * ROW && reading.answer.number == Number::Accepted {
            written_again(file, &reading, &draft, random)?;
            counts.again += 1;
        }
    }
    Ok(())
}

/// The difference on a file, for the shrinking.
pub fn file_differs(file: &[u8]) -> Option<Difference> {
    check_file(file, &mut Random::new(1), &mut Counts::default()).err()
}
