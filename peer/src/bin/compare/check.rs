//! One file put to both sides.

use peer_reader::asked::{picture_offsets, table_lengths};
use peer_reader::charset::Set;
use peer_reader::descent::{read_in, Number, Reading, LISTED};
use peer_reader::picture::picture_in;
use peer_reader::random::Random;
use peer_reader::tally::Tally;

use proved::again::round_trip;
use proved::{abi, Difference};

use crate::slow::{self, Slowly};

/// A reader of the proved library.
pub struct Reader {
    pub name: &'static str,
    pub read: fn(&[u8], &mut [u64]) -> Result<abi::Listed, String>,
}

/// The one that the bureau uses.
pub const FIRST: Reader = Reader { name: "proved", read: abi::read };

/// Counts of what was put to both sides.
#[derive(Clone, Copy, Default)]
pub struct Counts {
    pub files: u64,
    pub accepted: u64,
    pub bytes: u64,
    pub readings: u64,
    pub rows: u64,
    pub pictures: u64,
    /// Files made from others, with another tail.
    pub tails: u64,
    /// Accepted files, tails among them, that were written again.
    pub again: u64,
    /// Steps of the slow reader.
    pub steps: u64,
}

impl Counts {
    pub fn add(&mut self, other: &Counts) {
        self.files += other.files;
        self.accepted += other.accepted;
        self.bytes += other.bytes;
        self.readings += other.readings;
        self.rows += other.rows;
        self.pictures += other.pictures;
        self.tails += other.tails;
        self.again += other.again;
        self.steps += other.steps;
    }

    pub fn in_words(&self) -> String {
        format!(
            "{} files ({} accepted, {} bytes), {} tails, {} written again, {} readings, {} rows, {} pictures, {} slow steps",
            self.files,
            self.accepted,
            self.bytes,
            self.tails,
            self.again,
            self.readings,
            self.rows,
            self.pictures,
            self.steps
        )
    }
}

/// Compares both sides on one file, and gives the independent reading of it.
pub fn check(
    file: &[u8],
    slowly: Slowly,
    random: &mut Random,
    tally: &mut Tally,
    counts: &mut Counts,
) -> Result<Reading, Difference> {
    let reading = read_in(Set::by_library(file), file);
    tally.note_reading(file, &reading);
    counts.files += 1;
    counts.bytes += file.len() as u64;
    let rows = reading.rows.len();
    let lengths = table_lengths(&reading, random);
    for length in lengths.iter().copied() {
        readings_agree(&FIRST, file, &reading, length, random)?;
        counts.readings += 1;
        tally.note_table(file, &reading, length);
    }
    if reading.answer.number == Number::Accepted {
        counts.accepted += 1;
        counts.rows += rows as u64;
    }
    written_again(file, &reading, random, counts)?;
    for offset in picture_offsets(file, random) {
        pictures_agree(file, offset, tally)?;
        counts.pictures += 1;
    }
    tally.note_within_images(file);
    counts.steps += slow::check(file, &reading, &lengths, slowly, random)?;
    Ok(reading)
}

/// An accepted file there and back by the proved library: x9_draft, x9_write.
pub fn written_again(
    file: &[u8],
    reading: &Reading,
    random: &mut Random,
    counts: &mut Counts,
) -> Result<(), Difference> {
    if reading.answer.number == Number::Accepted {
        round_trip(file, reading, random)?;
        counts.again += 1;
    }
    Ok(())
}

/// The difference on a file, for the shrinking.
pub fn differs(file: &[u8]) -> Option<Difference> {
    check(file, Slowly::InEach, &mut Random::new(1), &mut Tally::default(), &mut Counts::default()).err()
}

/// Both sides on one file and one table length, by a reader of the proved library: the number, the answer, every row, every number left alone. Gives that reader's answer.
pub fn readings_agree(
    reader: &Reader,
    file: &[u8],
    reading: &Reading,
    length: usize,
    random: &mut Random,
) -> Result<[u64; LISTED], Difference> {
    const GUARD: usize = 9;
    let pattern = random.draw() | 1;
    let mut theirs = vec![pattern; length + GUARD];
    let mut ours = theirs.clone();
    let expected = reading.fill(&mut ours[..length]).listed();
    let (name, (number, answer)) = (reader.name, (reader.read)(file, &mut theirs[..length])?);
    if answer != expected || number != expected[0] {
        return Err(format!(
            "table of {length} numbers\n  {name:11} returns {number}, answer {answer:?}\n  independent answer {expected:?} ({})",
            reading.why
        ));
    }
    if let Some(at) = (0..ours.len()).find(|at| ours[*at] != theirs[*at]) {
        let (row, column) = (at / 7 + 1, at % 7 + 1);
        return Err(format!(
            "table of {length} numbers, answer {answer:?}: row {row} number {column}\n  {name:11} {}\n  independent {} (untouched is {pattern})",
            theirs[at], ours[at]
        ));
    }
    Ok(answer)
}

/// Both sides on one picture call.
fn pictures_agree(file: &[u8], offset: u64, tally: &mut Tally) -> Result<(), Difference> {
    let expected = picture_in(Set::by_library(file), file, offset);
    tally.note_picture(file, &expected);
    let (number, place) = abi::picture(file, offset);
    let listed = expected.listed();
    if place != listed || number != listed[0] {
        return Err(format!(
            "picture at offset {offset}\n  proved      returns {number}, place {place:?}\n  independent place {listed:?}"
        ));
    }
    Ok(())
}
