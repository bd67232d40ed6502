//! What is asked about each file: the lengths of the tables that are lent, and the offsets of picture calls.

use crate::charset::{Set, EBCDIC_CARRIED};
use crate::descent::{read_in, split_record, Number, Reading};
use crate::layout::name_of;
use crate::picture::{picture_in, Picture};
use crate::random::Random;
use crate::sets;
use crate::tails;
use crate::tally::{Point, Tally};

/// After so many offsets in one file only some of its 52s are asked for.
const MANY: usize = 500;

/// Table lengths in numbers: more than enough, exactly enough, one number short, one row short, none.
pub fn table_lengths(reading: &Reading, random: &mut Random) -> Vec<usize> {
    let enough = reading.rows.len() * 7;
    let ample = enough + random.below(30);
    if reading.answer.number == Number::Accepted {
        return vec![ample, enough, enough - 1, enough - 7, random.below(enough), 0];
    }
    vec![random.below(60), 0]
}

/// Every 52 that the lengths lead to, some other records, and offsets that lead nowhere; once EBCDIC is carried also 52s within images.
pub fn picture_offsets(file: &[u8], random: &mut Random) -> Vec<u64> {
    let mut offsets = Vec::new();
    let mut at = 0;
    let name = Set::by_library(file).bytes(&name_of(52));
    while let Some(body) = split_record(&file[at..]) {
        let pictured = body.starts_with(&name) && (offsets.len() < MANY || random.percent(1));
        if pictured || (at < 20_000 && random.percent(20)) {
            offsets.push(at as u64);
        }
        at += 4 + body.len();
    }
    let size = file.len() as u64;
    offsets.extend([at as u64, size, size.saturating_sub(random.draw() % 6), random.draw() % (size + 10)]);
    let far = [u64::MAX, u64::MAX - 3, u64::MAX - 4, 1 << 32, 1 << 63, size + 1, size.wrapping_sub(1)];
    offsets.push(random.pick(&far));
    if EBCDIC_CARRIED {
        offsets.extend(sets::places_within_images(file));
    }
    offsets
}

impl Tally {
    /// Notes all that is asked about one file, as the independent reader answers it.
    pub fn note_asked(&mut self, file: &[u8], reading: &Reading, random: &mut Random) {
        self.note_reading(file, reading);
        for length in table_lengths(reading, random) {
            self.note_table(file, reading, length);
        }
        for offset in picture_offsets(file, random) {
            self.note_picture(file, &picture_in(Set::by_library(file), file, offset));
        }
        self.note_within_images(file);
    }

    /// Notes a reading into a table of so many numbers.
    pub fn note_table(&mut self, file: &[u8], reading: &Reading, length: usize) {
        if reading.with_rows(length / 7).number == Number::Room {
            self.note_in(Set::by_library(file), Point::Room);
        }
    }

    /// Notes the answer to a picture call.
    pub fn note_picture(&mut self, file: &[u8], found: &Picture) {
        let set = Set::by_library(file);
        self.note_in(set, Point::PictureAnswer(found.number));
        if found.number == Number::Field {
            self.note_in(set, Point::PictureFieldRefused(found.field as u8));
        }
    }

    /// Notes what other tails of a file show (request 7), and tells the first claim that the independent reader does not keep.
    pub fn note_tails(&mut self, file: &[u8], reading: &Reading, random: &mut Random) -> Result<(), String> {
        for trial in tails::trials(file, reading, random) {
            let of_trial = read_in(Set::by_library(&trial.bytes), &trial.bytes);
            for length in &trial.tables {
                trial.holds_for("independent", &of_trial.with_rows(length / 7).listed(), *length)?;
            }
            self.note_in(Set::by_library(file), Point::Tail(trial.point));
        }
        Ok(())
    }

    /// Notes what the picture calls within images show, once they are asked.
    pub fn note_within_images(&mut self, file: &[u8]) {
        if EBCDIC_CARRIED {
            sets::shown_within_images(file).into_iter().for_each(|point| self.note(Point::Sets(point)));
        }
    }
}
