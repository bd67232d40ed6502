//! Request 7 on both sides: a file with other tails, and what is claimed of each.

use peer_reader::charset::Set;
use peer_reader::descent::{read_in, Reading};
use peer_reader::random::Random;
use peer_reader::tails::{trials, Trial};
use peer_reader::tally::{Point, Tally};

use proved::Difference;

use crate::check::{readings_agree, written_again, Counts, FIRST};
use crate::slow::{self, Slowly};

/// A file of which a claim does not hold, or on which the sides differ.
pub struct Broken {
    pub file: Vec<u8>,
    pub difference: Difference,
}

/// Puts the trials of a file to both sides. The claims come of the reading of that file, on which the sides agree.
pub fn check_tails(
    file: &[u8],
    reading: &Reading,
    random: &mut Random,
    tally: &mut Tally,
    counts: &mut Counts,
) -> Result<(), Broken> {
    for trial in trials(file, reading, random) {
        let checked = check_trial(&trial, random, counts);
        checked.map_err(|difference| Broken { file: to_be_saved(file, &trial), difference })?;
        tally.note_in(Set::by_library(file), Point::Tail(trial.point));
        counts.tails += 1;
    }
    Ok(())
}

/// Each table, each side.
fn check_trial(trial: &Trial, random: &mut Random, counts: &mut Counts) -> Result<(), Difference> {
    let reading = read_in(Set::by_library(&trial.bytes), &trial.bytes);
    for length in trial.tables.iter().copied() {
        let proved = readings_agree(&FIRST, &trial.bytes, &reading, length, random)
            .map_err(|difference| format!("{:?}, {} bytes, {difference}", trial.point, trial.bytes.len()))?;
        trial.holds_for("proved", &proved, length)?;
        trial.holds_for("independent", &reading.with_rows(length / 7).listed(), length)?;
        counts.readings += 1;
    }
    let named = |difference| format!("{:?}, {} bytes, {difference}", trial.point, trial.bytes.len());
    let steps = slow::check(&trial.bytes, &reading, &trial.tables, Slowly::Once, random).map_err(named)?;
    counts.steps += steps;
    written_again(&trial.bytes, &reading, random, counts).map_err(named)
}

/// Files of this length are not written out.
const TOO_LONG: usize = 1 << 24;

/// The file that was tried, or, where zeros up to the limit stand behind it, the one that it was made from.
fn to_be_saved(file: &[u8], trial: &Trial) -> Vec<u8> {
    match trial.bytes.len() {
        ..TOO_LONG => trial.bytes.clone(),
        _ => file.to_vec(),
    }
}
