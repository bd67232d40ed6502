//! What is promised of every salvage (reading 67 and the issue), asserted of one outcome at a time: of the independent side's in the tests, and of the
//! proved library's in the comparison.

use peer_reader::charset::Set;
use peer_reader::copy::copy;
use peer_reader::descent::{read, split_record, Number};

use crate::salvage::Outcome;

/// A broken promise, in words.
pub type Broken = String;

fn holds(promise: bool, words: &str) -> Result<(), Broken> {
    match promise {
        true => Ok(()),
        false => Err(words.to_string()),
    }
}

/// The bodies that lengths frame, until one is below 2 or behind a 99 of this set, with their offsets.
fn framed(file: &[u8], set: Set) -> Vec<(usize, &[u8])> {
    let mut bodies = Vec::new();
    let mut at = 0;
    while let Some(body) = split_record(&file[at..]).filter(|body| body.len() >= 2) {
        bodies.push((at, body));
        at += 4 + body.len();
        if body[..2].iter().all(|byte| set.character(*byte) == b'9') {
            break;
        }
    }
    bodies
}

/// The promises of one outcome; `again` salvages another file with room enough.
pub fn keep(file: &[u8], outcome: &Outcome, again: impl Fn(&[u8]) -> Result<Outcome, Broken>) -> Result<(), Broken> {
    if Set::of(file) == Set::Ebcdic {
        holds(again(&copy(file))? == *outcome, "the ASCII copy has another outcome")?;
    }
    let reading = read(file);
    if !outcome.is_written() {
        let number = outcome.answer[0];
        let accepted = reading.answer.number == Number::Accepted;
        holds(!accepted, "an accepted file is refused")?;
        return holds([1, 9, 17].contains(&number), "a refusal that cannot come");
    }
    let written = read(&outcome.file);
    holds(written.answer.listed() == outcome.answer, "what is written is not accepted with the answer given")?;
    holds(Set::of(&outcome.file) == Set::Ascii, "not ASCII is written")?;
    listed_once(file, outcome)?;
    kept_as_they_stand(file, outcome)?;
    if reading.answer.number == Number::Accepted {
        holds(outcome.file == *copy(file), "an accepted file is written as other bytes")?;
        holds(outcome.answer == reading.answer.listed(), "an accepted file has another answer than that of a reading")?;
        holds(outcome.list.iter().all(|row| row[2] < 2), "an accepted file loses a record")?;
    }
    let second = again(&outcome.file)?;
    holds(second.file == outcome.file && second.answer == outcome.answer, "salvaged again it is another")?;
    holds(second.list.iter().all(|row| row[2] < 2), "salvaged again it loses a record")
}

/// Each record walked is listed once, in order, with its offset and type; a number exactly where it is dropped.
fn listed_once(file: &[u8], outcome: &Outcome) -> Result<(), Broken> {
    let set = Set::of(file);
    let framed = framed(file, set);
    holds(framed.len() == outcome.list.len(), "not as many rows as records walked")?;
    for ((offset, body), row) in framed.iter().zip(&outcome.list) {
        let digits = [0, 1].map(|at| set.character(body[at]));
        let kind = match digits.iter().all(u8::is_ascii_digit) {
            true => u64::from(digits[0] - b'0') * 10 + u64::from(digits[1] - b'0'),
            false => 0,
        };
        holds(row[..2] == [*offset as u64, kind], "a row has another offset or type")?;
        let number_fits = match row[2] {
            0 | 1 => row[3] == 0,
            _ => row[2] == 2 && (4..=9).contains(&row[3]),
        };
        holds(number_fits, "a status or number that cannot come")?;
        holds(row[2] != 1 || [90, 99].contains(&kind), "made new is no control")?;
    }
    Ok(())
}

/// What is written is the kept records, each as the bytes of the ASCII copy, with a 90 behind each letter and a 99 at the end.
fn kept_as_they_stand(file: &[u8], outcome: &Outcome) -> Result<(), Broken> {
    let copied = copy(file);
    let kept: Vec<&[u8]> = framed(&copied, Set::Ascii)
        .into_iter()
        .zip(&outcome.list)
        .filter(|(_, row)| row[2] == 0)
        .map(|((_, body), _)| body)
        .collect();
    let written = framed(&outcome.file, Set::Ascii);
    let (controls, others): (Vec<&[u8]>, Vec<&[u8]>) =
        written.iter().map(|(_, body)| *body).partition(|body| body.starts_with(b"90") || body.starts_with(b"99"));
    holds(kept == others, "a kept record is written as other bytes")?;
    let letters = kept.iter().filter(|body| body.starts_with(b"10")).count();
    holds(controls.len() == letters + 1, "not one control for each letter and the file")
}
