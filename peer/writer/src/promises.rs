//! What is promised of every draft (reading 44), asserted of one outcome at a time: of the independent writer's in the tests, and of the proved
//! library's in the comparison.

use peer_reader::charset::Set;
use peer_reader::copy::copy;
use peer_reader::descent::{read, Answer, Number};

use crate::complete::{answer_by_reader, complete};
use crate::draft::{draft_of, Draft, ROW};
use crate::source::{source, Source};

/// A broken promise, in words.
pub type Broken = String;

/// The values of an accepted draft (reading 42): of each record the type, whether a blank MICR total is asked for, the given fields and the
/// parts, as ASCII characters but for Binary parts.
pub fn values(text: &[u8], numbers: &[u64]) -> Vec<(u64, bool, Vec<Vec<u8>>)> {
    let draft = Draft::new(text, numbers);
    let characters = |bytes: &[u8]| bytes.iter().map(|byte| draft.set.character(*byte)).collect();
    let of_row = |index: usize| {
        let code = draft.type_of(index);
        let row = draft.row(index, code as u8);
        let given = row.layout.fields.iter().filter(|field| source(row.layout, field.number) == Source::Given);
        let mut fields: Vec<Vec<u8>> = given.map(|field| characters(row.value(field.number))).collect();
        for (place, part) in row.layout.parts.iter().enumerate() {
            let bytes = row.part(place).expect("a part of an accepted draft");
            let binary = part.kind == peer_reader::layout::Type::Binary;
            fields.push(if binary { bytes.to_vec() } else { characters(bytes) });
        }
        (code, row.asks_for_blank_micr(), fields)
    };
    (0..draft.rows()).map(of_row).collect()
}

/// What is written is ASCII and accepted, with the totals of the answer, and its values are the draft's.
pub fn written_is_accepted(text: &[u8], numbers: &[u64], answer: &Answer, file: &[u8]) -> Result<(), Broken> {
    let reading = read(file);
    if reading.answer != *answer {
        return Err(format!("written with {answer:?}, read with {:?}", reading.answer));
    }
    let mut rows = vec![0; reading.rows.len() * ROW];
    draft_of(file, &mut rows);
    if Set::of(file) != Set::Ascii || values(file, &rows) != values(text, numbers) {
        return Err("the values read are not those given".to_string());
    }
    Ok(())
}

/// The writer's PLACE, FIELD, LINK and TOTAL are the reader's own answer to the completed records; where the reader comes to a record that is
/// not completed, the fault is at that record, PLACE or FIELD. Gives whether the statement said anything.
pub fn as_the_reader_would(text: &[u8], numbers: &[u64], answer: &Answer) -> Result<bool, Broken> {
    let completed = complete(text, numbers);
    if let Some(expected) = answer_by_reader(&completed) {
        return match expected == *answer {
            true => Ok(true),
            false => Err(format!("written with {answer:?}, the completed records are read with {expected:?}")),
        };
    }
    let at = (completed.records as u64 + 1, completed.file.len() as u64);
    let there = matches!(answer.number, Number::Place | Number::Field) && (answer.record, answer.offset) == at;
    if !completed.all && !completed.file.is_empty() && !there {
        return Err(format!("{answer:?}, but record {} is the first not completed", at.0));
    }
    Ok(false)
}

/// An accepted file as its own draft is written as the same bytes, or as its ASCII copy.
pub fn written_again(file: &[u8], write: impl Fn(&[u8], &[u64], &mut [u8]) -> Answer) -> Result<bool, Broken> {
    let reading = read(file);
    if reading.answer.number != Number::Accepted {
        return Ok(false);
    }
    let mut rows = vec![0; reading.rows.len() * ROW];
    draft_of(file, &mut rows);
    let mut out = vec![0xA5; file.len()];
    let answer = write(file, &rows, &mut out);
    if answer != reading.answer {
        return Err(format!("read with {:?}, written again with {answer:?}", reading.answer));
    }
    match out == *copy(file) {
        true => Ok(true),
        false => Err("written again as other bytes".to_string()),
    }
}
