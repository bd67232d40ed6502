//! The plain words of a salvage (request 11): why nothing was written, and why a part of a torn file was dropped. The proved library has decided both;
//! this module asks it for the faults of a header alone and of a part behind its header, and looks at those bytes. It decides nothing.

use std::fmt::{Display, Formatter, Result};

use crate::character_set::CharacterSet;
use crate::explain;
use crate::ffi;
use crate::kinds::Kind;
use crate::listed::{Listed, Status};
use crate::more_bytes::LIMIT;
use crate::refusal::{Number, Refusal, Words};
use crate::torn::{Part, Sort};
use crate::walked::{walked, Walked};

/// Why a part of a torn file was dropped.
///
/// `{}` puts the words on one line, `{:#}` on a line each.
#[derive(Clone, Debug, PartialEq, Eq)]
pub enum Why {
    /// Of a bundle or a credit, the first fault that reading it behind its sound header finds; of a header, its own fault. Record and offset are those of
    /// the torn file.
    Fault(Refusal),
    /// A credit ends behind an Image View Detail Record (type 50): the 52 of the view is missing.
    HalfView,
    /// No Bundle Control Record (type 70) closes the bundle.
    NotClosed,
    /// The header of its cash letter is not sound.
    UnsoundHeader,
    /// It is sound, or a header or control that is not looked into, but its cash letter is of E, I or F and has no sound bundle: it is dropped whole.
    LetterWithoutBundle,
    /// It stands in no bundle, with no credit, and is no header or control of a cash letter that is kept.
    Astray,
}

impl Display for Why {
    fn fmt(&self, f: &mut Formatter<'_>) -> Result {
        let words = match self {
            Why::Fault(fault) if f.alternate() => return write!(f, "{fault:#}"),
            Why::Fault(fault) => return write!(f, "{fault}"),
            Why::HalfView => {
                "it ends behind an Image View Detail Record (type 50), and the Image View Data Record (type 52) of the view is missing"
            }
            Why::NotClosed => "no Bundle Control Record (type 70) closes it",
            Why::UnsoundHeader => "the header of its cash letter is not sound",
            Why::LetterWithoutBundle => "its cash letter is to hold a bundle (Annex B), and no sound one is left",
            Why::Astray => "it belongs to no bundle, credit or cash letter that is kept",
        };
        write!(f, "{}: {words}", Number::PLACE.name())
    }
}

/// Why a part was dropped; `None` where it was not.
pub(crate) fn why(file: &[u8], list: &[Listed], part: &Part) -> Option<Why> {
    let rows = list.get(part.rows.clone())?;
    if rows.first()?.status() != Status::Dropped {
        return None;
    }
    let header = part.header.and_then(|header| list.get(header));
    let unsound = header.and_then(|header| fault_alone(file, part.header?, header));
    Some(match (part.sort, unsound) {
        (Sort::Header, Some(fault)) => Why::Fault(fault),
        (Sort::OpenBundle, None) => Why::NotClosed,
        (Sort::Bundle | Sort::Credit, None) => fault_of_run(file, list, part).unwrap_or(Why::LetterWithoutBundle),
        (Sort::Header | Sort::Control, None) => Why::LetterWithoutBundle,
        (Sort::Stray | Sort::FileHeader | Sort::FileControl, _) => Why::Astray,
        (_, Some(_)) => Why::UnsoundHeader,
    })
}

/// What is wrong with a record alone.
fn fault_alone(file: &[u8], row: usize, listed: &Listed) -> Option<Refusal> {
    let [number, field] = ffi::record(listed.body(file)?, CharacterSet::of(file).number());
    let fault = || explain::within_part(file, std::iter::empty(), Number(number), ordinal(row), field, listed.offset);
    (Number(number) != Number::ACCEPTED).then(fault)
}

/// The first fault of a bundle or a credit under a sound header: that of a file which has the file header, that header and these records, and no more.
/// Read through without one, such a file is `OPEN`.
fn fault_of_run(file: &[u8], list: &[Listed], part: &Part) -> Option<Why> {
    let rows = || [0, part.header.unwrap_or(0)].into_iter().chain(part.rows.clone());
    let listed = |row: usize| list.get(row).map(|listed| (row, listed));
    let mut little = Vec::new();
    for (_, listed) in rows().filter_map(listed) {
        let whole = usize::try_from(listed.offset).ok()?..usize::try_from(listed.end(file)).ok()?;
        little.extend_from_slice(file.get(whole)?);
    }
    let [number, record, field, ..] = ffi::read(&little, &mut []);
    let index = usize::try_from(record).ok()?.checked_sub(1)?;
    let Some((row, at_fault)) = rows().nth(index).and_then(listed) else {
        let last = list.get(part.rows.end.checked_sub(1)?)?;
        return (part.sort == Sort::Credit && last.record_type == 50).then_some(Why::HalfView);
    };
    let before =
        rows().take(index).filter_map(listed).filter_map(|(row, listed)| Some((ordinal(row), listed.body(file)?)));
    let fault = explain::within_part(file, before, Number(number), ordinal(row), field, at_fault.offset);
    Some(Why::Fault(fault))
}

/// The ordinal of a record in the torn file.
fn ordinal(row: usize) -> u64 {
    row as u64 + 1
}

/// The refusal to salvage a file, with its numbers as the library answered them.
pub(crate) fn refused(file: &[u8], number: Number, record: u64, field: u64, offset: u64) -> Refusal {
    let mut words = Words::default();
    match number {
        Number::SIZE if file.is_empty() || file.len() > LIMIT => return explain::size(file.len() as u64),
        Number::SIZE => {
            words
                .lines
                .push(format!("with its new control records the file being made would have more than {LIMIT} bytes"));
        }
        Number::NOTHING => words.lines = nothing_left(file),
        Number::ROOM => words.lines.push(format!("bytes or rows that are needed: {record}")),
        _ => describe_control(&mut words, record, field, offset),
    }
    Refusal { number, record, field, offset, words: Box::new(words) }
}

/// Why no cash letter is left.
fn nothing_left(file: &[u8]) -> Vec<String> {
    let Some(first) = walked(file).next() else {
        let number = if file.first_chunk().is_some_and(|length| u32::from_be_bytes(*length) < 2) {
            Number::LENGTH
        } else {
            Number::CUT
        };
        return lines(&explain::within_part(file, std::iter::empty(), number, 1, 0, 0));
    };
    let [number, field] = ffi::record(first.body, CharacterSet::of(file).number());
    match (first.record_type, Number(number)) {
        (1, Number::ACCEPTED) => no_letter(file),
        (1, number) => lines(&explain::within_part(file, std::iter::empty(), number, 1, field, first.offset)),
        _ => lines(&explain::within_part(file, std::iter::empty(), Number::PLACE, 1, 0, first.offset)),
    }
}

/// The words of a refusal but for the first line, which is that of its number.
fn lines(refusal: &Refusal) -> Vec<String> {
    refusal.words.lines.clone()
}

/// The file header is sound, and every cash letter is dropped.
fn no_letter(file: &[u8]) -> Vec<String> {
    let set = CharacterSet::of(file).number();
    let headers = || walked(file).filter(|record| record.record_type == 10);
    let is_sound = |header: &Walked<'_>| ffi::record(header.body, set)[0] == Number::ACCEPTED.0;
    let (walked, sound) = (headers().count(), headers().filter(is_sound).count());
    if walked == 0 {
        return vec!["the file header is sound, but no Cash Letter Header Record (type 10) was walked".to_string()];
    }
    vec![
        format!("the file header is sound; Cash Letter Header Records (type 10) walked: {walked}"),
        format!("not sound: {}; sound, but without the sound bundle that Annex B asks for: {sound}", walked - sound),
    ]
}

/// A sum that outgrows its field of a control record of the file being made. A Bundle Control Record is never such: its sums were read.
fn describe_control(words: &mut Words, record: u64, field: u64, offset: u64) {
    words.kind = control_with(field);
    let kind = words.kind.map_or_else(|| "a control record".to_string(), |kind| kind.to_string());
    words.lines.push(format!("record {record} of the file being made, {kind}, at offset {offset} of it"));
    match words.kind.and_then(|kind| Some((kind, kind.field(field)?))) {
        Some((kind, named)) => {
            words.lines.push(format!("field {field}, {}", named.name));
            words.lines.push(format!("the sum is too long: the field holds {} digits", kind.most(field)));
        }
        None => words.lines.push(format!("field {field}: the count is too long for it")),
    }
}

/// Which control a field is of, where that is known: within the limit of a file's size neither the items and views of a cash letter nor the records
/// and items of a file come to be too many for their fields, and field 2 is a count of each.
fn control_with(field: u64) -> Option<&'static Kind> {
    match field {
        4 | 9 => Kind::of(90),
        5 | 8 => Kind::of(99),
        _ => None,
    }
}
