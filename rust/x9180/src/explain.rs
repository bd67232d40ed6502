//! The plain words of a refusal. The proved library says what is wrong and where; this module looks at those bytes, and `before` at the
//! records before them, to say what stands there. It decides nothing.
//!
//! It makes the refusals whose form `refusal` gives, so it imports `refusal`, and `refusal` knows nothing of it.

use crate::before::Before;
use crate::character_set::CharacterSet;
use crate::digits::{check_digit, number_in};
use crate::kinds::{Field, Form, Kind, RoutingForm};
use crate::more_bytes::{words_of_size, Answered};
use crate::refusal::{Number, Refusal, Words};
use crate::shown::{counted, shown, shown_field};

/// The most bytes of a field that a refusal keeps and shows.
const SHOWN: usize = 64;

/// The refusal of a file by its length alone.
pub(crate) fn size(length: u64) -> Refusal {
    let more_bytes = Some(words_of_size(length));
    let words = Words { lines: vec![format!("found {length} bytes")], more_bytes, ..Words::default() };
    Refusal { number: Number::SIZE, record: 0, field: 0, offset: 0, words: Box::new(words) }
}

/// The refusal that the slow reading answered: the reading's own, but that fewer bytes may be read slowly.
pub(crate) fn slow_reading(file: &[u8], number: Number, record: u64, field: u64, offset: u64) -> Refusal {
    let mut refusal = reading(file, number, record, field, offset);
    if number == Number::SIZE {
        refusal.words.meaning = Some("the file has no byte, or more than the 65536 that are read slowly");
    }
    refusal
}

/// The refusal that the reading answered.
pub(crate) fn reading(file: &[u8], number: Number, record: u64, field: u64, offset: u64) -> Refusal {
    let fault = Fault::in_file(file, number, field, offset);
    let answered = Answered { number, record, offset, length: fault.length };
    let mut words = Words { decided_by: answered.decided_by(), more_bytes: answered.words(), ..Words::default() };
    match number {
        Number::SIZE => return size(file.len() as u64),
        Number::ROOM => words.lines.push(format!("{record} rows are needed")),
        _ => say(&mut words, &fault, record, &Before::walk(file, offset)),
    }
    Refusal { number, record, field, offset, words: Box::new(words) }
}

/// The first fault of a part of a torn file (request 11), as the reading answered it behind other records than those that stand before it: these, with
/// their ordinals in the file.
pub(crate) fn within_part<'f>(
    file: &'f [u8],
    before: impl Iterator<Item = (u64, &'f [u8])>,
    number: Number,
    record: u64,
    field: u64,
    offset: u64,
) -> Refusal {
    let (fault, mut words) = (Fault::in_file(file, number, field, offset), Words::default());
    say(&mut words, &fault, record, &Before::of_records(fault.set, before));
    Refusal { number, record, field, offset, words: Box::new(words) }
}

/// The words of a fault at a record of this ordinal, behind these records.
fn say(words: &mut Words, fault: &Fault<'_>, record: u64, before: &Before<'_>) {
    describe(words, fault, &format!("record {record}"));
    match fault.number {
        Number::TYPE if words.kind.is_some() => {
            words.lines.push("the standard has this type of record, but it is not read here yet".to_string());
        }
        Number::PLACE => words.lines.extend(before.place(words.kind, record)),
        Number::CUT | Number::OPEN => words.lines.extend(before.stands_last()),
        Number::LINK => words.lines.extend(before.link(words.kind, fault.field)),
        Number::TOTAL => words.lines.extend(before.total(words.kind, fault.field, record)),
        _ => {}
    }
}

/// The refusal that the picture call answered.
pub(crate) fn picture(file: &[u8], number: Number, field: u64, offset: u64) -> Refusal {
    if number == Number::SIZE {
        return Refusal { offset, ..size(file.len() as u64) };
    }
    let mut words = Words::default();
    describe(&mut words, &Fault::in_file(file, number, field, offset), "the record");
    if number == Number::TYPE && words.kind.is_some() {
        words.lines.push("a picture stands in an Image View Data Record (type 52) only".to_string());
    }
    Refusal { number, record: 0, field, offset, words: Box::new(words) }
}

/// The refusal of a record that was judged without a file.
pub(crate) fn record(set: CharacterSet, body: &[u8], number: Number, field: u64) -> Refusal {
    let mut words = Words::default();
    describe(&mut words, &Fault::alone(set, body, number, field), "the record");
    if number == Number::TYPE && words.kind.is_some() {
        words.lines.push("the standard has this type of record, but it is not read here yet".to_string());
    }
    Refusal { number, record: 0, field, offset: 0, words: Box::new(words) }
}

/// What the library answered of a record, and where that record stands.
struct Fault<'f> {
    number: Number,
    field: u64,
    set: CharacterSet,
    /// The length of the file and the offset in it; `None` where the record was judged without a file.
    place: Option<(u64, u64)>,
    /// The file's bytes from that offset on, the record's four-byte length first.
    rest: &'f [u8],
    /// What that length says; `None` where fewer than four bytes are left.
    length: Option<u64>,
    /// The record without its length, as far as the file goes.
    body: &'f [u8],
}

impl<'f> Fault<'f> {
    fn in_file(file: &'f [u8], number: Number, field: u64, offset: u64) -> Fault<'f> {
        let rest = usize::try_from(offset).ok().and_then(|offset| file.get(offset..)).unwrap_or_default();
        let length = rest.first_chunk().map(|bytes| u32::from_be_bytes(*bytes));
        let after_length = rest.get(4..).unwrap_or_default();
        let body = match length {
            Some(length) => after_length.get(..length as usize).unwrap_or(after_length),
            None => &[],
        };
        let place = Some((file.len() as u64, offset));
        Fault { number, field, set: CharacterSet::of(file), place, rest, length: length.map(u64::from), body }
    }

    fn alone(set: CharacterSet, body: &'f [u8], number: Number, field: u64) -> Fault<'f> {
        Fault { number, field, set, place: None, rest: &[], length: Some(body.len() as u64), body }
    }

    /// Where a byte of the body stands: in the file, counted from 0, or in the record alone, by its position, counted from 1.
    fn at(&self, within: usize) -> String {
        match self.place {
            Some((_, offset)) => format!("at offset {}", offset.saturating_add(4).saturating_add(within as u64)),
            None => format!("at position {}", within + 1),
        }
    }
}

/// Says which record and field it is, and what was found there.
fn describe(words: &mut Words, fault: &Fault<'_>, name: &str) {
    words.kind = Kind::of_body(fault.set, fault.body);
    let place = fault.place.map_or_else(String::new, |(_, offset)| format!(", at offset {offset}"));
    match words.kind {
        Some(kind) if !matches!(fault.number, Number::CUT | Number::AFTER) => {
            words.lines.push(format!("{name}, {kind}{place}"));
        }
        _ => words.lines.push(format!("{name}{place}")),
    }
    match fault.number {
        Number::CUT => cut(words, fault),
        Number::LENGTH => words.lines.extend(wrong_length(words.kind, fault)),
        Number::TYPE => wrong_type(words, fault),
        Number::AFTER => {
            let what = format!("{}: ", counted(fault.rest.len() as u64, "more byte"));
            words.find(fault.rest, &what, |bytes| shown(fault.set, bytes));
        }
        Number::FIELD | Number::LINK | Number::TOTAL if fault.field != 0 => found_field(words, fault),
        _ => {}
    }
}

/// Says what stands in the field at fault.
fn found_field(words: &mut Words, fault: &Fault<'_>) {
    let (set, body, field) = (fault.set, fault.body, fault.field);
    let Some((kind, named)) = words.kind.and_then(|kind| Some((kind, kind.field(field)?))) else {
        words.lines.push(format!("field {field}"));
        return;
    };
    let Some(range) = kind.range(set, body, field) else {
        words.lines.push(format!("field {field}, {}", named.name));
        return;
    };
    let start = range.start;
    words.lines.push(format!("field {field}, {}, {}", named.name, fault.at(start)));
    let bytes = body.get(range).unwrap_or_default();
    words.find(bytes, "", |bytes| shown_field(set, bytes));
    if fault.number == Number::FIELD {
        words.lines.extend(asked(set, kind, named, bytes));
        words.lines.extend(without_character(fault, start, bytes));
    }
}

/// What is asked of a field that holds these bytes, and what is wrong with its check digit.
pub(crate) fn asked(set: CharacterSet, kind: &Kind, field: &Field, bytes: &[u8]) -> Vec<String> {
    let unclipped = kind.number == 52 && (10..=13).contains(&field.number) && number_in(set, bytes).is_some();
    let asked = match unclipped {
        true => "asked: 0000, since field 9, Clipping Origin, is 0".to_string(),
        false => format!("asked: {}", field.asked()),
    };
    [asked].into_iter().chain(wrong_check_digit(set, field, bytes)).collect()
}

/// Nine digits where no number of a non-financial institution may stand have been judged by their check digit.
fn wrong_check_digit(set: CharacterSet, field: &Field, bytes: &[u8]) -> Option<String> {
    let judged = matches!(field.form, Form::Routing(forms) if !forms.contains(&RoutingForm::NonFinancial));
    let (ninth, eight) = bytes.split_last().filter(|_| judged)?;
    let (found, right) = (set.digit(*ninth)?, check_digit(set, eight)?);
    (found != right).then(|| format!("the check digit is wrong: it is {found} and should be {right}"))
}

/// Request 5: a byte of an EBCDIC file that is none of the characters of clause 5 is in no data type. Says which one and where, since text
/// cannot show it.
fn without_character(fault: &Fault<'_>, start: usize, bytes: &[u8]) -> Option<String> {
    let is_none = |(_, byte): &(usize, &u8)| fault.set == CharacterSet::Ebcdic && fault.set.character(**byte).is_none();
    let mut strangers = (start..).zip(bytes).filter(is_none);
    let (within, byte) = strangers.next()?;
    let more = match strangers.count() {
        0 => String::new(),
        more => format!(", nor for {} here", counted(more as u64, "more byte")),
    };
    Some(format!("the byte {byte:02X} {}: code page 037 has no character of clause 5 for it{more}", fault.at(within)))
}

fn cut(words: &mut Words, fault: &Fault<'_>) {
    let (rest, (file_length, offset)) = (fault.rest, fault.place.unwrap_or_default());
    let Some(length) = fault.length else {
        let past = offset.checked_sub(file_length).filter(|past| *past > 0);
        words.lines.push(match past {
            Some(past) => format!("the offset lies {past} bytes past the end of the file"),
            None => format!("a length of four bytes should stand here; bytes left: {}", rest.len()),
        });
        if !rest.is_empty() {
            words.find(rest, "", |bytes| shown(fault.set, bytes));
        }
        return;
    };
    words.lines.push(format!("its length says {length} bytes; bytes left: {}", rest.len().saturating_sub(4)));
    let length_bytes = rest.get(..4).unwrap_or_default();
    words.find(length_bytes, "in place of the length: ", |bytes| shown(fault.set, bytes));
    words.lines.extend(characters_for_length(fault.set, length_bytes));
    words.lines.extend(low_byte_first(fault));
}

/// Some senders write the lengths with the low byte first. Told where that way the length frames a record of the standard.
fn low_byte_first(fault: &Fault<'_>) -> Option<String> {
    let (length, after) = fault.rest.split_first_chunk()?;
    let length = u32::from_le_bytes(*length);
    let kind = Kind::of_body(fault.set, after.get(..usize::try_from(length).ok()?)?)?;
    Some(format!(
        "with the low byte first it would be {length}, and a {kind} follows: the lengths may stand so (little-endian), where Annex D has the high byte first"
    ))
}

/// Some senders leave the lengths out, so that a record's first characters stand in their place. No length of a file that may be read
/// consists of characters, in either set.
fn characters_for_length(set: CharacterSet, length_bytes: &[u8]) -> Option<String> {
    let what = match (set.text(length_bytes), set.other().text(length_bytes)) {
        (Some(_), _) => "these are characters".to_string(),
        (None, Some(text)) => format!("in {} these are the characters \"{text}\"", set.other()),
        (None, None) => return None,
    };
    Some(format!("{what}, so the records may lack the four-byte length before each"))
}

fn wrong_length(kind: Option<&'static Kind>, fault: &Fault<'_>) -> Option<String> {
    let length = fault.length?;
    if length < 2 {
        return Some(format!("its length says {length}, and a record has a type of two characters at least"));
    }
    let kind = kind?;
    let fixed = kind.fixed_length();
    if !kind.is_variable() {
        return Some(format!("its length says {length}; a record of this type has {fixed} bytes"));
    }
    if length < fixed as u64 {
        return Some(format!("its length says {length}; the fixed part of this type alone has {fixed} bytes"));
    }
    let stated = kind.stated_length(fault.set, fault.body)?;
    Some(format!("its length says {length}; its fixed part and the lengths it states come to {stated} bytes"))
}

fn wrong_type(words: &mut Words, fault: &Fault<'_>) {
    let characters = fault.body.get(..2).unwrap_or_default();
    words.find(characters, "in place of the type: ", |bytes| shown_field(fault.set, bytes));
    words.lines.extend(without_character(fault, 0, characters));
    let other = fault.set.other();
    if characters.iter().all(|byte| other.digit(*byte).is_some()) {
        let reads = match (fault.place, fault.set) {
            (None, set) => format!("the record was judged as {set}"),
            (_, CharacterSet::Ascii) => "the file is read as ASCII, since its bytes 5 and 6 are not F0 F1".to_string(),
            (_, CharacterSet::Ebcdic) => "the file is read as EBCDIC, since its bytes 5 and 6 are F0 F1".to_string(),
        };
        words.lines.push(format!("these are digits in {other}, and {reads}"));
    }
}

impl Words {
    /// Keeps and shows bytes of the file.
    fn find(&mut self, bytes: &[u8], what: &str, show: impl Fn(&[u8]) -> String) {
        self.keep(&format!("found {what}"), bytes, show);
    }

    /// Keeps bytes, and shows them behind these words.
    pub(crate) fn keep(&mut self, what: &str, bytes: &[u8], show: impl Fn(&[u8]) -> String) {
        self.found = bytes.get(..SHOWN).unwrap_or(bytes).to_vec();
        let more = match bytes.len() > SHOWN {
            true => format!(" (the first {SHOWN} of {} bytes)", bytes.len()),
            false => String::new(),
        };
        self.lines.push(format!("{what}{}{more}", show(&self.found)));
    }
}
