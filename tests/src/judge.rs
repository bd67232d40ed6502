//! The independent judge: one record alone, and the picture call. Written from documents 01, 02 and 001 and the readings.

use crate::ebcdic::Set;
use crate::table::{Field, Kind, Table, Values};

pub const ACCEPTED: u64 = 0;
pub const SIZE: u64 = 1;
pub const CUT: u64 = 3;
pub const LENGTH: u64 = 4;
pub const TYPE: u64 = 5;
pub const FIELD: u64 = 7;

/// The largest file, in bytes.
pub const LARGEST_FILE: usize = 268_435_456;

/// The number of document 01's table, and the field (0 unless the number is FIELD).
#[derive(Clone, Copy, PartialEq, Eq, PartialOrd, Ord, Debug)]
pub struct Answer {
    pub number: u64,
    pub field: u64,
}

pub fn whole(number: u64) -> Answer {
    Answer { number, field: 0 }
}

pub fn at_field(field: u64) -> Answer {
    Answer { number: FIELD, field }
}

/// Judges one record of this set.
pub fn record_in(table: &Table, set: Set, body: &[u8]) -> Answer {
    record(table, &set.to_ascii(body))
}

/// Judges one ASCII record, given without its four-byte length: the checks in the order of document 01.
pub fn record(table: &Table, body: &[u8]) -> Answer {
    if body.len() < 2 {
        return whole(LENGTH);
    }
    match table.named(&body[..2]) {
        None => whole(TYPE),
        Some(kind) => record_of_kind(kind, body),
    }
}

fn record_of_kind(kind: &Kind, body: &[u8]) -> Answer {
    let too_short = body.len() < kind.fixed_length;
    let too_long = !kind.is_variable() && body.len() > kind.fixed_length;
    if too_short || too_long {
        return whole(LENGTH);
    }
    if let Some(number) = first_fixed_fault(kind, body) {
        return at_field(number);
    }
    let parts = parts(kind, body);
    if body.len() != kind.fixed_length + parts.iter().map(|part| part.length).sum::<usize>() {
        return whole(LENGTH);
    }
    match first_part_fault(&parts, body) {
        Some(number) => at_field(number),
        None => whole(ACCEPTED),
    }
}

fn first_fixed_fault(kind: &Kind, body: &[u8]) -> Option<u64> {
    let mut fixed = kind.fields.iter().filter(|field| field.stated_by.is_none());
    fixed.find(|field| !is_sound(kind, field, body)).map(|field| field.number)
}

/// A conditional field is all blank, or meets its type and its values; a mandatory field meets them.
fn is_sound(kind: &Kind, field: &Field, body: &[u8]) -> bool {
    let bytes = field.of(body);
    if !field.mandatory && all(bytes, is_blank) {
        return true;
    }
    of_type(field.data_type, bytes)
        && match (kind.code, field.number) {
            ("50", 11 | 12) => is_one_or_two_digits(bytes),
            ("52", 10..=13) => kind.field(9).of(body) != b"0" || bytes == b"0000",
            ("70", 4) => all(bytes, is_numeric),
            _ => in_format(field, bytes) && in_values(&field.values, bytes),
        }
}

// Clause 5: characters and data types.

fn is_blank(byte: u8) -> bool {
    byte == b' '
}

fn is_numeric(byte: u8) -> bool {
    byte.is_ascii_digit()
}

fn is_alphabetic(byte: u8) -> bool {
    matches!(byte, b'A'..=b'Z' | b'a'..=b'z' | b' ')
}

fn all(bytes: &[u8], class: fn(u8) -> bool) -> bool {
    bytes.iter().all(|byte| class(*byte))
}

fn admits(data_type: &str, byte: u8) -> bool {
    let numeric_or_blank = is_numeric(byte) || is_blank(byte);
    match data_type {
        "AB" => is_blank(byte),
        "A" => is_alphabetic(byte),
        "AN" => is_alphabetic(byte) || is_numeric(byte),
        "ANS" => matches!(byte, 0x20..=0x7E),
        "N" => is_numeric(byte),
        "NB" => numeric_or_blank,
        "NBD" => numeric_or_blank || byte == b'-',
        "NBQ" => numeric_or_blank || byte == b'?',
        "NBMc" => numeric_or_blank || byte == b'*',
        "NBMcd" => numeric_or_blank || b"*-".contains(&byte),
        "NBMcdo" => numeric_or_blank || b"*-/".contains(&byte),
        "NBMU" => numeric_or_blank || b"*-/$#".contains(&byte),
        "Binary" => true,
        other => panic!("no data type {other}"),
    }
}

fn of_type(data_type: &str, bytes: &[u8]) -> bool {
    let no_blank_inside = ["NB", "NBD", "NBQ"].contains(&data_type);
    bytes.iter().all(|byte| admits(data_type, *byte)) && !(no_blank_inside && has_embedded_blank(bytes))
}

/// A blank with some digit before it and some digit after it.
fn has_embedded_blank(bytes: &[u8]) -> bool {
    let first = bytes.iter().position(|byte| is_numeric(*byte));
    let last = bytes.iter().rposition(|byte| is_numeric(*byte));
    match (first, last) {
        (Some(first), Some(last)) => bytes[first..last].contains(&b' '),
        _ => false,
    }
}

/// The value of digits.
fn number(digits: &[u8]) -> usize {
    digits.iter().fold(0, |value, digit| value * 10 + usize::from(digit - b'0'))
}

// Formats: dates, times, routing numbers.

/// A can't-read or questionable mark that the data type admits leaves the type alone to judge the field.
fn in_format(field: &Field, bytes: &[u8]) -> bool {
    let marked = bytes.iter().any(|byte| b"*?".contains(byte) && admits(field.data_type, *byte));
    match field.format {
        "none" => true,
        "date" => marked || is_date(bytes),
        "hhmm" | "hhmmss" => marked || is_time(bytes),
        _ => marked || field.routing_forms().any(|form| is_in_form(form, bytes)),
    }
}

fn is_date(bytes: &[u8]) -> bool {
    all(bytes, is_numeric)
        && (1993..=9999).contains(&number(&bytes[0..4]))
        && (1..=12).contains(&number(&bytes[4..6]))
        && (1..=31).contains(&number(&bytes[6..8]))
}

fn is_time(bytes: &[u8]) -> bool {
    all(bytes, is_numeric) && number(&bytes[0..2]) <= 23 && bytes[2..].chunks(2).all(|pair| number(pair) <= 59)
}

/// One of the forms of a routing number (document 02, request 1). The check digit is asked in TTTTAAAAC only.
fn is_in_form(form: &str, bytes: &[u8]) -> bool {
    match form {
        "TTTTAAAAC" => is_spelled(form, bytes) && keeps_aba_rule(bytes),
        "NONFIN" => is_non_financial(bytes),
        _ => is_spelled(form, bytes),
    }
}

/// As a Format line spells it: a digit for each of T, A, F and C, a blank for b, a dash for itself.
fn is_spelled(form: &str, bytes: &[u8]) -> bool {
    let is = |letter: u8, byte: u8| match letter {
        b'T' | b'A' | b'F' | b'C' => is_numeric(byte),
        b'b' => is_blank(byte),
        b'-' => byte == b'-',
        other => panic!("no form has a {}", char::from(other)),
    };
    form.len() == bytes.len() && form.bytes().zip(bytes).all(|(letter, byte)| is(letter, *byte))
}

fn keeps_aba_rule(bytes: &[u8]) -> bool {
    let d = |place: usize| number(&bytes[place - 1..place]);
    (3 * (d(1) + d(4) + d(7)) + 7 * (d(2) + d(5) + d(8)) + d(3) + d(6) + d(9)) % 10 == 0
}

/// NNNNNNNNN: digits, one at least, and blanks for those that are lacking, on either side but not among them.
fn is_non_financial(bytes: &[u8]) -> bool {
    let digits_or_blanks = all(bytes, |byte| is_numeric(byte) || is_blank(byte));
    digits_or_blanks && !all(bytes, is_blank) && !has_embedded_blank(bytes)
}

// Defined values.

fn in_values(values: &[Values], bytes: &[u8]) -> bool {
    values.is_empty() || values.iter().any(|run| is_one_of(run, bytes))
}

/// Digits are compared as numbers of the same width; a letter means what its capital means.
fn is_one_of(run: &Values, bytes: &[u8]) -> bool {
    if bytes.len() != run.low.len() {
        return false;
    }
    if all(run.low, is_numeric) {
        all(bytes, is_numeric) && (number(run.low)..=number(run.high)).contains(&number(bytes))
    } else {
        (run.low[0]..=run.high[0]).contains(&bytes[0].to_ascii_uppercase())
    }
}

/// 50.11 and 50.12, '0' through '99': one digit and one blank in either order, or two digits.
fn is_one_or_two_digits(bytes: &[u8]) -> bool {
    all(bytes, |byte| is_numeric(byte) || is_blank(byte)) && !all(bytes, is_blank)
}

// The variable parts of types 27, 34 and 52.

/// A variable field of a record, `start` counted from the first byte after the length field.
pub struct Part<'a> {
    pub field: &'a Field,
    pub start: usize,
    pub length: usize,
}

/// The parts one after another, as the fixed part states their lengths. The stated lengths must be digits.
pub fn parts<'a>(kind: &'a Kind, body: &[u8]) -> Vec<Part<'a>> {
    let mut parts = Vec::new();
    let mut start = kind.fixed_length;
    for field in &kind.fields {
        if let Some(by) = field.stated_by {
            let length = number(kind.field(by).of(body));
            parts.push(Part { field, start, length });
            start += length;
        }
    }
    parts
}

fn first_part_fault(parts: &[Part], body: &[u8]) -> Option<u64> {
    let at_fault = |part: &&Part| !of_type(part.field.data_type, &body[part.start..part.start + part.length]);
    parts.iter().find(at_fault).map(|part| part.field.number)
}

// The picture call.

/// Number, field, start and length of the Image Data part of the 52 whose length field stands at `offset`, in an ASCII file.
pub fn picture(table: &Table, file: &[u8], offset: u64) -> [u64; 4] {
    picture_in(table, Set::Ascii, file, offset)
}

/// The same in a file of this set.
pub fn picture_in(table: &Table, set: Set, file: &[u8], offset: u64) -> [u64; 4] {
    if file.is_empty() || file.len() > LARGEST_FILE {
        return [SIZE, 0, 0, 0];
    }
    let Some(body) = framed(file, offset) else {
        return [CUT, 0, 0, 0];
    };
    let body = &set.to_ascii(body);
    if body.len() >= 2 && !body.starts_with(b"52") {
        return [TYPE, 0, 0, 0];
    }
    let answer = record(table, body);
    if answer.number != ACCEPTED {
        return [answer.number, answer.field, 0, 0];
    }
    let parts = parts(table.kind("52"), body);
    let image = parts.iter().find(|part| part.field.number == 27).expect("field 27 is a part");
    [ACCEPTED, 0, offset + 4 + image.start as u64, image.length as u64]
}

/// The bytes after the length field at `offset`, as many as it says; nothing where the file is cut.
fn framed(file: &[u8], offset: u64) -> Option<&[u8]> {
    let rest = file.get(usize::try_from(offset).ok()?..)?;
    let length = u32::from_be_bytes(rest.get(..4)?.try_into().ok()?);
    rest[4..].get(..usize::try_from(length).ok()?)
}
