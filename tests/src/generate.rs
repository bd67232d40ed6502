//! Makes sound records of every kind, varied, from a seed.

use crate::random::Random;
use crate::table::{Field, Kind, Values};

const DIGITS: &[u8] = b"0123456789";

/// A record of this kind that breaks no rule, without its length field.
pub fn sound_record(kind: &Kind, random: &mut Random) -> Vec<u8> {
    let sizing = kind.sizing_fields();
    let mut lengths = vec![0; kind.fields.len() + 1];
    let mut body = Vec::new();
    for field in &kind.fields {
        if sizing.contains(&field.number) {
            lengths[field.number as usize] = part_length(field.size, random);
        }
        body.extend(match field.stated_by {
            Some(by) => typed(field.data_type, lengths[by as usize], random),
            None if sizing.contains(&field.number) => digits_of(lengths[field.number as usize], field.size),
            None => fixed_field(kind, field, &body, random),
        });
    }
    body
}

/// The record with its four-byte length before it.
pub fn framed(body: &[u8]) -> Vec<u8> {
    [&(body.len() as u32).to_be_bytes(), body].concat()
}

/// A routing number that keeps the ABA rule.
pub fn routing(random: &mut Random) -> Vec<u8> {
    let mut bytes = random.bytes(DIGITS, 8);
    bytes.push(check_digit(&bytes));
    bytes
}

/// The ninth digit that goes with eight by the ABA rule.
pub fn check_digit(eight: &[u8]) -> u8 {
    let weights = [3, 7, 1, 3, 7, 1, 3, 7];
    let sum: usize = eight.iter().zip(weights).map(|(digit, weight)| usize::from(digit - b'0') * weight).sum();
    b'0' + ((10 - sum % 10) % 10) as u8
}

pub fn all_digits(bytes: &[u8]) -> bool {
    bytes.iter().all(u8::is_ascii_digit)
}

/// The number that digits write.
pub fn value_of(digits: &[u8]) -> usize {
    std::str::from_utf8(digits).expect("digits").parse().expect("digits")
}

pub fn digits_of(value: usize, size: usize) -> Vec<u8> {
    format!("{value:0size$}").into_bytes()
}

fn part_length(size: usize, random: &mut Random) -> usize {
    match random.below(8) {
        0..=2 => 0,
        3 => 1,
        4 if size > 2 => random.between(100, 700),
        _ => random.between(2, 40),
    }
}

fn fixed_field(kind: &Kind, field: &Field, body: &[u8], random: &mut Random) -> Vec<u8> {
    let size = field.size;
    if !field.mandatory && random.one_in(4) {
        return vec![b' '; size];
    }
    match (kind.code, field.number) {
        (code, 1) => code.into(),
        ("50", 11 | 12) => one_or_two_digits(random),
        ("52", 10..=13) if body[84] == b'0' => b"0000".to_vec(),
        ("70", 4) => random.bytes(DIGITS, size),
        _ if !field.values.is_empty() => defined_value(&field.values, random),
        _ => formatted(field, random),
    }
}

fn one_or_two_digits(random: &mut Random) -> Vec<u8> {
    let (first, second) = (random.pick(DIGITS), random.pick(DIGITS));
    [[first, b' '], [b' ', first], [first, second]][random.below(3)].to_vec()
}

fn defined_value(values: &[Values], random: &mut Random) -> Vec<u8> {
    let run = &values[random.below(values.len())];
    if run.low[0].is_ascii_digit() {
        return digits_of(random.between(value_of(run.low), value_of(run.high)), run.low.len());
    }
    let letter = random.between(run.low[0].into(), run.high[0].into()) as u8;
    vec![if random.one_in(2) { letter } else { letter.to_ascii_lowercase() }]
}

fn formatted(field: &Field, random: &mut Random) -> Vec<u8> {
    let typed = typed(field.data_type, field.size, random);
    let marked = random.one_in(4) && typed.iter().any(|byte| b"*?".contains(byte));
    match field.format {
        "none" => typed,
        _ if marked => typed,
        "date" => date(random),
        "hhmm" | "hhmmss" => time(field.size, random),
        _ => routing_of(field, random),
    }
}

/// A routing number in one of the forms that its field lists.
fn routing_of(field: &Field, random: &mut Random) -> Vec<u8> {
    let forms: Vec<&str> = field.routing_forms().collect();
    match forms[random.below(forms.len())] {
        "TTTTAAAAC" => routing(random),
        "NONFIN" => non_financial(field.size, random),
        spelled => spelled.bytes().map(|letter| spell(letter, random)).collect(),
    }
}

/// A character where a Format line has this one.
fn spell(letter: u8, random: &mut Random) -> u8 {
    match letter {
        b'b' => b' ',
        b'-' => b'-',
        _ => random.pick(DIGITS),
    }
}

/// One to nine digits in a row, and blanks on either side.
fn non_financial(size: usize, random: &mut Random) -> Vec<u8> {
    let count = random.between(1, size);
    let before = random.between(0, size - count);
    [vec![b' '; before], random.bytes(DIGITS, count), vec![b' '; size - count - before]].concat()
}

fn date(random: &mut Random) -> Vec<u8> {
    let year = [1993, 1999, 2005, 9999, random.between(1993, 9999)][random.below(5)];
    format!("{year:04}{:02}{:02}", random.between(1, 12), random.between(1, 31)).into_bytes()
}

fn time(size: usize, random: &mut Random) -> Vec<u8> {
    let mut text = format!("{:02}{:02}{:02}", random.below(24), random.below(60), random.below(60));
    text.truncate(size);
    text.into_bytes()
}

/// Bytes that meet the data type.
fn typed(data_type: &str, size: usize, random: &mut Random) -> Vec<u8> {
    let printable: Vec<u8> = (0x20..=0x7E).collect();
    match data_type {
        "AB" => vec![b' '; size],
        "A" => random.bytes(b" ABCXYZabcxyz", size),
        "AN" => random.bytes(b" ABCMNXYZabcmnxyz0123456789", size),
        "ANS" => random.bytes(&printable, size),
        "N" => random.bytes(DIGITS, size),
        "NB" => blank_filled(DIGITS, size, random),
        "NBD" => blank_filled(b"-0123456789", size, random),
        "NBQ" => blank_filled(b"??0123456789", size, random),
        "NBMc" => random.bytes(b" *0123456789", size),
        "NBMcd" => random.bytes(b" *-0123456789", size),
        "NBMcdo" => random.bytes(b" *-/0123456789", size),
        "NBMU" => random.bytes(b" *-/$#0123456789", size),
        _ => (0..size).map(|_| random.any_byte()).collect(),
    }
}

/// Characters side by side, with blanks on the left or on the right of them, on both sides, or on none.
fn blank_filled(characters: &[u8], size: usize, random: &mut Random) -> Vec<u8> {
    let (mut from, mut to) = (0, size);
    if random.one_in(2) {
        from = random.below(size + 1);
    }
    if random.one_in(2) {
        to = random.between(from, size);
    }
    [vec![b' '; from], random.bytes(characters, to - from), vec![b' '; size - to]].concat()
}
