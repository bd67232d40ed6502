//! One record judged alone: its length, its fields and its variable parts. Characters are read by the set of the record's file (request 5);
//! the calls without a set are for ASCII.

use crate::charset::{Set, Text};
use crate::layout::{Field, Form, Layout, Part, Rule, Type, Usage};

/// What is wrong with a record taken by itself.
#[derive(Clone, Copy, Debug, PartialEq, Eq)]
pub enum Flaw {
    Length,
    Field(u8),
}

/// A record in ASCII.
pub fn record(layout: &Layout, body: &[u8]) -> Result<(), Flaw> {
    record_in(Set::Ascii, layout, body)
}

/// The checks of one record in document 01's order: length against the fixed part, fixed fields, length against the
/// stated part lengths, variable fields.
pub fn record_in(set: Set, layout: &Layout, body: &[u8]) -> Result<(), Flaw> {
    let too_long = layout.parts.is_empty() && body.len() > layout.fixed;
    if body.len() < layout.fixed || too_long {
        return Err(Flaw::Length);
    }
    for fixed in layout.fields {
        if !field_in(set, fixed, fixed.of(body)) || clipping_broken(set, layout, fixed, body) {
            return Err(Flaw::Field(fixed.number));
        }
    }
    variable(set, layout, body)
}

/// The variable parts of types 27, 34 and 52 (clauses 12, 17, 22).
fn variable(set: Set, layout: &Layout, body: &[u8]) -> Result<(), Flaw> {
    if layout.parts.is_empty() {
        return Ok(());
    }
    let stated: u64 = layout.parts.iter().map(|part| part_length_in(set, layout, body, part)).sum();
    if body.len() as u64 != layout.fixed as u64 + stated {
        return Err(Flaw::Length);
    }
    for part in layout.parts {
        if !of_type(part.kind, Text::new(set, part_of(set, layout, body, part))) {
            return Err(Flaw::Field(part.number));
        }
    }
    Ok(())
}

/// The length that a part's sizing field states, in ASCII.
pub fn part_length(layout: &Layout, body: &[u8], part: &Part) -> u64 {
    part_length_in(Set::Ascii, layout, body, part)
}

/// The length that a part's sizing field states.
pub fn part_length_in(set: Set, layout: &Layout, body: &[u8], part: &Part) -> u64 {
    number_in(Text::new(set, layout.field(part.sized_by).of(body)))
}

/// Where a part starts in an ASCII record whose length is right.
pub fn part_start(layout: &Layout, body: &[u8], wanted: &Part) -> usize {
    part_start_in(Set::Ascii, layout, body, wanted)
}

/// Where a part starts in a record whose length is right.
pub fn part_start_in(set: Set, layout: &Layout, body: &[u8], wanted: &Part) -> usize {
    let before = layout.parts.iter().take_while(|part| part.number < wanted.number);
    layout.fixed + before.map(|part| part_length_in(set, layout, body, part) as usize).sum::<usize>()
}

/// A part's bytes in a record whose length is right.
fn part_of<'a>(set: Set, layout: &Layout, body: &'a [u8], part: &Part) -> &'a [u8] {
    let start = part_start_in(set, layout, body, part);
    &body[start..start + part_length_in(set, layout, body, part) as usize]
}

/// Clause 22.9: clipping origin '0' asks four coordinates of '0000'; the fault is the coordinate's.
fn clipping_broken(set: Set, layout: &Layout, fixed: &Field, body: &[u8]) -> bool {
    let coordinate = layout.code == 52 && (10..=13).contains(&fixed.number);
    let holds = |field: &Field, characters: &[u8]| Text::new(set, field.of(body)).is(characters);
    coordinate && holds(layout.field(9), b"0") && !holds(fixed, b"0000")
}

/// A fixed field in ASCII.
pub fn field(field: &Field, bytes: &[u8]) -> bool {
    field_in(Set::Ascii, field, bytes)
}

/// A fixed field: clause 5.4 a) to c) with document 01's reading of blanks.
pub fn field_in(set: Set, field: &Field, bytes: &[u8]) -> bool {
    let text = Text::new(set, bytes);
    if field.usage == Usage::Conditional && all_blank(text) {
        return true;
    }
    of_type(field.kind, text) && (marked(field, text) || by_rule(field.rule, text))
}

/// A routing number or date that holds a mark its type admits is left to its type.
fn marked(field: &Field, text: Text) -> bool {
    let judged_so = matches!(field.rule, Rule::Routing(_) | Rule::Date);
    let cant_read = matches!(field.kind, Type::MicrCantRead | Type::MicrDash | Type::MicrOnUs | Type::MicrUnparsed);
    let questionable = field.kind == Type::NumericBlankQuestion;
    judged_so && ((cant_read && text.contains(b'*')) || (questionable && text.contains(b'?')))
}

/// Clause 5.3: the characters of each data type. Binary is never looked at.
pub fn of_type(kind: Type, text: Text) -> bool {
    match kind {
        Type::AllBlank => all_blank(text),
        Type::Alphabetic => text.all(|character| character.is_ascii_alphabetic() || character == b' '),
        Type::Alphanumeric => text.all(|character| character.is_ascii_alphanumeric() || character == b' '),
        Type::AlphanumericSpecial => text.all(|character| (0x20..=0x7E).contains(&character)),
        Type::Binary => true,
        Type::Numeric => all_digits_in(text),
        Type::NumericBlank => digits_and(text, b" ") && !blank_embedded(text),
        Type::NumericBlankDash => digits_and(text, b" -") && !blank_embedded(text),
        Type::NumericBlankQuestion => digits_and(text, b" ?") && !blank_embedded(text),
        Type::MicrCantRead => digits_and(text, b" *"),
        Type::MicrDash => digits_and(text, b" *-"),
        Type::MicrOnUs => digits_and(text, b" *-/"),
        Type::MicrUnparsed => digits_and(text, b" *-/$#"),
    }
}

/// The rest of a field's own clause.
fn by_rule(rule: Rule, text: Text) -> bool {
    match rule {
        Rule::TypeAlone => true,
        Rule::Codes(codes) => codes.iter().any(|code| is_code(text, code.as_bytes())),
        Rule::Range(low, high) => all_digits_in(text) && (low..=high).contains(&number_in(text)),
        Rule::Ranges(ranges) => {
            all_digits_in(text) && ranges.iter().any(|(low, high)| (*low..=*high).contains(&number_in(text)))
        }
        Rule::Digits => all_digits_in(text),
        Rule::OneOrTwoDigits => one_or_two_digits(text),
        Rule::Date => date(text),
        Rule::HourMinute => time(text, &[23, 59]),
        Rule::HourMinuteSecond => time(text, &[23, 59, 59]),
        Rule::Routing(forms) => forms.iter().any(|form| in_form(*form, text)),
    }
}

/// A defined value; a small letter means what its capital means (clause 5.1.1).
fn is_code(text: Text, code: &[u8]) -> bool {
    let alike = |(one, other): (u8, &u8)| one.eq_ignore_ascii_case(other);
    text.len() == code.len() && text.characters().zip(code).all(alike)
}

pub fn all_blank(text: Text) -> bool {
    text.all(|character| character == b' ')
}

/// All digits, in ASCII.
pub fn all_digits(bytes: &[u8]) -> bool {
    all_digits_in(Text::new(Set::Ascii, bytes))
}

pub fn all_digits_in(text: Text) -> bool {
    text.all(|character| character.is_ascii_digit())
}

fn digits_and(text: Text, others: &[u8]) -> bool {
    text.all(|character| character.is_ascii_digit() || others.contains(&character))
}

/// A blank with some digit before it and some digit after it (clauses 5.3.8 to 5.3.10).
fn blank_embedded(text: Text) -> bool {
    let first = text.characters().position(|character| character.is_ascii_digit());
    let last = text.characters().rposition(|character| character.is_ascii_digit());
    match (first, last) {
        (Some(first), Some(last)) => text.part(first, last).contains(b' '),
        _ => false,
    }
}

/// The number that ASCII digits spell.
pub fn number(digits: &[u8]) -> u64 {
    number_in(Text::new(Set::Ascii, digits))
}

/// The number that digits spell; at most sixteen of them stand in one field.
pub fn number_in(digits: Text) -> u64 {
    digits.characters().fold(0, |so_far, digit| so_far * 10 + u64::from(digit - b'0'))
}

fn one_or_two_digits(text: Text) -> bool {
    digits_and(text, b" ") && !all_blank(text)
}

/// YYYYMMDD by three ranges alone: 30 February passes.
fn date(text: Text) -> bool {
    all_digits_in(text)
        && text.len() == 8
        && (1993..=9999).contains(&number_in(text.part(0, 4)))
        && (1..=12).contains(&number_in(text.part(4, 6)))
        && (1..=31).contains(&number_in(text.part(6, 8)))
}

/// Pairs of digits, each at most its limit.
fn time(text: Text, limits: &[u64]) -> bool {
    let pair = |at: usize| number_in(text.part(2 * at, 2 * at + 2));
    all_digits_in(text) && text.len() == 2 * limits.len() && (0..limits.len()).all(|at| pair(at) <= limits[at])
}

/// Request 1: a routing field takes each form that it lists. Of these only TTTTAAAAC and NNNNNNNNN take nine digits, so a field
/// that does not list the second judges nine digits by their check digit.
fn in_form(form: Form, text: Text) -> bool {
    text.len() == 9
        && match form {
            Form::WithCheckDigit => with_check_digit(text),
            Form::Canadian => dashed(text, 5),
            Form::WithDash => dashed(text, 4),
            Form::BlankFirst => blank_first(text),
            Form::NonFinancial => non_financial(text),
        }
}

/// TTTTAAAAC: nine digits whose sum weighted 3, 7, 1 is a multiple of ten (the ABA rule).
fn with_check_digit(text: Text) -> bool {
    if !all_digits_in(text) {
        return false;
    }
    let weights = [3, 7, 1, 3, 7, 1, 3, 7, 1];
    let sum: u64 = text.characters().zip(weights).map(|(digit, weight)| u64::from(digit - b'0') * weight).sum();
    sum.is_multiple_of(10)
}

/// TTTTT-FFF and TTTT-AAAA: digits with a dash at this place.
fn dashed(text: Text, place: usize) -> bool {
    all_digits_in(text.part(0, place)) && text.at(place) == b'-' && all_digits_in(text.part(place + 1, text.len()))
}

/// bTTTTAAAA: a blank, eight digits.
fn blank_first(text: Text) -> bool {
    text.at(0) == b' ' && all_digits_in(text.part(1, text.len()))
}

/// NNNNNNNNN: one to nine digits in a row, blanks on either side; "the only format in which blanks are allowed for numbers
/// shorter than nine digits" (clause 7.4). Justification is not judged.
fn non_financial(text: Text) -> bool {
    let first = text.characters().position(|character| character != b' ');
    let last = text.characters().rposition(|character| character != b' ');
    match (first, last) {
        (Some(first), Some(last)) => all_digits_in(text.part(first, last + 1)),
        _ => false,
    }
}

#[cfg(test)]
mod tests {
    use super::*;
    use crate::layout::layout;

    /// The same in both sets: what these tests pass in, and what they refuse.
    fn passes(code: u8, number: u8, bytes: &[u8]) -> bool {
        let at = layout(code).field(number);
        assert_eq!(at.size(), bytes.len());
        let passed = field(at, bytes);
        assert_eq!(field_in(Set::Ebcdic, at, &Set::Ebcdic.bytes(bytes)), passed, "{code}.{number} in EBCDIC");
        passed
    }

    /// P1 and P2 speak of TTTTAAAAC; a field that lists the non-financial form takes any nine digits.
    #[test]
    fn check_digits_p1_p2() {
        for set in [Set::Ascii, Set::Ebcdic] {
            let (right, wrong) = (set.bytes(b"123456780"), set.bytes(b"123456781"));
            assert!(with_check_digit(Text::new(set, &right))); // 3+14+3+12+35+6+21+56+0 = 150
            assert!(!with_check_digit(Text::new(set, &wrong)));
        }
        for (code, number) in [(20, 10), (25, 4), (26, 3), (28, 3), (31, 4), (32, 3), (35, 3), (61, 5)] {
            assert!(passes(code, number, b"123456780") && passes(code, number, b"000000000"));
            assert!(!passes(code, number, b"123456781"));
        }
        for (code, number) in [(1, 4), (1, 5), (10, 3), (10, 4), (20, 3), (20, 4), (50, 3), (52, 2)] {
            assert!(passes(code, number, b"123456780") && passes(code, number, b"123456781"));
        }
    }

    #[test]
    fn forms_beside_the_check_digit() {
        assert!(passes(1, 4, b"12345-678") && passes(20, 10, b"12345-678") && passes(25, 4, b"12345-678"));
        assert!(!passes(1, 4, b"1234-5678") && !passes(20, 10, b"1234-5678") && passes(25, 4, b"1234-5678"));
        assert!(passes(1, 4, b" 12345678") && !passes(20, 10, b" 12345678") && passes(25, 4, b" 12345678"));
        assert!(passes(1, 4, b"12345678 ") && !passes(20, 10, b"12345678 ") && !passes(25, 4, b"12345678 "));
        assert!(passes(1, 4, b"    7    ") && !passes(20, 10, b"    7    ") && !passes(25, 4, b"    7    "));
        assert!(!passes(1, 4, b"123 45678") && !passes(25, 4, b"123 45678"));
        assert!(!passes(1, 4, b"1234-5   ") && !passes(1, 4, b"123-45678") && !passes(1, 4, b"        -"));
    }

    #[test]
    fn blanks_and_marks_in_routing_fields() {
        assert!(!passes(1, 4, b"         ") && !passes(25, 4, b"         "));
        assert!(passes(20, 10, b"         "));
        assert!(!passes(1, 4, b"12345678*") && !passes(20, 10, b"12345-67*"));
        assert!(passes(25, 4, b"12345678*") && passes(31, 4, b" 1-2 3*  "));
        assert!(!passes(25, 4, b"12345678?") && !passes(31, 4, b"1234*678?"));
        assert!(passes(61, 5, b" 1-2 3*  ") && passes(61, 5, b"12345-678") && !passes(61, 5, b"         "));
        assert!(!passes(61, 5, b"1234-5678") && !passes(61, 5, b" 12345678") && !passes(61, 5, b"12345678 "));
    }

    #[test]
    fn dates_p3_p4() {
        assert!(passes(1, 6, b"20050230"));
        assert!(!passes(1, 6, b"19921231"));
        assert!(passes(1, 6, b"19930101"));
        assert!(passes(1, 6, b"99991231"));
        for wrong in [b"20050001", b"20051301", b"20050100", b"20050132", b"2005 101", b"        "] {
            assert!(!passes(1, 6, wrong));
        }
        assert!(passes(20, 6, b"        "));
        assert!(!passes(20, 6, b"2005    "));
        assert!(passes(32, 4, b"2005????"));
        assert!(passes(32, 4, b"?  ?1234"));
        assert!(!passes(32, 4, b"20 05???"));
        assert!(!passes(32, 4, b"20059999"));
        assert!(!passes(26, 4, b"2005????"));
    }

    #[test]
    fn times() {
        assert!(passes(1, 7, b"2359"));
        assert!(!passes(1, 7, b"2400"));
        assert!(!passes(1, 7, b"0060"));
        assert!(passes(27, 4, b"235959"));
        assert!(!passes(27, 4, b"235960"));
        assert!(passes(27, 4, b"      "));
        assert!(!passes(27, 4, b"1200  "));
    }

    #[test]
    fn blanks_among_digits() {
        assert!(passes(20, 8, b" 12 "));
        assert!(passes(20, 8, b"   1"));
        assert!(!passes(20, 8, b"1 2 "));
        assert!(passes(25, 7, b"               "));
        assert!(passes(32, 5, b"12? ???????  ? "));
        assert!(!passes(32, 5, b"12? ???????  ?3"));
        assert!(passes(25, 2, b"1 2 - *  3    1"));
        assert!(!passes(25, 2, b"1 2 - /  3    1"));
        assert!(passes(70, 4, b"            "));
        assert!(!passes(70, 4, b"000000001   "));
        assert!(passes(70, 4, b"000000000001"));
    }

    #[test]
    fn defined_values() {
        assert!(passes(1, 3, b"t"));
        assert!(!passes(1, 3, b" "));
        assert!(passes(10, 9, b"z") && passes(10, 9, b" ") && !passes(10, 9, b"N"));
        assert!(passes(10, 13, b"99") && !passes(10, 13, b"00") && !passes(10, 13, b"1 "));
        assert!(passes(10, 2, b"99") && passes(10, 2, b"20") && passes(10, 2, b"10"));
        assert!(!passes(20, 2, b"99") && !passes(20, 2, b"20") && !passes(20, 2, b"10"));
        assert!(passes(50, 11, b" 1") && passes(50, 11, b"1 ") && passes(50, 11, b"99") && passes(50, 11, b"  "));
        assert!(!passes(50, 11, b"1A"));
        assert!(passes(50, 20, b"r") && !passes(50, 20, b"S") && !passes(50, 20, b"1"));
        assert!(!passes(50, 5, b"  ") && passes(50, 5, b"00"));
        assert!(passes(33, 2, b"  ") && passes(33, 2, b"a1") && !passes(33, 2, b"-1"));
        assert!(passes(25, 10, b" ") && passes(25, 10, b"4") && !passes(25, 10, b"0") && !passes(25, 10, b"5"));
        assert!(passes(52, 9, b"4") && !passes(52, 9, b"5") && !passes(52, 9, b" "));
    }

    /// Clause 26 and reading 24: every value printed passes, the user-defined and reserved ones too.
    #[test]
    fn defined_values_of_a_61() {
        let taken = |number: u8, tried: Vec<String>| -> String {
            tried.into_iter().filter(|text| passes(61, number, text.as_bytes())).collect::<Vec<_>>().join("")
        };
        let characters = || (0x20..0x7F).map(|byte| char::from(byte).to_string()).collect();
        assert_eq!(taken(2, characters()), " 123456789");
        assert_eq!(taken(9, characters()), " ABCDEFGHIJKLMabcdefghijklm");
        assert_eq!(taken(10, characters()), " 12345ABCDEFGHIJabcdefghij");
        let refused: Vec<u64> = (0..100).filter(|number| !passes(61, 11, format!("{number:02}").as_bytes())).collect();
        assert_eq!(refused, [0, 12, 13, 14, 15, 16, 17, 18, 19, 20]);
        assert!(passes(61, 11, b"  ") && !passes(61, 11, b"1 ") && !passes(61, 11, b" 1") && !passes(61, 11, b"A1"));
        assert!(passes(61, 7, b"00000000000000") && passes(61, 7, b"99999999999999"));
        assert!(!passes(61, 7, b"              ") && !passes(61, 7, b" 0000000000001"));
        assert!(passes(61, 8, b"               ") && passes(61, 8, b" 12            "));
        assert!(!passes(61, 8, b"1 2            ") && !passes(61, 8, b"A              "));
        assert!(passes(61, 12, b"   ") && !passes(61, 12, b"  0"));
    }
}
