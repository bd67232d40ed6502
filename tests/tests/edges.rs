//! One record alone: both sides of every edge of every rule, each with its answer from the documents, from the library and from the judge.
//!
//! The edges come from `fields.tsv`, clause 5 and document 01 (`src/edges.rs`), the expected answers with them. Each test counts the edges
//! that it has tried and holds the count against one worked out from the table's columns.
//!
//! Tried elsewhere:
//! - every string of digits, dashes and blanks in every routing field, and all that is near a form: `routing.rs`;
//! - every byte value at every place of every field, library beside judge: `every_field_changed` in `records.rs`;
//! - each pair of bytes as a type number, and the types not carried: `every_type_number` in `records.rs`;
//! - the picture call with offsets around the end, and a file of the largest size and one byte more: `picture.rs`;
//! - what takes more than one record, on whole files, library beside the independent reader: `compare` in `peer/`. A run of 100,000 files, as
//!   in `.ci/run`, fails unless it met every point of `demanded` in `peer/reader/src/tally.rs`: each lawful pair of types accepted and each
//!   other pair refused at PLACE, each LINK rule, each control field at TOTAL, each way of CUT, OPEN after each type, AFTER and ROOM. Bundles of
//!   9,999 and 10,000 items are in it by `rare` in `peer/reader/src/stream.rs`, sums beyond twelve digits by `edge` there, sums of 61s that fill
//!   a control field, pass it or pass 64 bits by `peer/reader/src/brim.rs`, and the largest file and one byte more by `peer/src/large.rs`.

use record_tests::compose::Fields;
use record_tests::edges::{edges, has, marks_of, no_blank_among_digits, runs_of, strangers_to, Asked};
use record_tests::edges::{BESIDE, DIGIT_OR_BLANK, NO_CHARACTER};
use record_tests::generate::{digits_of, value_of};
use record_tests::judge::{at_field, whole, Answer, ACCEPTED, LENGTH, TYPE};
use record_tests::random::Random;
use record_tests::table::{Field, Kind, Table};
use record_tests::{agreed, report};
use std::collections::BTreeMap;

/// Each edge of a field is tried in so many sound records.
const RECORDS: usize = 2;

fn variable_kinds(table: &Table) -> impl Iterator<Item = &Kind> {
    table.kinds.iter().filter(|kind| kind.is_variable())
}

fn parts_of(kind: &Kind) -> impl Iterator<Item = (&Field, &Field)> {
    let parts = kind.fields.iter().filter_map(|part| Some((part, part.stated_by?)));
    parts.map(|(part, sizing)| (part, kind.field(sizing)))
}

/// Both sides of one edge: the one record is accepted, the other has this answer.
fn try_edge(table: &Table, inside: &[u8], beyond: &[u8], answer: Answer, what: &dyn Fn() -> String) {
    assert_eq!(agreed(table, inside), whole(ACCEPTED), "inside: {}", what());
    assert_eq!(agreed(table, beyond), answer, "beyond: {}", what());
}

// Fields.

/// Tries the edges of one field and counts them by their rules.
fn try_field(table: &Table, kind: &Kind, field: &Field, random: &mut Random) -> BTreeMap<&'static str, usize> {
    let mut tried = BTreeMap::new();
    for edge in edges(kind, field) {
        let answer = if edge.beyond_passes { whole(ACCEPTED) } else { at_field(field.number) };
        for _ in 0..RECORDS {
            let fields = Fields::sound(kind, random);
            let body = |contents: &[u8]| fields.clone().put(field.number, contents).body();
            let what = || {
                let [inside, beyond] = [&edge.inside, &edge.beyond].map(|side| side.escape_ascii().to_string());
                format!("{}.{} {}: '{inside}', '{beyond}'", kind.code, field.number, edge.rule)
            };
            try_edge(table, &body(&edge.inside), &body(&edge.beyond), answer, &what);
        }
        *tried.entry(edge.rule).or_insert(0) += 1;
    }
    tried
}

/// The edges that a field's row implies: of its data type at each place, and of what is asked beyond.
fn implied(kind: &Kind, field: &Field) -> usize {
    let asked = Asked::of(kind, field);
    let places = if field.stated_by.is_some() { 2 } else { field.size };
    let at_a_place = 2 * runs_of(field.data_type).len() + strangers_to(field.data_type).len();
    let characters = match field.data_type {
        "Binary" => 1,
        data_type => places * (at_a_place + asked.characters_to_try(data_type).len()),
    };
    characters + implied_blanks(field, asked) + implied_among_digits(field, asked) + implied_form(field, asked)
}

/// All blank; where more than one character has to be there, one of them blank, or all others. A type that takes blanks has nothing more.
fn implied_blanks(field: &Field, asked: Asked) -> usize {
    let lone = if field.mandatory { 0 } else { field.size };
    match (asked, field.data_type, field.size) {
        (Asked::TypeAlone, data_type, _) if data_type != "N" => 0,
        (Asked::OneOrTwoDigits, ..) | (_, _, 1) => 1,
        (_, _, size) => 1 + size + lone,
    }
}

/// Each place with a digit on both sides: a blank alone, and blanks up to the last digit; with a mark or a dash before it, where one may be.
fn implied_among_digits(field: &Field, asked: Asked) -> usize {
    let ways = 2 + b"-?".iter().filter(|other| has(field.data_type, **other)).count();
    match asked.marks_before_digits(field.data_type) {
        Some(marks) if no_blank_among_digits(field.data_type) => ways * (field.size.saturating_sub(2) - marks.len()),
        _ => 0,
    }
}

/// One to nine digits in a row among nine places, 45 patterns, which take in TTTTAAAAC and bTTTTAAAA; TTTTT-FFF and TTTT-AAAA.
const EVERY_PATTERN: usize = 45 + 2;

fn listed_patterns(field: &Field) -> usize {
    field.routing_forms().map(|form| if form == "NONFIN" { 45 } else { 1 }).sum()
}

fn implied_form(field: &Field, asked: Asked) -> usize {
    // Each mark at each place, in wrong contents and in blank ones.
    let marks = 2 * marks_of(field.data_type).len() * field.size;
    match asked {
        Asked::TypeAlone | Asked::Digits => 0,
        // Two ends of each printed value or run, a letter's in either case.
        Asked::Values => field.values.iter().map(|run| if run.low[0].is_ascii_digit() { 2 } else { 4 }).sum(),
        Asked::Date | Asked::Time => 2 * field.ranges.len() + marks,
        // Nine other digits at each place; two other sorts of characters at each place of each pattern listed; each pattern of all forms.
        Asked::Routing => 9 * field.size + 2 * field.size * listed_patterns(field) + EVERY_PATTERN + marks,
        Asked::OneOrTwoDigits => field.size * BESIDE.len() * DIGIT_OR_BLANK.len(),
    }
}

#[test]
fn every_field() {
    let (table, mut random) = (Table::read(), Random::new(11));
    let (mut tried, mut wanted, mut fields) = (BTreeMap::new(), 0, 0);
    for kind in &table.kinds {
        for field in kind.fields.iter().filter(|field| field.number != 1) {
            let of_field = try_field(&table, kind, field, &mut random);
            let count: usize = of_field.values().sum();
            assert!(count >= implied(kind, field), "{}.{}: {count} edges", kind.code, field.number);
            of_field.into_iter().for_each(|(rule, count)| *tried.entry(rule).or_insert(0) += count);
            (wanted, fields) = (wanted + implied(kind, field), fields + 1);
        }
    }
    let total: usize = tried.values().sum();
    report(&format!("edges of fields: {total} tried on both sides, {wanted} implied by the rows of {fields} fields"));
    tried.iter().for_each(|(rule, count)| report(&format!("  {rule}: {count}")));
    assert!(total >= wanted);
}

/// Document 01: year 1993 to 9999, month 01 to 12, day 01 to 31; and hours, minutes and seconds.
#[test]
fn ranges_of_dates_and_times() {
    let table = Table::read();
    let fields = || table.kinds.iter().flat_map(|kind| &kind.fields);
    for field in fields() {
        let ranges: Vec<_> = field.ranges.iter().map(|range| (range.low, range.high)).collect();
        let expected: &[(&[u8], &[u8])] = match field.format {
            "date" => &[(b"1993", b"9999"), (b"01", b"12"), (b"01", b"31")],
            "hhmm" => &[(b"00", b"23"), (b"00", b"59")],
            "hhmmss" => &[(b"00", b"23"), (b"00", b"59"), (b"00", b"59")],
            _ => &[],
        };
        assert_eq!(ranges, expected, "{}", field.name);
    }
    let count = fields().filter(|field| !field.ranges.is_empty()).count();
    report(&format!("ranges of dates and times: {count} fields of the table, as document 01 has them"));
}

/// A type number is judged before any field: what names no type that is carried is TYPE.
#[test]
fn type_numbers() {
    let (table, mut random) = (Table::read(), Random::new(12));
    let (mut tried, mut carried) = (0, 0);
    for kind in &table.kinds {
        let code = value_of(kind.code.as_bytes());
        let numbers = [code - 1, code + 1].map(|number| digits_of(number, 2));
        let [tens, units] = [0, 1].map(|at| kind.code.as_bytes()[at]);
        let characters = [vec![b'/', units], vec![b':', units], vec![tens, b'/'], vec![tens, b':']];
        for beyond in numbers.into_iter().filter(|number| number.len() == 2).chain(characters) {
            if table.named(&beyond).is_some() {
                carried += 1;
                continue;
            }
            let fields = Fields::sound(kind, &mut random);
            let other = fields.clone().put_alone(1, &beyond);
            let what = || format!("type {} as {}", kind.code, beyond.escape_ascii());
            try_edge(&table, &fields.body(), &other.body(), whole(TYPE), &what);
            tried += 1;
        }
    }
    // Two numbers and four characters, but no number of two digits comes after 99.
    let wanted: usize = table.kinds.iter().map(|kind| if kind.code == "99" { 5 } else { 6 }).sum();
    assert!(tried + carried >= wanted);
    report(&format!("edges of type numbers: {tried}; {carried} neighbours are types themselves"));
}

// Lengths.

/// Tries a record with its last byte missing and with one byte more.
fn try_length(table: &Table, body: &[u8], what: &dyn Fn() -> String) -> usize {
    try_edge(table, body, &body[..body.len() - 1], whole(LENGTH), what);
    try_edge(table, body, &[body, b" "].concat(), whole(LENGTH), what);
    2
}

#[test]
fn record_lengths() {
    let (table, mut random) = (Table::read(), Random::new(13));
    let mut tried = 0;
    for kind in &table.kinds {
        let fields = Fields::sound(kind, &mut random);
        tried += try_length(&table, &fields.body(), &|| format!("type {}", kind.code));
        if kind.is_variable() {
            let bare = fields.with_parts_of(0).body();
            assert_eq!(bare.len(), kind.fixed_length);
            tried += try_length(&table, &bare, &|| format!("the fixed part of type {}", kind.code));
        }
    }
    assert!(tried >= 2 * (table.kinds.len() + variable_kinds(&table).count()));
    report(&format!("edges of lengths: {tried}, one byte less and one more"));
}

/// Document 01: a length below 2 is LENGTH before the type is looked at.
#[test]
fn lengths_below_two() {
    let table = Table::read();
    let numbers: Vec<Vec<u8>> = (0..100).map(|number| digits_of(number, 2)).collect();
    for number in &numbers {
        let of_two = if table.named(number).is_some() { LENGTH } else { TYPE };
        assert_eq!(agreed(&table, &[]), whole(LENGTH));
        assert_eq!(agreed(&table, &number[..1]), whole(LENGTH), "{}", number.escape_ascii());
        assert_eq!(agreed(&table, number), whole(of_two), "{}", number.escape_ascii());
    }
    report(&format!("edges of the least length: {} type numbers of no byte, one and two", numbers.len()));
}

/// The least and the greatest stated length, and 1.
fn stated_lengths(sizing: &Field) -> [usize; 3] {
    [0, 1, value_of(sizing.values[0].high)]
}

/// A part of the stated length, one byte less and one more; and the same bytes with a stated length one less and one more.
fn try_part(table: &Table, fields: &Fields, part: &Field, sizing: &Field, stated: usize) -> usize {
    let what = || format!("field {} of {stated} bytes", part.number);
    let right = fields.clone().put(part.number, &vec![b'0'; stated]);
    let inside = right.body();
    let neighbours = [stated.checked_sub(1), Some(stated + 1)];
    let mut tried = 0;
    for length in neighbours.into_iter().flatten() {
        let other_bytes = right.clone().put_alone(part.number, &vec![b'0'; length]);
        try_edge(table, &inside, &other_bytes.body(), whole(LENGTH), &what);
        tried += 1;
        let digits = digits_of(length, sizing.size);
        if digits.len() == sizing.size {
            try_edge(table, &inside, &right.clone().put_alone(sizing.number, &digits).body(), whole(LENGTH), &what);
            tried += 1;
        }
    }
    tried
}

/// Clauses 12, 17 and 22: a part is as long as its length says.
#[test]
fn part_lengths() {
    let (table, mut random) = (Table::read(), Random::new(14));
    let (mut tried, mut sized) = (0, 0);
    for kind in variable_kinds(&table) {
        for (part, sizing) in parts_of(kind) {
            for stated in stated_lengths(sizing) {
                let fields = Fields::sound(kind, &mut random);
                tried += try_part(&table, &fields, part, sizing, stated);
            }
            sized += 1;
        }
        let longest = parts_of(kind).fold(Fields::sound(kind, &mut random), |fields, (part, sizing)| {
            fields.put(part.number, &vec![b'0'; stated_lengths(sizing)[2]])
        });
        tried += try_length(&table, &longest.body(), &|| format!("the longest record of type {}", kind.code));
    }
    // Of three lengths each two neighbours, as bytes and as stated; but 0 has none below it, and none above the greatest can be stated.
    assert!(tried >= sized * (3 * 4 - 2 - 1) + 2 * variable_kinds(&table).count());
    report(&format!("edges of stated lengths: {tried} over {sized} parts, from 0 bytes to the longest"));
}

/// The last byte of a part and the first of the next: the same byte is judged by the one or by the other.
#[test]
fn borders_of_parts() {
    let (table, mut random) = (Table::read(), Random::new(15));
    let (mut tried, mut borders) = (0, 0);
    for kind in variable_kinds(&table) {
        let fields = Fields::sound(kind, &mut random).with_parts_of(2);
        let parts: Vec<&Field> = parts_of(kind).map(|(part, _)| part).collect();
        for pair in parts.windows(2) {
            for byte in [b'A', 0x7F] {
                for (part, contents) in [(pair[0], [b'0', byte]), (pair[1], [byte, b'0'])] {
                    let passes = has(part.data_type, byte);
                    let expected = if passes { whole(ACCEPTED) } else { at_field(part.number) };
                    let body = fields.clone().put(part.number, &contents).body();
                    assert_eq!(agreed(&table, &body), expected, "{}.{} {byte:02X}", kind.code, part.number);
                }
                tried += 1;
            }
        }
        borders += parts.len() - 1;
    }
    assert!(tried >= 2 * borders);
    report(&format!("edges between parts: {tried} over {borders} borders"));
}

// Clipping.

/// Clause 22.9 and document 01: origin 0 asks coordinates of 0000, each digit of them; any other origin asks none.
#[test]
fn clipping() {
    let (table, mut random) = (Table::read(), Random::new(16));
    let kind = table.kind("52");
    let (coordinates, mut tried) = (10..=13, 0);
    for coordinate in coordinates.clone() {
        for at in 0..kind.field(coordinate).size {
            for digit in b'1'..=b'9' {
                let clear = Fields::sound(kind, &mut random).put(9, b"0");
                let mut contents = *b"0000";
                contents[at] = digit;
                let set = clear.clone().put_alone(coordinate, &contents);
                let what = || format!("52.{coordinate} as {}", contents.escape_ascii());
                try_edge(&table, &clear.body(), &set.body(), at_field(coordinate), &what);
                for origin in b'1'..=b'4' {
                    let clipped = set.clone().put_alone(9, &[origin]);
                    try_edge(&table, &clipped.body(), &set.body(), at_field(coordinate), &what);
                }
                tried += 1;
            }
        }
    }
    assert!(tried >= coordinates.map(|coordinate| 9 * kind.field(coordinate).size).sum::<usize>());
    report(&format!("edges of clipping: {tried}, each coordinate's digits with and without an origin"));
}

// The order of checks.

/// The fields that can be at fault.
fn judged_fields(kind: &Kind) -> Vec<&Field> {
    kind.fields.iter().filter(|field| field.number != 1 && field.data_type != "Binary").collect()
}

fn with_fault<'k>(fields: &Fields<'k>, field: &Field) -> Fields<'k> {
    let mut contents = fields.of(field.number).to_vec();
    *contents.last_mut().expect("a field has a byte") = NO_CHARACTER;
    fields.clone().put_alone(field.number, &contents)
}

/// Document 01: FIELD from the lowest number. Of two faults the lower answers, and without it the higher.
#[test]
fn the_lowest_field_answers() {
    let (table, mut random) = (Table::read(), Random::new(17));
    let (mut tried, mut wanted) = (0, 0);
    for kind in &table.kinds {
        let judged = judged_fields(kind);
        wanted += judged.len() * (judged.len() - 1) / 2;
        for (lower, higher) in (0..judged.len()).flat_map(|high| (0..high).map(move |low| (low, high))) {
            let [lower, higher] = [judged[lower], judged[higher]];
            let sound = Fields::sound(kind, &mut random).with_parts_of(2);
            let one = with_fault(&sound, higher);
            assert_eq!(agreed(&table, &one.body()), at_field(higher.number), "type {}", kind.code);
            assert_eq!(agreed(&table, &with_fault(&one, lower).body()), at_field(lower.number), "type {}", kind.code);
            tried += 1;
        }
    }
    assert!(tried >= wanted);
    report(&format!("edges of order: {tried} pairs of fields at fault, the lower answers"));
}

/// Document 01: LENGTH for too short and for a fixed record too long, FIELD over fixed fields, LENGTH for a variable record that differs
/// from its stated lengths, FIELD over its parts.
#[test]
fn lengths_and_fields_in_their_order() {
    let (table, mut random) = (Table::read(), Random::new(18));
    let (mut tried, mut wanted) = (0, 0);
    for kind in &table.kinds {
        for field in judged_fields(kind) {
            let fault = with_fault(&Fields::sound(kind, &mut random).with_parts_of(2), field).body();
            let fixed_of_variable = kind.is_variable() && field.stated_by.is_none();
            let longer = if fixed_of_variable { at_field(field.number) } else { whole(LENGTH) };
            let shortest = &fault[..kind.fixed_length - 1];
            assert_eq!(agreed(&table, &fault), at_field(field.number), "{}.{}", kind.code, field.number);
            assert_eq!(agreed(&table, shortest), whole(LENGTH), "{}.{} short", kind.code, field.number);
            let long = [&fault[..], b" "].concat();
            assert_eq!(agreed(&table, &long), longer, "{}.{} long", kind.code, field.number);
            tried += 2;
        }
        wanted += 2 * judged_fields(kind).len();
    }
    assert!(tried >= wanted);
    report(&format!("edges of order: {tried} faults in records too short and too long"));
}
