//! One record alone: the library and the independent judge, side by side. The edges of every field's rule, each with its answer from the
//! documents, are in `edges.rs`.

use record_tests::edges::bytes_at_edges;
use record_tests::generate::{digits_of, routing, sound_record};
use record_tests::judge::{at_field, parts, whole, Answer, ACCEPTED, LENGTH, TYPE};
use record_tests::random::Random;
use record_tests::routing::{filled, patterns};
use record_tests::table::{Field, Kind, Table};
use record_tests::{agreed, report};
use std::collections::BTreeMap;
use std::sync::LazyLock;

/// Bytes on both sides of every end of clause 5's data types and of the one-character values of the table.
static EDGES: LazyLock<Vec<u8>> = LazyLock::new(|| bytes_at_edges(&Table::read()));

/// Start and size of the field in this record.
fn span(kind: &Kind, field: &Field, body: &[u8]) -> (usize, usize) {
    let part = parts(kind, body).into_iter().find(|part| part.field.number == field.number);
    part.map_or((field.start, field.size), |part| (part.start, part.length))
}

fn with(body: &[u8], start: usize, bytes: &[u8]) -> Vec<u8> {
    let mut changed = body.to_vec();
    changed[start..start + bytes.len()].copy_from_slice(bytes);
    changed
}

#[test]
fn the_table_is_whole() {
    let table = Table::read();
    let fields: usize = table.kinds.iter().map(|kind| kind.fields.len()).sum();
    let lengths: Vec<usize> = table.kinds.iter().map(|kind| kind.fixed_length).collect();
    // 01 10 20 25, 26, 27, 28 31, 32, 33, 34, 35 50, 52, 54, 61, 70, 90, 99
    assert_eq!(lengths, [80, 80, 80, 80, 115, 73, 80, 80, 115, 80, 73, 80, 80, 139, 80, 84, 80, 85, 80]);
    // In words, the first sentence of each clause: "contains fourteen fields" and so on.
    let counts: Vec<usize> = table.kinds.iter().map(|kind| kind.fields.len()).collect();
    assert_eq!(counts, [14, 14, 13, 14, 14, 18, 14, 9, 14, 11, 18, 14, 23, 28, 47, 12, 9, 9, 8]);
    report(&format!("table: {} kinds, {fields} fields, no gap between fixed fields", table.kinds.len()));
}

#[test]
fn sound_records_are_accepted() {
    let (table, mut random) = (Table::read(), Random::new(1));
    for kind in &table.kinds {
        for _ in 0..2_000 {
            let body = sound_record(kind, &mut random);
            assert_eq!(agreed(&table, &body), whole(ACCEPTED), "{}", body.escape_ascii());
        }
    }
    report(&format!("sound records: {} accepted by both", 2_000 * table.kinds.len()));
}

/// Type, field, contents that leave a sound record sound, contents that are refused: written by hand from the documents.
type Stated = (&'static str, u64, &'static [&'static str], &'static [&'static str]);
const STATED: &[Stated] = &[
    ("01", 2, &["20"], &["04"]),
    ("01", 3, &["P", "p"], &["C", " "]),
    ("01", 4, &["123456780", "123456781", "12345-678", "1234567  "], &["1234-5678", "1234567-8", "         "]),
    ("01", 5, &["        7", "   7     ", " 12345678"], &["7       7", "123 45678", "123-45   ", "123456a80"]),
    ("01", 6, &["20050230", "19930101", "99991231"], &["19921231", "20051301", "20050100", "20050132", "        "]),
    ("01", 7, &["2359", "0000"], &["2400", "0060", "    "]),
    ("01", 8, &["n"], &[" "]),
    ("10", 2, &["99", "86"], &["02"]),
    ("10", 9, &["z", " "], &["N"]),
    ("10", 13, &["60", "99"], &["00"]),
    ("20", 2, &["86"], &["10", "20", "99"]),
    ("20", 8, &["  12", " 12 "], &["1  2"]),
    ("20", 4, &["123456781", "12345-678", "1        "], &["1234-5678", "12345 678", "12345_678"]),
    ("20", 10, &["         ", "123456780", "12345-678"], &["123456781", " 12345678", "1234-5678", "12345-67 "]),
    ("25", 4, &["123456780", "12345-678", "1234-5678", " 12345678"], &["123456781", "12345678 ", "123-45678"]),
    ("25", 4, &["1234*6781", " 1 -* 3 -", "*********"], &["12345?781", "12345*78A", "        1", "         "]),
    ("25", 6, &["0000000000"], &["000000000 "]),
    ("25", 7, &["               "], &["1             2"]),
    ("25", 9, &["f", "9"], &["G"]),
    ("25", 12, &["00", "99"], &["  "]),
    ("25", 14, &["i"], &["J"]),
    ("26", 4, &["        "], &["2005??01"]),
    ("28", 3, &["         ", "123456780", "00000-000"], &["123456789", "1        ", "12345678*", "12345--78"]),
    ("31", 4, &["12345-678", "1234-5678", " 12345678"], &["123456781", "-12345678", "1234567  ", " 1234-567"]),
    ("32", 4, &["2005??01", "?       "], &["2005? 01", "20051301"]),
    ("33", 2, &["  ", "zZ"], &["-1"]),
    ("50", 5, &["99"], &["  "]),
    ("50", 11, &["7 ", " 7", "77", "  "], &["7A"]),
    ("50", 13, &["~t163K1~~~"], &["t163K1\n   "]),
    ("50", 15, &["02"], &["7 "]),
    ("50", 20, &["r", "0"], &["S", "1"]),
    ("52", 2, &["123456781", "12345-678", "  123    "], &["1234-5678", "  1 3    ", "12345678*", "         "]),
    ("52", 5, &["               "], &["0 0            "]),
    ("52", 14, &["88"], &[" 1"]),
    ("52", 15, &[], &["    "]),
    ("54", 2, &["2"], &[" ", "3"]),
    ("54", 13, &[" "], &["0"]),
    ("61", 2, &["1", "8", "9", " "], &["0", "A", "-"]),
    ("61", 3, &["1-2* 3         ", "               "], &["1-2/ 3         ", "1-2? 3         "]),
    ("61", 4, &["*", "0", " "], &["-", "A"]),
    ("61", 5, &["123456780", "12345-678", "12345678*", "1 2-3*4 5"], &["123456781", "1234-5678", " 12345678"]),
    ("61", 5, &["*********"], &["         ", "1        ", "12345678 ", "12345*78A", "12345678?"]),
    ("61", 6, &["1/2-3 *             ", "                    "], &["A                   ", "1#                  "]),
    ("61", 7, &["00000000000000", "99999999999999"], &["              ", "             1", "1             "]),
    ("61", 8, &["               ", " 12            ", "000000000000001"], &["1 2            ", "-              "]),
    ("61", 9, &["A", "M", "a", "m", " "], &["N", "n", "@", "1"]),
    ("61", 10, &["1", "5", "A", "J", "a", "j", " "], &["0", "6", "9", "K", "k", "@"]),
    ("61", 11, &["01", "09", "10", "11", "21", "50", "51", "99", "  "], &["00", "12", "20", "1 ", " 1", "A1", "1A"]),
    ("61", 12, &["   "], &["  0", "0  ", "A  "]),
    ("70", 4, &["            ", "000000000012"], &["1           "]),
    ("90", 2, &["000000"], &["     0"]),
];

#[test]
fn stated_cases() {
    let (table, mut random) = (Table::read(), Random::new(2));
    let mut cases = 0;
    for (code, number, sound, refused) in STATED {
        let kind = table.kind(code);
        let field = kind.field(*number);
        let sound = sound.iter().map(|text| (text, whole(ACCEPTED)));
        for (text, expected) in sound.chain(refused.iter().map(|text| (text, at_field(*number)))) {
            assert_eq!(text.len(), field.size, "{code}.{number} '{text}'");
            for _ in 0..20 {
                let body = with(&sound_record(kind, &mut random), field.start, text.as_bytes());
                assert_eq!(agreed(&table, &body), expected, "{code}.{number} as '{text}'");
            }
            cases += 1;
        }
    }
    report(&format!("stated cases: {cases} answers written by hand, 20 records each"));
}

/// Other contents of the same size for a field that holds `old`.
fn replacements(old: &[u8], random: &mut Random) -> Vec<Vec<u8>> {
    let size = old.len();
    let mut list: Vec<Vec<u8>> = b" 09*?-AaZz".iter().map(|byte| vec![*byte; size]).collect();
    for _ in 0..8 {
        for characters in [&b"0123456789"[..], b" 0123456789", b" -*?/0123456789", &EDGES] {
            list.push(random.bytes(characters, size));
        }
        list.push((0..size).map(|_| random.any_byte()).collect());
    }
    for at in 0..size.min(64) {
        let digits = random.bytes(b"0123456789", size);
        list.push(with(old, at, b" "));
        list.push(with(&digits, at, &[random.pick(b" ?*-")]));
        list.push(with(&vec![b' '; size], at, &[random.pick(b"0123456789?*-")]));
    }
    match size {
        4 => list.extend((0..100).flat_map(|n| [digits_of(n, 4), digits_of(n * 100, 4)])),
        6 => list.extend((0..100).flat_map(|n| [digits_of(n, 6), digits_of(n * 100, 6), digits_of(n * 10_000, 6)])),
        8 => list.extend(dates()),
        9 => list.extend(routings(random)),
        _ => (),
    }
    list
}

/// Every pair of bytes at edges, which takes in each two-digit number.
fn pairs() -> Vec<Vec<u8>> {
    EDGES.iter().flat_map(|first| EDGES.iter().map(|second| vec![*first, *second])).collect()
}

/// Each month and each day from 00 to 99, and the years at the edges.
fn dates() -> Vec<Vec<u8>> {
    let mut list: Vec<Vec<u8>> = [0, 1992, 1993, 9999].iter().map(|year| digits_of(year * 10_000 + 101, 8)).collect();
    list.extend((0..100).flat_map(|n| [digits_of(20_050_001 + n * 100, 8), digits_of(20_050_200 + n, 8)]));
    list.extend(
        [b"19921231", b"2005 101", b"2005??01", b" 0050101", b"2005010 ", b"?0051301"].map(|date| date.to_vec()),
    );
    list
}

/// Every pattern of every form, and a sound number with one character changed or two exchanged. More of them are in `routing.rs`.
fn routings(random: &mut Random) -> Vec<Vec<u8>> {
    let both = |pattern: Vec<u8>| [true, false].map(|right| filled(&pattern, right, random));
    let mut list: Vec<Vec<u8>> = patterns().into_iter().flat_map(both).collect();
    let sound = routing(random);
    for at in 0..9 {
        list.extend(b"0123456789 -*?".iter().map(|byte| with(&sound, at, &[*byte])));
    }
    list.extend((0..8).map(|at| with(&sound, at, &[sound[at + 1], sound[at]])));
    list
}

/// Changes one field of sound records in many ways and counts the answers.
fn change_field(table: &Table, kind: &Kind, field: &Field, random: &mut Random) -> BTreeMap<Answer, u64> {
    let every_byte: Vec<u8> = (0..=255).collect();
    let mut answers = BTreeMap::new();
    let mut count = |body: Vec<u8>| *answers.entry(agreed(table, &body)).or_insert(0) += 1;
    let mut rounds = 0;
    while rounds < 6 {
        let body = sound_record(kind, random);
        let (start, size) = span(kind, field, &body);
        let bytes = if rounds == 0 { &every_byte } else { &*EDGES };
        for at in (0..size).filter(|at| *at < 32 || *at + 32 >= size) {
            bytes.iter().for_each(|byte| count(with(&body, start + at, &[*byte])));
        }
        if size > 0 {
            rounds += 1;
            let pairs = if size == 2 && rounds <= 3 { pairs() } else { Vec::new() };
            let list = [replacements(&body[start..start + size], random), pairs].concat();
            list.iter().for_each(|replacement| count(with(&body, start, replacement)));
        }
    }
    answers
}

#[test]
fn every_field_changed() {
    let (table, mut random) = (Table::read(), Random::new(3));
    let (mut compared, mut refused) = (0, 0);
    for (kind, field) in table.kinds.iter().flat_map(|kind| kind.fields.iter().map(move |field| (kind, field))) {
        let answers = change_field(&table, kind, field, &mut random);
        let named = format!("{}.{} {}", kind.code, field.number, field.name);
        let at_this = answers.get(&at_field(field.number)).copied().unwrap_or(0);
        assert!(answers.contains_key(&whole(ACCEPTED)), "{named}: never accepted");
        if field.number == 1 {
            assert!(answers.contains_key(&whole(TYPE)) && at_this == 0, "{named}: a wrong type is TYPE");
        } else if field.data_type == "Binary" {
            assert_eq!(answers.len(), 1, "{named}: Binary is never judged");
        } else {
            assert!(at_this > 0, "{named}: never refused");
        }
        compared += answers.values().sum::<u64>();
        refused += at_this;
    }
    assert!(compared >= 200_000);
    report(&format!("one field changed: {compared} comparisons, {refused} refused at that field"));
}

#[test]
fn several_bytes_damaged() {
    let (table, mut random) = (Table::read(), Random::new(4));
    let mut accepted = 0;
    for kind in &table.kinds {
        for _ in 0..8_000 {
            let mut body = sound_record(kind, &mut random);
            for _ in 0..random.between(2, 5) {
                let at = random.between(2, body.len() - 1);
                body[at] = random.pick(&EDGES);
            }
            if random.one_in(8) {
                body.pop();
            }
            accepted += u64::from(agreed(&table, &body) == whole(ACCEPTED));
        }
    }
    report(&format!("several bytes damaged: {} comparisons, {accepted} accepted", 8_000 * table.kinds.len()));
}

#[test]
fn wrong_lengths() {
    let (table, mut random) = (Table::read(), Random::new(6));
    let mut compared = 0;
    for kind in &table.kinds {
        for _ in 0..20 {
            let body = sound_record(kind, &mut random);
            for length in 0..body.len() {
                assert_eq!(agreed(&table, &body[..length]), whole(LENGTH), "cut to {length}");
            }
            for more in [1, 2, 3, 4, 80, 1000] {
                let longer = [body.clone(), vec![b' '; more]].concat();
                assert_eq!(agreed(&table, &longer), whole(LENGTH), "{more} longer");
            }
            compared += body.len() + 6;
        }
    }
    report(&format!("wrong lengths: {compared} records, all LENGTH"));
}

#[test]
fn every_type_number() {
    let table = Table::read();
    for code in ["40", "41", "55", "56", "64", "68", "75", "85", "00", "AB"] {
        for length in [2, 3, 73, 80, 84, 115, 200] {
            let body = format!("{code:length$}");
            assert_eq!(agreed(&table, body.as_bytes()), whole(TYPE), "{code}");
            assert_eq!(agreed(&table, &body.as_bytes()[..1]), whole(LENGTH), "{code}");
        }
    }
    for code in 0..=u16::MAX {
        let mut body = code.to_be_bytes().to_vec();
        body.resize(80, b' ');
        let carried = table.named(&body[..2]).is_some();
        assert_eq!(agreed(&table, &body) == whole(TYPE), !carried, "{}", body.escape_ascii());
    }
    report("type numbers: each of the 65536 pairs of bytes, and 70 records of types not carried");
}

#[test]
fn stated_lengths_changed() {
    let (table, mut random) = (Table::read(), Random::new(7));
    let mut compared = 0;
    for kind in ["27", "34", "52"].map(|code| table.kind(code)) {
        for _ in 0..300 {
            let body = sound_record(kind, &mut random);
            for part in parts(kind, &body) {
                let number = part.field.stated_by.expect("a part has a stated length");
                let Field { start, size, .. } = *kind.field(number);
                let up = with(&body, start, &digits_of(part.length + 1, size));
                let down = with(&body, start, &digits_of(part.length.saturating_sub(1), size));
                assert_eq!(agreed(&table, &up), whole(LENGTH), "field {number} one up");
                assert_eq!(agreed(&table, &down) == whole(LENGTH), part.length > 0, "field {number} one down");
                // A fixed fault comes before the wrong length, the wrong length before a fault in a part.
                assert_eq!(agreed(&table, &with(&up, start, b" ")), at_field(number));
                let bad_parts = vec![0; body.len() - kind.fixed_length];
                assert_eq!(agreed(&table, &with(&up, kind.fixed_length, &bad_parts)), whole(LENGTH));
                compared += 4;
            }
            let count = parts(kind, &body).len();
            move_one_byte(&table, kind, &body, random.below(count), random.below(count));
        }
    }
    report(&format!("stated lengths changed: {compared} records of 27, 34 and 52"));
}

/// Gives a byte of one part to another: the whole length stays right, and the parts between start elsewhere.
fn move_one_byte(table: &Table, kind: &Kind, body: &[u8], from: usize, to: usize) {
    let parts = parts(kind, body);
    if from != to && parts[from].length > 0 {
        let sizing = kind.sizing_fields();
        let (less, more) = (kind.field(sizing[from]), kind.field(sizing[to]));
        let moved = with(body, less.start, &digits_of(parts[from].length - 1, less.size));
        agreed(table, &with(&moved, more.start, &digits_of(parts[to].length + 1, more.size)));
    }
}

/// P6 and P7 of document 01.
#[test]
fn lengths_of_document_01() {
    let (table, mut random) = (Table::read(), Random::new(8));
    let samples =
        [("52", 139, 103, "000000000000000000000000000100000000", 1139), ("27", 73, 51, "00340000000000000", 107)];
    for (code, fixed, at, lengths, whole_length) in samples {
        let body = sound_record(table.kind(code), &mut random);
        let mut body = with(&body[..fixed], at, lengths.as_bytes());
        for length in [whole_length - 1, whole_length, whole_length + 1] {
            body.resize(length, b'L');
            let expected = if length == whole_length { ACCEPTED } else { LENGTH };
            assert_eq!(agreed(&table, &body), whole(expected), "type {code}, {length} bytes");
        }
    }
    report("lengths of document 01: a 52 of 1139 bytes (P6), a 27 of 107 bytes (P7), one byte less and one more");
}
