//! Routing numbers: every form, every near miss and every string of digits, dashes and blanks in each of the sixteen routing fields. What
//! passes comes from request 1 and its readings (`src/routing.rs`); the judge, the independent reader of `peer/` and the proved library are
//! each held against it.

use peer_reader::{judge as reader, layout};
use record_tests::generate::sound_record;
use record_tests::judge::{self, at_field, whole, Answer, ACCEPTED, LENGTH};
use record_tests::random::Random;
use record_tests::routing::{fields, filled, near, patterns, strings_over, Taken, SIZE};
use record_tests::table::{Field, Kind, Table};
use record_tests::{ffi, report};

/// A sound record is drawn anew after so many contents.
const CONTENTS_A_RECORD: usize = 500;

/// Nine characters out of three, and out of four.
const OF_THREE: usize = 19_683;
const OF_FOUR: usize = 262_144;

/// A judge of one record.
type Judge = fn(&Table, &[u8]) -> Answer;

fn by_judge(table: &Table, body: &[u8]) -> Answer {
    judge::record(table, body)
}

fn by_library(_: &Table, body: &[u8]) -> Answer {
    ffi::record(body)
}

fn by_reader(_: &Table, body: &[u8]) -> Answer {
    let code = layout::carried(&body[..2]).expect("a type that is carried");
    match reader::record(layout::layout(code), body) {
        Ok(()) => whole(ACCEPTED),
        Err(reader::Flaw::Length) => whole(LENGTH),
        Err(reader::Flaw::Field(field)) => at_field(field.into()),
    }
}

/// Puts contents into a routing field of sound records, one after another. The answer is the one expected; counts those that pass.
fn put(table: &Table, (kind, field): (&Kind, &Field), judge: Judge, contents: impl Iterator<Item = Vec<u8>>) -> usize {
    let (taken, mut random) = (Taken::by(field), Random::new(field.number));
    let (mut body, mut passed) = (Vec::new(), 0);
    for (turn, contents) in contents.enumerate() {
        if turn % CONTENTS_A_RECORD == 0 {
            body = sound_record(kind, &mut random);
        }
        body[field.start..field.start + SIZE].copy_from_slice(&contents);
        let passes = taken.passes(&contents);
        let expected = if passes { whole(ACCEPTED) } else { at_field(field.number) };
        let shown = || format!("{}.{} as '{}'", kind.code, field.number, contents.escape_ascii());
        assert_eq!(judge(table, &body), expected, "{}", shown());
        passed += usize::from(passes);
    }
    passed
}

/// Every string of digits, dashes and blanks, once with digits whose weighted sum is a multiple of ten and once with others.
fn every_pattern(right: bool) -> impl Iterator<Item = Vec<u8>> {
    let mut random = Random::new(31);
    strings_over(b"9- ").map(move |pattern| filled(&pattern, right, &mut random))
}

/// By hand: how many of the strings over digit, dash and blank pass, with a right check digit and with a wrong one.
fn counted(field: &Field) -> (usize, usize) {
    match field.format {
        // 45 runs of digits, TTTTAAAAC and bTTTTAAAA among them, and TTTTT-FFF.
        "routing:TTTTAAAAC,TTTTT-FFF,NONFIN" => (46, 46),
        // TTTTAAAAC and TTTTT-FFF in 61.5, which is mandatory; without the first.
        "routing:TTTTAAAAC,TTTTT-FFF" if field.mandatory => (2, 1),
        // The same, and all blank, since these fields are conditional.
        "routing:TTTTAAAAC,TTTTT-FFF" => (3, 2),
        // The four forms; without TTTTAAAAC.
        "routing:TTTTAAAAC,TTTTT-FFF,TTTT-AAAA,bTTTTAAAA" => (4, 3),
        other => panic!("no field lists {other}"),
    }
}

/// All that is tried, on one judge.
fn try_all(judge: Judge, name: &str) {
    let (table, mut random) = (Table::read(), Random::new(32));
    let (mut tried, mut passed) = (0, 0);
    for place in fields(&table) {
        let field = place.1;
        let both = [true, false].map(|right| put(&table, place, judge, every_pattern(right)));
        assert_eq!((both[0], both[1]), counted(field), "{}.{}", place.0.code, field.number);
        let near: Vec<Vec<u8>> = patterns().iter().flat_map(|pattern| near(pattern, &mut random)).collect();
        tried += 2 * OF_THREE + near.len();
        passed += both[0] + both[1] + put(&table, place, judge, near.into_iter());
        if field.data_type == "NBMcd" {
            // With a mark all pass; without one, the forms that the field lists: four in 25.4 and 31.4, two in 61.5.
            let marked = strings_over(b"9- *").map(|pattern| filled(&pattern, true, &mut random));
            let all = OF_FOUR - OF_THREE + if place.0.code == "61" { 2 } else { 4 };
            assert_eq!(put(&table, place, judge, marked), all);
            (tried, passed) = (tried + OF_FOUR, passed + all);
        }
    }
    report(&format!("routing numbers, {name}: {tried} contents over {} fields, {passed} pass", fields(&table).len()));
}

#[test]
fn the_judge_takes_what_the_readings_say() {
    try_all(by_judge, "judge");
}

#[test]
fn the_independent_reader_takes_what_the_readings_say() {
    try_all(by_reader, "independent reader");
}

#[test]
fn the_library_takes_what_the_readings_say() {
    try_all(by_library, "library");
}

/// Request 1 by hand: the forms of each field, as its clause prints them.
#[test]
fn sixteen_fields_and_their_forms() {
    let table = Table::read();
    let listed: Vec<(&str, u64, &str)> = fields(&table)
        .iter()
        .map(|(kind, field)| (kind.code, field.number, &field.format["routing:".len()..]))
        .collect();
    let non_financial_too = "TTTTAAAAC,TTTTT-FFF,NONFIN";
    let financial_alone = "TTTTAAAAC,TTTTT-FFF";
    let of_the_payor = "TTTTAAAAC,TTTTT-FFF,TTTT-AAAA,bTTTTAAAA";
    let expected = [
        ("01", 4, non_financial_too),
        ("01", 5, non_financial_too),
        ("10", 3, non_financial_too),
        ("10", 4, non_financial_too),
        ("20", 3, non_financial_too),
        ("20", 4, non_financial_too),
        ("20", 10, financial_alone),
        ("25", 4, of_the_payor),
        ("26", 3, financial_alone),
        ("28", 3, financial_alone),
        ("31", 4, of_the_payor),
        ("32", 3, financial_alone),
        ("35", 3, financial_alone),
        ("50", 3, non_financial_too),
        ("52", 2, non_financial_too),
        ("61", 5, financial_alone),
    ];
    assert_eq!(listed, expected);
    assert!(fields(&table).iter().all(|(_, field)| field.size == SIZE));
    report("routing fields: 16 with the forms of their clauses");
}
