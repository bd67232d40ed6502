//! The table of kinds beside the fields' list of the record tests, which was made from the standard on its own.

use peer_reader::charset::{Set, Text};
use peer_reader::judge::of_type;
use peer_reader::layout::Type;
use x9180::{DataType, Form, Kind, Place, Usage, KINDS};

#[test]
fn every_field_of_the_list_stands_in_the_table() {
    let list = std::fs::read_to_string(concat!(env!("CARGO_MANIFEST_DIR"), "/../../tests/fields.tsv")).unwrap();
    let mut counts = std::collections::BTreeMap::new();
    for line in list.lines().skip(1) {
        let [record_type, number, name, usage, start, size, data_type, format, values, _clause] =
            line.split('\t').collect::<Vec<_>>()[..]
        else {
            panic!("{line}");
        };
        let kind = Kind::of(record_type.parse().unwrap()).unwrap();
        let field = kind.field(number.parse().unwrap()).unwrap();
        assert_eq!(field.name, name, "{line}");
        assert_eq!(field.usage == Usage::Mandatory, usage == "M", "{line}");
        assert_eq!(format!("{:?}", field.data_type), data_type, "{line}");
        match field.place {
            Place::Positions(first, last) => {
                assert_eq!((first.to_string(), (last + 1 - first).to_string()), (start.into(), size.into()), "{line}");
            }
            Place::SizedBy(sizing) => assert_eq!(format!("var:{sizing}"), size, "{line}"),
        }
        match field.form {
            Form::Date => assert_eq!(format, "date", "{line}"),
            Form::HourMinute => assert_eq!(format, "hhmm", "{line}"),
            Form::HourMinuteSecond => assert_eq!(format, "hhmmss", "{line}"),
            Form::Routing(forms) => {
                let patterns: Vec<&str> = forms.iter().map(|form| form.pattern()).collect();
                assert_eq!(format!("routing:{}", patterns.join(",")).replace("NNNNNNNNN", "NONFIN"), format, "{line}");
            }
            // House: 70.4 is all blank or all digits.
            Form::Digits => assert_eq!((record_type, number, data_type), ("70", "4", "NB"), "{line}"),
            Form::OneOrTwoDigits => assert!(values.starts_with("0|1|2|3") && values.ends_with("-99(r)"), "{line}"),
            Form::Values(listed) => assert_eq!(listed.replace(", ", "|"), values.replace("(r)", ""), "{line}"),
            Form::TypeAlone => {
                assert_eq!(format, "none", "{line}");
                assert!(matches!(values, "none" | "annexG") || values.starts_with("if F12"), "{line}");
            }
        }
        *counts.entry(kind.number).or_insert(0) += 1;
    }
    assert!(counts.len() >= 19 && counts.values().sum::<usize>() >= 303);
    for (number, count) in counts {
        assert_eq!(Kind::of(number).unwrap().fields.len(), count, "type {number}");
    }
}

#[test]
fn kinds_and_fields_rise() {
    assert!(KINDS.windows(2).all(|pair| pair[0].number < pair[1].number));
    for kind in KINDS {
        assert!(kind.fields.iter().map(|field| field.number).eq(1..=kind.fields.len() as u64), "{kind}");
    }
}

/// What is asked of routing fields, by request 1: TTTTAAAAC and TTTTT-FFF everywhere, and what else the clause prints.
#[test]
fn words_of_routing_fields() {
    let asked = |kind: u64, field: u64| Kind::of(kind).unwrap().field(field).unwrap().asked();
    let forms =
        "a routing number in one of these forms: TTTTAAAAC (nine digits, the ninth the check digit of the ABA rule)";
    let canadian = "TTTTT-FFF (five digits, a dash, three digits)";
    for (kind, field) in [(1, 4), (1, 5), (10, 3), (10, 4), (20, 3), (20, 4), (50, 3), (52, 2)] {
        let other =
            "NNNNNNNNN (the number of a non-financial institution: one to nine digits side by side, the rest blank)";
        assert_eq!(asked(kind, field), format!("{forms}, {canadian} or {other}"));
    }
    for (kind, field) in [(20, 10), (26, 3), (28, 3), (32, 3), (35, 3)] {
        assert_eq!(asked(kind, field), format!("all blank, or {forms} or {canadian}"));
    }
    for (kind, field) in [(25, 4), (31, 4)] {
        let others = "TTTT-AAAA (four digits, a dash, four digits) or bTTTTAAAA (a blank, eight digits)";
        let mark = "unless it holds a can't-read mark *";
        assert_eq!(asked(kind, field), format!("{forms}, {canadian}, {others}, {mark}"));
    }
    assert_eq!(asked(61, 5), format!("{forms} or {canadian}, unless it holds a can't-read mark *"));
}

/// Request 4: what a draft does not give, beside field 1 of every record.
#[test]
fn worked_out_fields() {
    for kind in KINDS.iter().filter(|kind| kind.is_carried()) {
        let expected: &[u64] = match kind.number {
            27 | 34 => &[1, 6, 7, 8, 9, 10, 11],
            52 => &[1, 15, 16, 17, 18, 19, 20, 21],
            25 => &[1, 12],
            31 => &[1, 8],
            26 | 28 | 32 | 35 => &[1, 2],
            70 => &[1, 2, 3, 4, 5, 6, 7],
            90 => &[1, 2, 3, 4, 5, 8, 9],
            99 => &[1, 2, 3, 4, 5, 8],
            _ => &[1],
        };
        let worked_out = kind.fields.iter().map(|field| field.number).filter(|field| kind.works_out(*field));
        assert!(worked_out.eq(expected.iter().copied()), "{kind}");
    }
    let most = |kind, field| Kind::of(kind).unwrap().most(field);
    assert_eq!([(25, 6), (25, 15), (27, 13), (27, 14), (27, 18)].map(|(k, f)| most(k, f)), [10, 0, 9_999, 99, 99_999]);
    assert_eq!([(52, 22), (52, 23), (52, 27)].map(|(k, f)| most(k, f)), [9_999, 99_999, 9_999_999]);
}

/// The characters of each data type beside those of the independent reader.
#[test]
fn characters_of_the_data_types() {
    let types = [
        (DataType::A, Type::Alphabetic),
        (DataType::AB, Type::AllBlank),
        (DataType::AN, Type::Alphanumeric),
        (DataType::ANS, Type::AlphanumericSpecial),
        (DataType::N, Type::Numeric),
        (DataType::NB, Type::NumericBlank),
        (DataType::NBD, Type::NumericBlankDash),
        (DataType::NBQ, Type::NumericBlankQuestion),
        (DataType::NBMc, Type::MicrCantRead),
        (DataType::NBMcd, Type::MicrDash),
        (DataType::NBMcdo, Type::MicrOnUs),
        (DataType::NBMU, Type::MicrUnparsed),
    ];
    for (ours, theirs) in types {
        for byte in 0..=255 {
            let admitted = of_type(theirs, Text::new(Set::Ascii, &[byte]));
            assert_eq!(ours.admits(char::from(byte)), admitted, "{ours:?} {byte:02X}");
        }
        assert!(!ours.admits('\u{30a}') && !ours.admits('\u{ff11}'));
    }
    assert!((0..=255).all(|byte| !DataType::Binary.admits(char::from(byte))));
}
