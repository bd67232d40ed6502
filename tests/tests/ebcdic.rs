//! Single records in EBCDIC (request 5): this package's judge, the judge of the independent reader, and, once it carries EBCDIC, the library.

use peer_reader::charset::{self, EBCDIC_CARRIED};
use peer_reader::judge::{self as reader, Flaw};
use peer_reader::layout;
use record_tests::ebcdic::Set;
use record_tests::generate::{framed, sound_record};
use record_tests::judge::{self, at_field, whole, Answer, ACCEPTED, LENGTH, TYPE};
use record_tests::random::Random;
use record_tests::table::{Kind, Table};
use record_tests::{ffi, report};

/// The judge of the independent reader, which translates where it looks at a character.
fn by_reader(set: Set, body: &[u8]) -> Answer {
    let set = match set {
        Set::Ascii => charset::Set::Ascii,
        Set::Ebcdic => charset::Set::Ebcdic,
    };
    if body.len() < 2 {
        return whole(LENGTH);
    }
    let Some(code) = layout::carried_in(set, &body[..2]) else {
        return whole(TYPE);
    };
    match reader::record_in(set, layout::layout(code), body) {
        Ok(()) => whole(ACCEPTED),
        Err(Flaw::Length) => whole(LENGTH),
        Err(Flaw::Field(number)) => at_field(number.into()),
    }
}

/// Asks all about one record; the common answer comes back.
fn agreed(table: &Table, set: Set, body: &[u8]) -> Answer {
    let expected = judge::record_in(table, set, body);
    assert_eq!(by_reader(set, body), expected, "reader and judge differ on {set:?} {}", body.escape_ascii());
    if EBCDIC_CARRIED {
        assert_eq!(ffi::record_in(body, set), expected, "library and judge differ on {set:?} {}", body.escape_ascii());
    }
    expected
}

/// A sound record in EBCDIC, its Binary parts aside, which stay as they are.
fn sound_in_ebcdic(kind: &Kind, random: &mut Random) -> Vec<u8> {
    let ascii = sound_record(kind, random);
    let mut body = Set::Ebcdic.from_ascii(&ascii);
    for part in judge::parts(kind, &ascii).iter().filter(|part| part.field.data_type == "Binary") {
        let place = part.start..part.start + part.length;
        body[place.clone()].copy_from_slice(&ascii[place]);
    }
    body
}

#[test]
fn sound_records_in_ebcdic() {
    let (table, mut random) = (Table::read(), Random::new(51));
    for kind in &table.kinds {
        for _ in 0..1_000 {
            let body = sound_in_ebcdic(kind, &mut random);
            assert_eq!(agreed(&table, Set::Ebcdic, &body), whole(ACCEPTED), "{}", body.escape_ascii());
            assert_eq!(agreed(&table, Set::Ascii, &body), whole(TYPE), "an EBCDIC record judged as ASCII");
        }
    }
    report(&format!("sound records in EBCDIC: {} accepted", 1_000 * table.kinds.len()));
}

/// Every byte value at every place: of a record's fixed part and, up to 300 bytes, of its parts.
#[test]
fn every_byte_at_every_place_in_ebcdic() {
    let (table, mut random) = (Table::read(), Random::new(52));
    let (mut compared, mut accepted) = (0, 0);
    for kind in &table.kinds {
        for _ in 0..4 {
            let mut body = sound_in_ebcdic(kind, &mut random);
            for place in 0..body.len().min(300) {
                let before = body[place];
                for byte in 0..=255 {
                    body[place] = byte;
                    accepted += u64::from(agreed(&table, Set::Ebcdic, &body) == whole(ACCEPTED));
                    compared += 1;
                }
                body[place] = before;
            }
        }
    }
    report(&format!("every byte in EBCDIC records: {compared} comparisons, {accepted} accepted"));
}

/// What a damaged ASCII record gets, its translation gets.
#[test]
fn a_translation_gets_the_answer_of_the_ascii_record() {
    let (table, mut random) = (Table::read(), Random::new(53));
    let bytes: Vec<u8> = (0x18..=0x82).collect();
    let mut compared = 0;
    for kind in &table.kinds {
        for _ in 0..4_000 {
            let mut body = sound_record(kind, &mut random);
            for _ in 0..random.between(0, 3) {
                let at = random.between(0, body.len() - 1);
                body[at] = random.pick(&bytes);
            }
            if random.one_in(8) {
                body.pop();
            }
            let in_ebcdic = Set::Ebcdic.from_ascii(&body);
            assert_eq!(agreed(&table, Set::Ebcdic, &in_ebcdic), agreed(&table, Set::Ascii, &body));
            compared += 1;
        }
    }
    report(&format!("translated records: {compared} with the answer of their ASCII record"));
}

/// The picture call by the set of the file's first record: EBCDIC and ASCII 52s behind a header of each set.
#[test]
fn pictures_by_the_first_record() {
    let (table, mut random) = (Table::read(), Random::new(54));
    let header = sound_record(table.kind("01"), &mut random);
    let kind = table.kind("52");
    let mut compared = 0;
    for _ in 0..4_000 {
        let mut views = [sound_record(kind, &mut random), sound_in_ebcdic(kind, &mut random)];
        for view in &mut views {
            if random.one_in(2) {
                let at = random.between(0, view.len() - 1);
                view[at] = random.any_byte();
            }
        }
        for first in [header.clone(), Set::Ebcdic.from_ascii(&header)] {
            let file = [framed(&first), framed(&views[0]), framed(&views[1])].concat();
            let set = Set::of(&file);
            assert_eq!(set == Set::Ebcdic, first[0] == 0xF0);
            for offset in [0, 84, 88 + views[0].len() as u64] {
                let expected = judge::picture_in(&table, set, &file, offset);
                assert_eq!(peer_reader::picture::picture(&file, offset).listed(), expected);
                if EBCDIC_CARRIED {
                    assert_eq!(ffi::picture(&file, offset), expected, "{}", file.escape_ascii());
                }
                compared += 1;
            }
        }
    }
    report(&format!("pictures by the first record's set: {compared} calls"));
}
