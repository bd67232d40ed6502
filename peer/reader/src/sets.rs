//! What a run is to show of the two character sets (request 5) beyond every other point in EBCDIC too.

use crate::charset::{Set, Text};
use crate::descent::{split_record, Number, Reading, Row};
use crate::ebcdic::{other_field_targets, OF_TABLE_1, OF_THE_PAGE};
use crate::harm::field_targets;
use crate::judge;
use crate::layout::{carried_in, layout, Layout, Type, CARRIED};
use crate::picture::picture_in;

#[derive(Clone, Copy, Debug, PartialEq, Eq, PartialOrd, Ord)]
pub enum SetPoint {
    /// FIELD in an EBCDIC file at a field that holds a byte without a counterpart.
    Stray(u8, u8),
    /// TYPE in an EBCDIC file at a byte without a counterpart.
    StrayType,
    /// TYPE in a file of this set at a record of this type in the other set.
    OtherRecord(Set, u8),
    /// FIELD in a file of this set at a field that is sound in the other set.
    OtherField(Set, u8, u8),
    /// Accepted in this set: an ANS field whose bytes are characters of both, and not the blank of both alike.
    ReadInBoth(Set),
    /// Accepted in EBCDIC: an ANS field with this byte, of [ ] ^ ` | by the code page (reading 35).
    OfThePage(u8),
    /// FIELD in EBCDIC: an ANS field with this byte, which Table 1 prints for one of the five.
    OfTable1(u8),
    /// A fault of the first record behind F0 F1, by its reason: its length does not tell the set (reading 34).
    FirstLength(&'static str),
    /// A file of so few bytes, with F0 in the fifth place where it has one; with six, F0 F1.
    Short(usize),
    /// TYPE at a first record of which one byte is the EBCDIC one, the first or the second.
    HalfTurned(usize),
    /// The picture call within an image, in a file of the first set, where a 52 of the second stands: accepted where they are the same.
    WithinImage(Set, Set, Number),
}

impl SetPoint {
    pub fn group(&self) -> &'static str {
        match self {
            SetPoint::Stray(..) => "sets: fields with a byte without a counterpart refused",
            SetPoint::StrayType => "sets: types with a byte without a counterpart refused",
            SetPoint::OtherRecord(..) => "sets: records of the other set refused",
            SetPoint::OtherField(..) => "sets: fields of the other set refused",
            SetPoint::ReadInBoth(_) => "sets: ANS fields of both sets accepted",
            SetPoint::OfThePage(_) => "sets: characters of reading 35 accepted",
            SetPoint::OfTable1(_) => "sets: bytes of Table 1 against the code page refused",
            SetPoint::FirstLength(_) => "sets: first lengths before F0 F1 refused",
            SetPoint::Short(_) => "sets: files of one to six bytes",
            SetPoint::HalfTurned(_) => "sets: half of F0 F1 refused",
            SetPoint::WithinImage(..) => "sets: picture calls within an image",
        }
    }
}

/// Everything that a run is to show.
pub fn demanded() -> Vec<SetPoint> {
    let mut points: Vec<SetPoint> =
        field_targets().into_iter().map(|(code, field)| SetPoint::Stray(code, field)).collect();
    points.push(SetPoint::StrayType);
    for set in [Set::Ascii, Set::Ebcdic] {
        points.extend(CARRIED.map(|code| SetPoint::OtherRecord(set, code)));
        points.push(SetPoint::ReadInBoth(set));
        points.push(SetPoint::WithinImage(set, set, Number::Accepted));
        points.push(SetPoint::WithinImage(set, set.other(), Number::Type));
    }
    points.extend(other_field_targets().into_iter().map(|(set, code, field)| SetPoint::OtherField(set, code, field)));
    points.extend(OF_THE_PAGE.map(SetPoint::OfThePage));
    points.extend(OF_TABLE_1.map(SetPoint::OfTable1));
    let reasons = ["below two", "cut in the record", "shorter than the fixed part", "fixed record too long"];
    points.extend(reasons.map(SetPoint::FirstLength));
    points.extend((1..=6).map(SetPoint::Short));
    points.extend([5, 6].map(SetPoint::HalfTurned));
    points
}

/// What one file shows, read by its own set.
pub fn shown(file: &[u8], reading: &Reading) -> Vec<SetPoint> {
    let set = Set::of(file);
    let answer = &reading.answer;
    let mut points = Vec::new();
    if short(file) {
        points.push(SetPoint::Short(file.len()));
    }
    if set == Set::Ebcdic && answer.record == 1 && matches!(answer.number, Number::Cut | Number::Length) {
        points.push(SetPoint::FirstLength(reading.why));
    }
    match answer.number {
        Number::Accepted => points.extend(reading.rows.iter().flat_map(|row| accepted(set, file, row))),
        Number::Field => points.extend(refused(set, body_at(file, answer.offset), answer.field as u8)),
        Number::Type => points.extend(strange(set, body_at(file, answer.offset), answer.record)),
        _ => {}
    }
    points
}

fn short(file: &[u8]) -> bool {
    match file.len() {
        1..=4 => true,
        5 => file[4] == 0xF0,
        6 => Set::of(file) == Set::Ebcdic,
        _ => false,
    }
}

/// The record whose length field stands here.
fn body_at(file: &[u8], offset: u64) -> &[u8] {
    split_record(&file[offset as usize..]).expect("a record that was read")
}

/// What a record that is no type shows.
fn strange(set: Set, body: &[u8], record: u64) -> Vec<SetPoint> {
    let mut points = Vec::new();
    if let Some(code) = carried_in(set.other(), &body[..2]) {
        points.push(SetPoint::OtherRecord(set, code));
    }
    if set == Set::Ebcdic && !body[..2].iter().all(|byte| set.is_character(*byte)) {
        points.push(SetPoint::StrayType);
    }
    match (record, &body[..2]) {
        (1, [0xF0, b'1']) => points.push(SetPoint::HalfTurned(5)),
        (1, [b'0', 0xF1]) => points.push(SetPoint::HalfTurned(6)),
        _ => {}
    }
    points
}

/// A field's or part's bytes in a record whose lengths are right as far as they were looked at.
fn bytes_of<'a>(set: Set, layout: &Layout, body: &'a [u8], number: u8) -> &'a [u8] {
    match layout.fields.iter().find(|field| field.number == number) {
        Some(field) => field.of(body),
        None => {
            let part = layout.parts.iter().find(|part| part.number == number).expect("a part");
            let start = judge::part_start_in(set, layout, body, part);
            &body[start..start + judge::part_length_in(set, layout, body, part) as usize]
        }
    }
}

/// What a field that is refused shows.
fn refused(set: Set, body: &[u8], number: u8) -> Vec<SetPoint> {
    let code = carried_in(set, &body[..2]).expect("a type that was read");
    let layout = layout(code);
    let bytes = bytes_of(set, layout, body, number);
    let mut points = Vec::new();
    if set == Set::Ebcdic && !bytes.iter().all(|byte| set.is_character(*byte)) {
        points.push(SetPoint::Stray(code, number));
    }
    if sound(set.other(), layout, number, bytes) {
        points.push(SetPoint::OtherField(set, code, number));
    }
    if set == Set::Ebcdic && kind_of(layout, number) == Type::AlphanumericSpecial {
        let held = OF_TABLE_1.into_iter().filter(|byte| bytes.contains(byte));
        points.extend(held.map(SetPoint::OfTable1));
    }
    points
}

fn kind_of(layout: &Layout, number: u8) -> Type {
    let of_field = layout.fields.iter().find(|field| field.number == number).map(|field| field.kind);
    let of_part = || layout.parts.iter().find(|part| part.number == number).map(|part| part.kind);
    of_field.or_else(of_part).expect("a field of the record")
}

/// Whether a field's contents pass in a set.
fn sound(set: Set, layout: &Layout, number: u8, bytes: &[u8]) -> bool {
    match layout.fields.iter().find(|field| field.number == number) {
        Some(field) => judge::field_in(set, field, bytes),
        None => judge::of_type(kind_of(layout, number), Text::new(set, bytes)),
    }
}

/// What the ANS fields of an accepted record show.
fn accepted(set: Set, file: &[u8], row: &Row) -> Vec<SetPoint> {
    let layout = layout(row[0] as u8);
    let body = body_at(file, row[1]);
    let numbers = layout.fields.iter().map(|field| field.number).chain(layout.parts.iter().map(|part| part.number));
    let mut points = Vec::new();
    for number in numbers.filter(|number| kind_of(layout, *number) == Type::AlphanumericSpecial) {
        let bytes = bytes_of(set, layout, body, number);
        if set == Set::Ebcdic {
            points.extend(OF_THE_PAGE.into_iter().filter(|byte| bytes.contains(byte)).map(SetPoint::OfThePage));
        }
        let blank = bytes.iter().all(|byte| *byte == 0x20 || *byte == 0x40);
        if !blank && bytes.iter().all(|byte| set.other().is_character(*byte)) {
            points.push(SetPoint::ReadInBoth(set));
        }
    }
    points
}

/// After so many places in one file no more are looked for.
const MANY: usize = 12;

/// Where a 52 of either set, with a length before it that the file holds, stands within an image.
pub fn places_within_images(file: &[u8]) -> Vec<u64> {
    let set = Set::of(file);
    let mut places = Vec::new();
    let mut at = 0;
    while let Some(body) = split_record(&file[at..]) {
        if places.len() >= MANY {
            break;
        }
        if let Some(image) = image_of(set, body) {
            let held = (image.start..image.end.saturating_sub(5)).filter(|place| names_52(&body[*place..]).is_some());
            places.extend(held.take(MANY).map(|place| (at + 4 + place) as u64));
        }
        at += 4 + body.len();
    }
    places
}

/// Where the Image Data of a sound 52 stands in its body.
fn image_of(set: Set, body: &[u8]) -> Option<std::ops::Range<usize>> {
    let layout = layout(52);
    let named = body.len() >= 2 && carried_in(set, &body[..2]) == Some(52);
    if !named || judge::record_in(set, layout, body).is_err() {
        return None;
    }
    let image = layout.parts.iter().find(|part| part.number == 27).expect("field 27 of a 52");
    let start = judge::part_start_in(set, layout, body, image);
    Some(start..start + judge::part_length_in(set, layout, body, image) as usize)
}

/// The set of the 52 whose length stands first.
fn names_52(left: &[u8]) -> Option<Set> {
    let body = split_record(left)?;
    [Set::Ascii, Set::Ebcdic].into_iter().find(|set| body.len() >= 2 && carried_in(*set, &body[..2]) == Some(52))
}

/// What picture calls within the images of a file show.
pub fn shown_within_images(file: &[u8]) -> Vec<SetPoint> {
    let set = Set::of(file);
    let point = |place: u64| {
        let inner = names_52(&file[place as usize..])?;
        Some(SetPoint::WithinImage(set, inner, picture_in(set, file, place).number))
    };
    places_within_images(file).into_iter().filter_map(point).collect()
}

#[cfg(test)]
mod tests {
    use super::*;
    use crate::copy::copy;
    use crate::descent::{read, read_in};
    use crate::ebcdic;
    use crate::picture::picture;
    use std::collections::BTreeSet;

    /// Most of what a whole run has of these files: every point is met, and each file agrees with its copy,
    /// answer, rows and pictures.
    #[test]
    fn points_are_met_and_files_agree_with_their_copies() {
        let mut met = BTreeSet::new();
        for index in (0..36_000).filter(|index| index % 3_500 != 1_750 && index % 64 >= 48) {
            let file = ebcdic::file(5, index).bytes;
            let reading = read(&file);
            met.extend(shown(&file, &reading));
            let copied = copy(&file);
            let of_copy = read_in(Set::Ascii, &copied);
            assert_eq!((of_copy.answer, &of_copy.rows), (reading.answer, &reading.rows), "file {index}");
            met.extend(shown_within_images(&file));
            for row in &reading.rows {
                assert_eq!(picture(&file, row[1]), picture(&copied, row[1]), "file {index}");
            }
        }
        let missing: Vec<SetPoint> = demanded().into_iter().filter(|point| !met.contains(point)).collect();
        assert!(missing.is_empty(), "{missing:?}");
        let wrong = |point: &&SetPoint| match point {
            SetPoint::WithinImage(of_file, of_image, number) => (of_file == of_image) != (*number != Number::Type),
            _ => false,
        };
        assert_eq!(met.iter().find(wrong), None);
    }
}
