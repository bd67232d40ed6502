//! The records of two files beside each other: whether they are the same, and the fields in which they differ. A file in EBCDIC is compared by its characters.

use std::borrow::Cow;
use std::hash::{DefaultHasher, Hash, Hasher};

use x9180::{CharacterSet, DataType, Kind, Reading, Row};

use crate::words::counted;

/// One of two files.
pub struct Side<'f> {
    pub bytes: &'f [u8],
    pub reading: &'f Reading,
    /// A number for the contents of each record.
    contents: Vec<u64>,
}

/// The most characters of a field that are shown.
const SHOWN: usize = 64;

impl<'f> Side<'f> {
    pub fn new(bytes: &'f [u8], reading: &'f Reading) -> Side<'f> {
        let mut side = Side { bytes, reading, contents: Vec::new() };
        let content = |row: &Row| {
            let mut hasher = DefaultHasher::new();
            side.plain(row).hash(&mut hasher);
            hasher.finish()
        };
        side.contents = reading.rows().iter().map(content).collect();
        side
    }

    /// The place of a record among the rows, counted from 0.
    fn index(&self, row: &Row) -> usize {
        self.reading.rows().partition_point(|other| other.offset < row.offset)
    }

    /// A record's bytes, its characters in ASCII.
    fn plain(&self, row: &Row) -> Cow<'f, [u8]> {
        let body = row.body(self.bytes).unwrap_or_default();
        let set = self.reading.character_set();
        if set == CharacterSet::Ascii {
            return Cow::Borrowed(body);
        }
        let mut plain = body.to_vec();
        for field in
            row.kind().map_or(&[][..], |kind| kind.fields).iter().filter(|field| field.data_type != DataType::Binary)
        {
            let range = row.kind().and_then(|kind| kind.range(set, body, field.number));
            for byte in range.and_then(|range| plain.get_mut(range)).into_iter().flatten() {
                *byte = set.character(*byte).map_or(0, |character| character as u8);
            }
        }
        Cow::Owned(plain)
    }

    /// A number that stands for the contents of neighbouring records; never 0.
    pub fn content(&self, rows: &[Row]) -> u64 {
        let first = rows.first().map_or(0, |row| self.index(row));
        let mut hasher = DefaultHasher::new();
        self.contents.get(first..first + rows.len()).hash(&mut hasher);
        hasher.finish().max(1)
    }

    /// A number that stands for these fields of a record; 0 where one that is needed is blank.
    pub fn name(&self, row: &Row, fields: &[u64], needed: &[u64]) -> u64 {
        let mut hasher = DefaultHasher::new();
        row.record_type.hash(&mut hasher);
        for field in fields {
            let text = row.text(self.bytes, *field).unwrap_or_default();
            let text = text.trim_matches(' ').trim_start_matches('0');
            if text.is_empty() && needed.contains(field) {
                return 0;
            }
            text.hash(&mut hasher);
        }
        hasher.finish().max(1)
    }

    /// Whether records are the same as those of the other file.
    pub fn is_same(&self, rows: &[Row], other: &Side<'_>, others: &[Row]) -> bool {
        rows.len() == others.len() && rows.iter().zip(others).all(|(row, twin)| self.plain(row) == other.plain(twin))
    }
}

/// The fields in which the records of two parts differ, a line each, and the records that only one of them has. The first record of a type in the one is
/// compared with the first of that type in the other, and so on.
pub fn differences(a: &Side<'_>, rows: &[Row], b: &Side<'_>, others: &[Row]) -> Vec<String> {
    let mut left: Vec<&Row> = others.iter().collect();
    let mut lines = Vec::new();
    for row in rows {
        match left.iter().position(|other| other.record_type == row.record_type) {
            Some(place) => lines.extend(of_records(a, row, b, left.remove(place))),
            None => lines.push(format!("{} (record {}): in A only", named(row), a.index(row) + 1)),
        }
    }
    lines.extend(left.iter().map(|row| format!("{} (record {}): in B only", named(row), b.index(row) + 1)));
    lines
}

fn named(row: &Row) -> String {
    row.kind().map_or_else(String::new, Kind::to_string)
}

fn of_records(a: &Side<'_>, row: &Row, b: &Side<'_>, other: &Row) -> Vec<String> {
    let (here, there) = (a.plain(row), b.plain(other));
    if here == there {
        return Vec::new();
    }
    let mut lines = Vec::new();
    let records = match (a.index(row) + 1, b.index(other) + 1) {
        (one, other) if one == other => format!("record {one}"),
        (one, other) => format!("record {one} in A, {other} in B"),
    };
    for field in row.kind().map_or(&[][..], |kind| kind.fields) {
        let of = |plain: &[u8]| {
            let range = row.kind().and_then(|kind| kind.range(CharacterSet::Ascii, plain, field.number));
            range.and_then(|range| plain.get(range)).unwrap_or_default().to_vec()
        };
        let (here, there) = (of(&here), of(&there));
        if here != there {
            let (here, there) = match field.data_type {
                DataType::Binary => (counted(here.len() as u64, "byte"), counted(there.len() as u64, "byte")),
                _ => (shown(&here), shown(&there)),
            };
            let (kind, number, name) = (named(row), field.number, field.name);
            lines.push(format!("{kind} ({records}): field {number}, {name}: {here} in A, {there} in B"));
        }
    }
    lines
}

fn shown(characters: &[u8]) -> String {
    let text: String = characters.iter().take(SHOWN).map(|byte| char::from(*byte)).collect();
    match characters.len() > SHOWN {
        true => format!("\"{text}\" (the first {SHOWN} of {})", counted(characters.len() as u64, "character")),
        false => format!("\"{text}\""),
    }
}
