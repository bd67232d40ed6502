//! `letter.json`: a list of records, each an object with its type, the name of its kind, and the fields that it gives, by their names in the
//! standard. How it is written and taken apart; what the values mean, `draft` and `write` know.

use std::io::{Result as Written, Write};

use x9180::{DataType, Draft, Field, Kind, Place};

use crate::json::{quoted, Event, Fault, Reader};

/// The file's name in its folder.
pub const NAME: &str = "letter.json";

/// The members beside the fields. No field of the standard is named so, since those begin with a capital.
pub const TYPE: &str = "type";
pub const RECORD: &str = "record";
pub const BLANK_MICR_TOTAL: &str = "blank MICR total";
const FILE: &str = "file";

/// A record as it stands in the text, which it begins at this byte.
pub struct Entry {
    pub at: usize,
    pub members: Vec<Member>,
}

/// A member of a record, at this byte.
pub struct Member {
    pub at: usize,
    pub name: String,
    pub value: Given,
}

/// What a member is given.
pub enum Given {
    Text(String),
    Flag(bool),
    /// The name of a file beside the text.
    File(String),
}

/// The records of a text, one after the other.
pub struct Records<'j> {
    reader: Reader<'j>,
}

impl<'j> Records<'j> {
    pub fn of(text: &'j [u8]) -> Result<Records<'j>, Fault> {
        let mut reader = Reader::new(text)?;
        match reader.next()? {
            (_, Event::BeginList) => Ok(Records { reader }),
            (at, _) => Err(Fault::new(at, "a list of records in [ ] is asked")),
        }
    }

    /// The next record; `None` where the list and the text are over.
    pub fn next(&mut self) -> Result<Option<Entry>, Fault> {
        match self.reader.next()? {
            (at, Event::BeginObject) => Ok(Some(entry(&mut self.reader, at)?)),
            (_, Event::EndList) => self.reader.next().map(|_| None),
            (at, _) => Err(Fault::new(at, "a record in { } is asked")),
        }
    }
}

/// The record that begins at this byte of a text.
pub fn record_at(text: &[u8], at: usize) -> Result<Entry, Fault> {
    let mut reader = Reader::new(text.get(at..).unwrap_or_default())?;
    reader.next()?;
    let mut entry = entry(&mut reader, at)?;
    entry.members.iter_mut().for_each(|member| member.at += at);
    Ok(entry)
}

/// The members of a record that has just begun.
fn entry(reader: &mut Reader<'_>, at: usize) -> Result<Entry, Fault> {
    let mut members: Vec<Member> = Vec::new();
    loop {
        match reader.next()? {
            (at, Event::Name(name)) => {
                if members.iter().any(|member| member.name == name) {
                    return Err(Fault::new(at, format!("{} is given twice", quoted(&name))));
                }
                let value = value(reader, &name)?;
                members.push(Member { at, name, value });
            }
            _ => return Ok(Entry { at, members }),
        }
    }
}

fn value(reader: &mut Reader<'_>, name: &str) -> Result<Given, Fault> {
    match reader.next()? {
        (_, Event::Text(text)) => Ok(Given::Text(text)),
        (_, Event::Flag(flag)) => Ok(Given::Flag(flag)),
        (at, Event::BeginObject) => file(reader, at),
        (at, Event::Number(_)) => Err(Fault::new(at, format!("{} is to be in quotes, numbers too", quoted(name)))),
        (at, _) => Err(Fault::new(at, format!("{} is to be a text in quotes", quoted(name)))),
    }
}

/// `{"file": NAME}`, of which the brace has been read.
fn file(reader: &mut Reader<'_>, at: usize) -> Result<Given, Fault> {
    let wrong = || Fault::new(at, "{\"file\": NAME} is asked, and nothing else in it");
    let Event::Name(name) = reader.next()?.1 else { return Err(wrong()) };
    let Event::Text(file) = reader.next()?.1 else { return Err(wrong()) };
    let Event::EndObject = reader.next()?.1 else { return Err(wrong()) };
    if name == FILE {
        Ok(Given::File(file))
    } else {
        Err(wrong())
    }
}

/// Writes the records of a draft. The files beside it are named by record and field.
pub fn write(out: &mut dyn Write, draft: &Draft<'_>, file_name: impl Fn(u64, &Field) -> String) -> Written<()> {
    let mut before = "[\n";
    for record in 1..=draft.records() {
        let Some(kind) = draft.kind(record) else { continue };
        write!(out, "{before}  {{\n    {}: \"{:02}\"", quoted(TYPE), kind.number)?;
        write!(out, ",\n    {}: {}", quoted(RECORD), quoted(kind.name))?;
        for field in given_fields(kind) {
            if let Some(value) = written(draft, record, field, &file_name) {
                write!(out, ",\n    {}: {value}", quoted(field.name))?;
            }
        }
        if draft.asks_blank_micr_total(record) {
            write!(out, ",\n    {}: true", quoted(BLANK_MICR_TOTAL))?;
        }
        out.write_all(b"\n  }")?;
        before = ",\n";
    }
    out.write_all(b"\n]\n")
}

/// The fields that a draft gives, but for those that are always blank.
fn given_fields(kind: &'static Kind) -> impl Iterator<Item = &'static Field> {
    kind.fields.iter().filter(|field| !kind.works_out(field.number) && !is_reserved(field))
}

/// Whether a field is blank in every record.
pub fn is_reserved(field: &Field) -> bool {
    field.data_type == DataType::AB
}

/// The value of a field as it is written; `None` where it has none.
fn written(
    draft: &Draft<'_>,
    record: u64,
    field: &Field,
    file_name: &impl Fn(u64, &Field) -> String,
) -> Option<String> {
    if field.data_type == DataType::Binary {
        draft.bytes(record, field.number).filter(|bytes| !bytes.is_empty())?;
        return Some(format!("{{{}: {}}}", quoted(FILE), quoted(&file_name(record, field))));
    }
    let text = draft.text(record, field.number)?;
    let text = match field.place {
        Place::Positions(..) => without_filling(field.data_type, &text),
        // As long as its text: its blanks are its own.
        Place::SizedBy(_) => &text,
    };
    (!text.is_empty()).then(|| quoted(text))
}

/// The text without the blanks that fill its field up, which come back where it is given (clause 5.3).
fn without_filling(data_type: DataType, text: &str) -> &str {
    match data_type.fill() {
        (' ', true) => text.trim_start_matches(' '),
        (' ', false) => text.trim_end_matches(' '),
        _ => text,
    }
}

#[cfg(test)]
mod tests {
    use super::*;

    /// A field is found by its name.
    #[test]
    fn no_name_stands_twice_in_a_record() {
        for kind in x9180::KINDS.iter().filter(|kind| kind.is_carried()) {
            let mut names: Vec<&str> = given_fields(kind).map(|field| field.name).collect();
            assert!(!names.iter().any(|name| [TYPE, RECORD, BLANK_MICR_TOTAL].contains(name)));
            let all = names.len();
            names.sort();
            names.dedup();
            assert_eq!(names.len(), all, "{kind}");
        }
    }
}
