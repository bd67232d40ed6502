//! `icl rows --walk` and `icl tree --walk`: what the lengths of a file frame up to the first fault, and the fault in its place. Nothing is said of totals, nor of what belongs to what: that is known of accepted files only.

use std::ffi::OsStr;
use std::io::{Result, Write};

use x9180::{CharacterSet, Refusal, Row};

use crate::args::Args;
use crate::each::{self, Around, Done};
use crate::fields;
use crate::files::Files;
use crate::forms::{Cell, Form, Rows};
use crate::input;
use crate::screen::{coloured, Colour};
use crate::stop::{Stop, DONE, REFUSED};
use crate::walk::{self, Framed};
use crate::words::{self, counted, set_told};

const COLUMNS: &[&str] = &["file", "record", "type", "offset", "length", "name", "accepted", "fault", "field", "words"];

pub fn rows(args: &Args) -> std::result::Result<u8, Stop> {
    run(args, |walk, out| walk.table(out))
}

pub fn tree(args: &Args) -> std::result::Result<u8, Stop> {
    run(args, |walk, out| walk.tree(out))
}

fn run(args: &Args, write: fn(&Walk<'_>, &mut dyn Write) -> Result<()>) -> std::result::Result<u8, Stop> {
    let (files, form) = (Files::of(args.several()?), args.form()?);
    let around = Around { form, columns: COLUMNS, apart: true };
    let list = |file: &OsStr, out: &mut dyn Write| {
        let bytes = input::within_limit(file)?;
        let fault = input::judged(file, &bytes).err();
        if files.several && form == Form::Text {
            writeln!(out, "{}:", words::name(file)).map_err(Stop::output)?;
        }
        let walk = Walk { bytes: &bytes, set: CharacterSet::of(&bytes), fault: fault.as_ref() };
        let written = match form {
            Form::Text => walk.text(write, out),
            _ => walk.for_programs(file, form, out),
        };
        written.map_err(Stop::output)?;
        Ok(Done { status: if fault.is_some() { REFUSED } else { DONE }, complaints: Vec::new(), value: () })
    };
    each::file(&files, &around, list, |()| {})
}

/// A file that is walked through, and its first fault.
struct Walk<'f> {
    bytes: &'f [u8],
    set: CharacterSet,
    fault: Option<&'f Refusal>,
}

impl<'f> Walk<'f> {
    /// The records before the fault and the one at fault, where it is framed.
    fn records(&self) -> impl Iterator<Item = Framed<'f>> {
        let last = self.fault.map_or(u64::MAX, |fault| fault.record());
        walk::records(self.bytes).take_while(move |framed| framed.record <= last)
    }

    fn is_at_fault(&self, framed: &Framed<'_>) -> bool {
        self.fault.is_some_and(|fault| fault.record() == framed.record)
    }

    /// A fault where no record is framed: the bytes are at an end or cut off, or there are none.
    fn fault_without_record(&self) -> Option<&'f Refusal> {
        self.fault.filter(|_| !self.records().last().is_some_and(|last| self.is_at_fault(&last)))
    }

    fn text(&self, write: fn(&Walk<'_>, &mut dyn Write) -> Result<()>, out: &mut dyn Write) -> Result<()> {
        match self.fault {
            Some(fault) => writeln!(out, "not accepted: {}", coloured(&fault.line(), Colour::Red))?,
            None => writeln!(out, "{}: every rule holds", coloured("accepted", Colour::Green))?,
        }
        set_told(self.set).map_or(Ok(()), |line| writeln!(out, "    {line}"))?;
        write(self, out)?;
        let end = self.records().last().map_or(0, |last| last.end());
        match (self.bytes.len() as u64).saturating_sub(end) {
            0 => Ok(()),
            left => writeln!(out, "behind: {}, not listed", counted(left, "byte")),
        }
    }

    fn table(&self, out: &mut dyn Write) -> Result<()> {
        let widest = |number: u64, head: &str| number.to_string().len().max(head.len());
        let (mut record, mut offset, mut length) = (widest(0, "record"), widest(0, "offset"), widest(0, "length"));
        for framed in self.records() {
            record = record.max(widest(framed.record, ""));
            offset = offset.max(widest(framed.offset, ""));
            length = length.max(widest(framed.body.len() as u64, ""));
        }
        writeln!(out, "{:>record$}  type  {:>offset$}  {:>length$}  name", "record", "offset", "length")?;
        for framed in self.records() {
            let (kind, name) = (self.type_of(&framed), self.name_of(&framed));
            let size = framed.body.len();
            let line =
                format!("{:>record$}  {kind:>4}  {:>offset$}  {size:>length$}  {name}", framed.record, framed.offset);
            writeln!(out, "{}", line.trim_end())?;
            self.fault.filter(|_| self.is_at_fault(&framed)).map_or(Ok(()), |fault| told(fault, record + 2, out))?;
        }
        self.fault_without_record().map_or(Ok(()), |fault| {
            if fault.record() > 0 {
                writeln!(out, "{:>record$}        {:>offset$}", fault.record(), fault.offset())?;
            }
            told(fault, record + 2, out)
        })
    }

    fn tree(&self, out: &mut dyn Write) -> Result<()> {
        for framed in self.records() {
            let indent = indent(framed.kind(self.set).map_or(0, |kind| kind.number));
            let kind =
                framed.kind(self.set).map_or_else(|| "of no type of the standard".to_string(), |kind| kind.to_string());
            writeln!(
                out,
                "{:indent$}record {}: {kind}, at offset {}{}",
                "",
                framed.record,
                framed.offset,
                self.picture(&framed)
            )?;
            fields::write(self.bytes, indent + 4, Some(&self.row(&framed)), out)?;
            self.fault.filter(|_| self.is_at_fault(&framed)).map_or(Ok(()), |fault| told(fault, indent + 4, out))?;
        }
        self.fault_without_record().map_or(Ok(()), |fault| {
            if fault.record() > 0 {
                writeln!(out, "record {}, at offset {}", fault.record(), fault.offset())?;
            }
            told(fault, 4, out)
        })
    }

    fn for_programs(&self, file: &OsStr, form: Form, out: &mut dyn Write) -> Result<()> {
        let mut rows = Rows::new(form, COLUMNS, out);
        for framed in self.records() {
            let fault = self.fault.filter(|_| self.is_at_fault(&framed));
            let own = [
                Cell::number(framed.record),
                Cell::text(self.type_of(&framed)),
                Cell::number(framed.offset),
                Cell::number(framed.body.len() as u64),
                Cell::text(self.name_of(&framed)),
            ];
            rows.put(&self.cells(file, own, fault))?;
        }
        let Some(fault) = self.fault_without_record() else { return Ok(()) };
        let own = [Cell::number(fault.record()), Cell::Blank, Cell::number(fault.offset()), Cell::Blank, Cell::Blank];
        rows.put(&self.cells(file, own, Some(fault)))
    }

    fn cells(&self, file: &OsStr, own: [Cell; 5], fault: Option<&Refusal>) -> Vec<Cell> {
        let mut cells = vec![Cell::text(file.to_string_lossy())];
        cells.extend(own);
        cells.push(Cell::Flag(self.fault.is_none()));
        match fault {
            Some(fault) => cells.extend([
                Cell::number(fault.number().0),
                Cell::number(fault.field()),
                Cell::text(fault.to_string()),
            ]),
            None => cells.extend([Cell::Blank, Cell::Blank, Cell::Blank]),
        }
        cells
    }

    /// Its first two characters, where they are characters.
    fn type_of(&self, framed: &Framed<'_>) -> String {
        framed.body.get(..2).and_then(|two| self.set.text(two)).unwrap_or_else(|| "?".to_string())
    }

    fn name_of(&self, framed: &Framed<'_>) -> &'static str {
        framed.kind(self.set).map_or("", |kind| kind.name)
    }

    /// Of an Image View Data Record that is right alone, how long its picture is.
    fn picture(&self, framed: &Framed<'_>) -> String {
        match framed.kind(self.set).map(|kind| kind.number) {
            Some(52) => x9180::picture(self.bytes, framed.offset).map_or_else(
                |_| String::new(),
                |picture| format!(", picture of {}", counted(picture.len() as u64, "byte")),
            ),
            _ => String::new(),
        }
    }

    /// The record as a row without a place.
    fn row(&self, framed: &Framed<'_>) -> Row {
        let record_type = framed.kind(self.set).map_or(0, |kind| kind.number);
        Row { record_type, offset: framed.offset, length: framed.body.len() as u64, ..Row::default() }
    }
}

/// The fault, below its record.
fn told(fault: &Refusal, indent: usize, out: &mut dyn Write) -> Result<()> {
    writeln!(out, "{:indent$}{}", "", coloured(&fault.line(), Colour::Red))?;
    format!("{fault:#}").lines().try_for_each(|line| writeln!(out, "{:indent$}{line}", ""))
}

/// How far a record is set in: by its type alone.
fn indent(record_type: u64) -> usize {
    match record_type {
        10 | 90 => 2,
        20 | 70 => 4,
        25 | 31 | 61 => 6,
        26..=28 | 32..=35 | 50 | 52 | 54 => 8,
        _ => 0,
    }
}
