//! `icl check`: the line of the scope document for each file.

use std::ffi::OsStr;
use std::io::Write;

use x9180::{CharacterSet, Reading, Refusal, Totals};

use crate::answer::told;
use crate::args::Args;
use crate::each::{self, Around, Done};
use crate::files::Files;
use crate::forms::{Cell, Form, Rows};
use crate::input::{bytes, judged, Input};
use crate::stop::{Stop, DONE, REFUSED};
use crate::words::{self, set_told};

const COLUMNS: &[&str] = &[
    "file",
    "result",
    "number",
    "fault",
    "record",
    "field",
    "offset",
    "records",
    "letters",
    "bundles",
    "items",
    "views",
    "debit_items",
    "debit",
    "credit_items",
    "credit",
    "set",
    "words",
];

pub fn run(args: Args) -> Result<u8, Stop> {
    let (files, form, explain) = (Files::of(args.several()?), args.form()?, args.has("--explain"));
    let around = Around { form, columns: COLUMNS, apart: false };
    let check = |file: &OsStr, out: &mut dyn Write| {
        let seen = match look(file) {
            Ok(seen) => seen,
            Err(Stop::Message(status, message)) => {
                if form != Form::Text {
                    Rows::new(form, COLUMNS, out).put(&unread(file, &message)).map_err(Stop::output)?;
                }
                return Err(Stop::Message(status, message));
            }
            Err(other) => return Err(other),
        };
        let written = match form {
            Form::Text => out.write_all(seen.told(files.several.then_some(file), explain).as_bytes()),
            _ => Rows::new(form, COLUMNS, out).put(&seen.cells(file)),
        };
        written.map_err(Stop::output)?;
        let status = if seen.result.is_ok() { DONE } else { REFUSED };
        Ok(Done { status, complaints: seen.complaint.into_iter().collect(), value: () })
    };
    each::file(&files, &around, check, |()| {})
}

/// What the library says of a file, and the set of its characters.
struct Seen {
    result: Result<Reading, Refusal>,
    set: CharacterSet,
    complaint: Option<String>,
}

fn look(file: &OsStr) -> Result<Seen, Stop> {
    Ok(match bytes(file)? {
        Input::Bytes(bytes) => Seen { result: judged(file, &bytes), set: CharacterSet::of(&bytes), complaint: None },
        Input::TooLarge(refusal, line) => {
            Seen { result: Err(refusal), set: CharacterSet::Ascii, complaint: Some(line) }
        }
    })
}

impl Seen {
    fn told(&self, name: Option<&OsStr>, explain: bool) -> String {
        let (line, explanation) = told(&self.result);
        let name = name.map_or_else(String::new, |name| format!("{}: ", words::name(name)));
        let mut text = format!("{name}{line}\n");
        let explanation = Some(explanation).filter(|_| explain);
        let set = set_told(self.set);
        let below = set.iter().chain(&explanation).flat_map(|words| words.lines());
        below.for_each(|line| text.push_str(&format!("  {line}\n")));
        text
    }

    fn cells(&self, file: &OsStr) -> Vec<Cell> {
        let mut cells = vec![Cell::text(file.to_string_lossy())];
        match &self.result {
            Ok(reading) => {
                cells.extend([Cell::text("accepted"), Cell::number(0)]);
                cells.extend((0..4).map(|_| Cell::Blank));
                cells.extend(of_totals(&reading.totals()));
            }
            Err(refusal) => {
                cells.extend([Cell::text("refused"), Cell::number(refusal.number().0)]);
                cells.push(Cell::text(refusal.number().name()));
                cells.extend([refusal.record(), refusal.field(), refusal.offset()].map(Cell::number));
                cells.extend((0..9).map(|_| Cell::Blank));
            }
        }
        let words = self.result.as_ref().err().map_or(Cell::Blank, |refusal| Cell::text(refusal.to_string()));
        cells.extend([Cell::text(self.set.to_string()), words]);
        cells
    }
}

/// The row of a file that could not be read.
fn unread(file: &OsStr, message: &str) -> Vec<Cell> {
    let mut cells = vec![Cell::text(file.to_string_lossy()), Cell::text("unread")];
    cells.extend((0..15).map(|_| Cell::Blank));
    cells.push(Cell::text(message));
    cells
}

fn of_totals(totals: &Totals) -> [Cell; 9] {
    let Totals { records, letters, bundles, items, views, debit, credit_items, credit } = *totals;
    [records, letters, bundles, items, views, totals.debit_items(), debit, credit_items, credit].map(Cell::number)
}
