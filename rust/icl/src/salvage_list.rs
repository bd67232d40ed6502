//! The list of a salvage as rows for programs: one for each record of the torn file that was walked.

use std::ffi::OsStr;
use std::io::{Result, Write};

use x9180::{Part, Salvage, Sort, Status};

use crate::forms::{Cell, Form, Rows};

const COLUMNS: &[&str] = &[
    "file",
    "record",
    "type",
    "offset",
    "length",
    "name",
    "status",
    "number",
    "fault",
    "letter",
    "bundle",
    "credit_record",
    "words",
];

pub fn write(name: &OsStr, file: &[u8], salvage: &Salvage, form: Form, out: &mut dyn Write) -> Result<()> {
    out.write_all(form.begin(COLUMNS).as_bytes())?;
    let mut rows = Rows::new(form, COLUMNS, out);
    let name = name.to_string_lossy();
    for part in salvage.parts() {
        let mut words = salvage.why(file, &part).map(|why| why.to_string());
        for row in part.rows.clone() {
            rows.put(&cells(&name, file, salvage, &part, row, words.take()))?;
        }
    }
    out.write_all(form.end(true).as_bytes())
}

/// The words stand at the first record of what was dropped together.
fn cells(name: &str, file: &[u8], salvage: &Salvage, part: &Part, row: usize, words: Option<String>) -> Vec<Cell> {
    let listed = salvage.list().get(row).copied().unwrap_or_default();
    let fault = listed.fault();
    let (bundle, credit) = match part.sort {
        Sort::Bundle | Sort::OpenBundle => (part.ordinal, 0),
        Sort::Credit => (0, part.ordinal),
        _ => (0, 0),
    };
    vec![
        Cell::text(name),
        Cell::number(row as u64 + 1),
        Cell::text(format!("{:02}", listed.record_type)),
        Cell::number(listed.offset),
        Cell::number(listed.body(file).map_or(0, <[u8]>::len) as u64),
        Cell::text(listed.kind().map_or("", |kind| kind.name)),
        Cell::text(match listed.status() {
            Status::Kept => "kept",
            Status::MadeNew => "new",
            Status::Dropped => "dropped",
        }),
        Cell::number(fault.map_or(0, |number| number.0)),
        fault.map_or(Cell::Blank, |number| Cell::text(number.name())),
        Cell::number(part.letter),
        Cell::number(bundle),
        Cell::number(credit),
        words.map_or(Cell::Blank, Cell::text),
    ]
}
