//! `icl rows`: a row a record.

use std::ffi::OsStr;
use std::io::Write;

use x9180::Row;

use crate::args::Args;
use crate::each::{self, Around, Done};
use crate::files::Files;
use crate::forms::{Cell, Form, Rows};
use crate::input;
use crate::stop::Stop;
use crate::walked;
use crate::words;

/// The columns, named alike in every form. The file's name came last to them, and stands in the forms for programs only.
const COLUMNS: &[&str] = &["record", "type", "offset", "length", "letter", "bundle", "item", "amount", "name", "file"];

pub fn run(args: Args) -> Result<u8, Stop> {
    if args.has("--walk") {
        return walked::rows(&args);
    }
    let (files, form) = (Files::of(args.several()?), args.form()?);
    let around = Around { form, columns: COLUMNS, apart: true };
    let list = |file: &OsStr, out: &mut dyn Write| {
        let (_, reading) = input::accepted(file)?;
        if files.several && form == Form::Text {
            writeln!(out, "{}:", words::name(file)).map_err(Stop::output)?;
        }
        let written = match form {
            Form::Text => table(reading.rows(), out),
            _ => for_programs(file, reading.rows(), form, out),
        };
        written.map_err(Stop::output)?;
        Ok(Done::well(()))
    };
    each::file(&files, &around, list, |()| {})
}

fn name(row: &Row) -> &'static str {
    row.kind().map_or("", |kind| kind.name)
}

fn for_programs(file: &OsStr, rows: &[Row], form: Form, out: &mut dyn Write) -> std::io::Result<()> {
    let mut written = Rows::new(form, COLUMNS, out);
    let file = file.to_string_lossy();
    for (record, row) in (1..).zip(rows) {
        let Row { record_type, offset, length, letter, bundle, item, amount } = *row;
        let (record, kind) = (Cell::number(record), Cell::text(format!("{record_type:02}")));
        let [offset, length, letter, bundle, item, amount] =
            [offset, length, letter, bundle, item, amount].map(Cell::number);
        let (name, file) = (Cell::text(name(row)), Cell::text(file.as_ref()));
        written.put(&[record, kind, offset, length, letter, bundle, item, amount, name, file])?;
    }
    Ok(())
}

fn table(rows: &[Row], out: &mut dyn Write) -> std::io::Result<()> {
    let numbers = |record: u64, row: &Row| {
        [record, row.record_type, row.offset, row.length, row.letter, row.bundle, row.item, row.amount]
    };
    let mut widths: Vec<usize> = COLUMNS.iter().take(8).map(|column| column.len()).collect();
    for (record, row) in (1..).zip(rows) {
        for (width, number) in widths.iter_mut().zip(numbers(record, row)) {
            *width = (*width).max(number.checked_ilog10().map_or(1, |log| log as usize + 1));
        }
    }
    let heads = COLUMNS.iter().zip(&widths).map(|(column, width)| format!("{column:>width$}  "));
    writeln!(out, "{}name", heads.collect::<String>())?;
    for (record, row) in (1..).zip(rows) {
        for (column, (number, width)) in numbers(record, row).into_iter().zip(&widths).enumerate() {
            match column {
                1 => write!(out, "{:>width$}  ", format!("{number:02}"))?,
                _ => write!(out, "{number:>width$}  ")?,
            }
        }
        writeln!(out, "{}", name(row))?;
    }
    Ok(())
}
