//! The entries of a day book, a row each, in one of three forms. The columns are named alike in those that programs read.

use std::io::{Result, Write};

use x9180::book::Entry;

use crate::words::{amount, grouped};

/// The columns for programs; amounts are in cents.
const COLUMNS: [&str; 9] =
    ["owner", "entry", "file_number", "bundles", "debit_items", "credit_items", "views", "debit", "credit"];

/// The columns for people; amounts are in currency.
const HEADS: [&str; 9] =
    ["owner", "entry", "file number", "bundles", "views", "debits", "debit amount", "credits", "credit amount"];

pub fn csv(entries: &[Entry], out: &mut dyn Write) -> Result<()> {
    writeln!(out, "{}", COLUMNS.join(","))?;
    for entry in entries {
        let numbers = numbers(entry).map(|number| number.to_string());
        writeln!(out, "{}", numbers.join(","))?;
    }
    Ok(())
}

pub fn json(entries: &[Entry], out: &mut dyn Write) -> Result<()> {
    let mut before = "[\n";
    for entry in entries {
        let members: Vec<String> =
            COLUMNS.iter().zip(numbers(entry)).map(|(column, number)| format!("\"{column}\": {number}")).collect();
        write!(out, "{before}  {{{}}}", members.join(", "))?;
        before = ",\n";
    }
    writeln!(out, "{}", if entries.is_empty() { "[]" } else { "\n]" })
}

pub fn table(entries: &[Entry], out: &mut dyn Write) -> Result<()> {
    let mut widths = HEADS.map(str::len);
    for entry in entries {
        widths.iter_mut().zip(shown(entry)).for_each(|(width, cell)| *width = (*width).max(cell.len()));
    }
    line(HEADS.map(str::to_string), widths, out)?;
    entries.iter().try_for_each(|entry| line(shown(entry), widths, out))
}

fn line(cells: [String; 9], widths: [usize; 9], out: &mut dyn Write) -> Result<()> {
    let cells: Vec<String> = cells.iter().zip(widths).map(|(cell, width)| format!("{cell:>width$}")).collect();
    writeln!(out, "{}", cells.join("  "))
}

fn numbers(entry: &Entry) -> [u64; 9] {
    let figures = &entry.figures;
    [
        entry.owner.0,
        entry.number,
        entry.file_number,
        figures.bundles,
        figures.debit_items,
        figures.credit_items,
        figures.views,
        figures.debit,
        figures.credit,
    ]
}

/// Numbers that are names stand as they were given; counts and amounts are grouped.
fn shown(entry: &Entry) -> [String; 9] {
    let figures = &entry.figures;
    [
        entry.owner.0.to_string(),
        entry.number.to_string(),
        entry.file_number.to_string(),
        grouped(figures.bundles),
        grouped(figures.views),
        grouped(figures.debit_items),
        amount(figures.debit),
        grouped(figures.credit_items),
        amount(figures.credit),
    ]
}
