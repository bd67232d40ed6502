//! `icl summary`: a line for each file and each of its cash letters, and what all accepted files come to.

use std::ffi::OsStr;
use std::io::Write;

use x9180::{Refusal, Totals};

use crate::args::Args;
use crate::each::{self, Around, Done};
use crate::files::Files;
use crate::forms::{Cell, Form, Rows};
use crate::input::{self, Input};
use crate::screen::print;
use crate::stop::{Stop, DONE, REFUSED};
use crate::words::{self, grouped};

const COLUMNS: &[&str] = &[
    "file",
    "level",
    "letter",
    "result",
    "number",
    "files_accepted",
    "files_refused",
    "files_unread",
    "records",
    "letters",
    "bundles",
    "items",
    "views",
    "debit_items",
    "debit",
    "credit_items",
    "credit",
];

/// The columns for people.
const HEADS: [&str; 10] =
    ["file", "letter", "records", "bundles", "items", "views", "debits", "debit amount", "credits", "credit amount"];

pub fn run(args: Args) -> Result<u8, Stop> {
    let (files, form) = (Files::of(args.several()?), args.form()?);
    let (mut lines, mut total) = (Vec::new(), Total::default());
    // The table is as wide as its widest line, and so is written when all are known.
    let around = Around { form: Form::Text, columns: &[], apart: false };
    let look = |file: &OsStr, _: &mut dyn Write| summed(file);
    let status = each::file(&files, &around, look, |of_file: OfFile| {
        total.add(&of_file);
        lines.push(of_file);
    })?;
    total.unread = files.each.len() as u64 - total.accepted - total.refused;
    match form {
        Form::Text => print(&table(&lines, &total))?,
        _ => print(&for_programs(&lines, &total, form)?)?,
    }
    Ok(status)
}

/// What one file comes to.
struct OfFile {
    name: String,
    /// The sums of the file, and those of its cash letters; or its refusal.
    result: Result<(Totals, Vec<Totals>), Refusal>,
}

fn summed(file: &OsStr) -> Result<Done<OfFile>, Stop> {
    let (result, complaints) = match input::bytes(file)? {
        Input::Bytes(bytes) => (input::judged(file, &bytes), Vec::new()),
        Input::TooLarge(refusal, line) => (Err(refusal), vec![line]),
    };
    let result = result.map(|reading| (reading.totals(), reading.letters().map(|letter| letter.totals()).collect()));
    let status = if result.is_ok() { DONE } else { REFUSED };
    Ok(Done { status, complaints, value: OfFile { name: file.to_string_lossy().into_owned(), result } })
}

/// What all accepted files come to. A sum over many files may pass 64 bits.
#[derive(Default)]
struct Total {
    accepted: u64,
    refused: u64,
    unread: u64,
    sums: [u128; 9],
}

impl Total {
    fn add(&mut self, of_file: &OfFile) {
        match &of_file.result {
            Ok((totals, _)) => {
                self.accepted += 1;
                self.sums.iter_mut().zip(numbers(totals)).for_each(|(sum, number)| *sum += u128::from(number));
            }
            Err(_) => self.refused += 1,
        }
    }
}

/// Records, cash letters, bundles, items, views, debits and their cents, credits and their cents.
fn numbers(totals: &Totals) -> [u64; 9] {
    let Totals { records, letters, bundles, items, views, debit, credit_items, credit } = *totals;
    [records, letters, bundles, items, views, totals.debit_items(), debit, credit_items, credit]
}

fn table(lines: &[OfFile], total: &Total) -> String {
    let mut rows = vec![HEADS.map(str::to_string).to_vec()];
    for OfFile { name, result } in lines {
        let name = words::name(OsStr::new(name));
        match result {
            Ok((totals, letters)) => {
                rows.push(cells(&name, "all", numbers(totals).map(u128::from)));
                let letters = (1..).zip(letters);
                rows.extend(letters.map(|(ordinal, totals): (u64, _)| {
                    cells(&name, &ordinal.to_string(), numbers(totals).map(u128::from))
                }));
            }
            Err(refusal) => rows.push(vec![name, refusal.line()]),
        }
    }
    rows.push(cells(&told(total), "all", total.sums));
    let mut widths = HEADS.map(str::len);
    for row in rows.iter().filter(|row| row.len() == HEADS.len()) {
        widths.iter_mut().zip(row).for_each(|(width, cell)| *width = (*width).max(cell.chars().count()));
    }
    let first = rows.iter().map(|row| row[0].chars().count()).max().unwrap_or(0);
    let line = |row: &Vec<String>| {
        let others = row.iter().zip(widths).skip(1).map(|(cell, width)| format!("  {cell:>width$}"));
        format!("{:<first$}{}\n", row[0], others.collect::<String>())
    };
    rows.iter().map(line).collect()
}

/// `2 accepted files (1 refused, 0 not read)`
fn told(total: &Total) -> String {
    let accepted = words::counted(total.accepted, "accepted file");
    format!("{accepted} ({} refused, {} not read)", grouped(total.refused), grouped(total.unread))
}

fn cells(name: &str, letter: &str, numbers: [u128; 9]) -> Vec<String> {
    let [records, _, bundles, items, views, debits, debit, credits, credit] = numbers;
    let mut cells = vec![name.to_string(), letter.to_string()];
    cells.extend([records, bundles, items, views, debits].map(words::grouped_wide));
    cells.extend([words::amount_wide(debit), words::grouped_wide(credits), words::amount_wide(credit)]);
    cells
}

fn for_programs(lines: &[OfFile], total: &Total, form: Form) -> Result<String, Stop> {
    let mut out = Vec::new();
    let mut rows = Rows::new(form, COLUMNS, &mut out);
    let mut put = |name: Cell, level: &str, letter: u64, result: [Cell; 5], sums: Option<[u128; 9]>| {
        let mut cells = vec![name, Cell::text(level), Cell::number(letter)];
        cells.extend(result);
        match sums {
            Some(sums) => cells.extend(sums.map(Cell::Number)),
            None => cells.extend((0..9).map(|_| Cell::Blank)),
        }
        rows.put(&cells).map_err(Stop::output)
    };
    let result =
        |word: &str, number: u64| [Cell::text(word), Cell::number(number), Cell::Blank, Cell::Blank, Cell::Blank];
    for OfFile { name, result: came } in lines {
        match came {
            Ok((totals, letters)) => {
                put(Cell::text(name), "file", 0, result("accepted", 0), Some(numbers(totals).map(u128::from)))?;
                for (ordinal, totals) in (1..).zip(letters) {
                    put(
                        Cell::text(name),
                        "letter",
                        ordinal,
                        result("accepted", 0),
                        Some(numbers(totals).map(u128::from)),
                    )?;
                }
            }
            Err(refusal) => put(Cell::text(name), "file", 0, result("refused", refusal.number().0), None)?,
        }
    }
    let counts = [total.accepted, total.refused, total.unread].map(Cell::number);
    let [accepted, refused, unread] = counts;
    put(Cell::Blank, "total", 0, [Cell::Blank, Cell::Blank, accepted, refused, unread], Some(total.sums))?;
    let text = String::from_utf8_lossy(&out).into_owned();
    Ok(format!("{}{text}{}", form.begin(COLUMNS), form.end(true)))
}
