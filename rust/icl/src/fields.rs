//! Fields of records as lists show them: routing numbers, dates and sequence numbers, as they stand in the file.

use std::io::{Result, Write};

use x9180::{Field, Form, Row, Usage};

/// Lines of fields are broken before they grow longer than this.
const WIDTH: usize = 110;

/// Writes the fields of records that are wanted, translated where the file is in EBCDIC. A conditional field left blank is not shown.
pub fn write<'r>(
    file: &[u8],
    indent: usize,
    rows: impl IntoIterator<Item = &'r Row>,
    out: &mut dyn Write,
) -> Result<()> {
    let mut line = String::new();
    for row in rows {
        for field in row.kind().map_or(&[][..], |kind| kind.fields).iter().filter(|field| is_wanted(field)) {
            let Some(text) = row.text(file, field.number) else { continue };
            let blank = text.chars().all(|character| character == ' ');
            if blank && field.usage == Usage::Conditional {
                continue;
            }
            let shown = format!("{} \"{text}\"", field.name);
            if !line.is_empty() && indent + line.len() + 2 + shown.len() > WIDTH {
                writeln!(out, "{:indent$}{line},", "")?;
                line.clear();
            }
            line.push_str(if line.is_empty() { "" } else { ", " });
            line.push_str(&shown);
        }
    }
    match line.is_empty() {
        true => Ok(()),
        false => writeln!(out, "{:indent$}{line}", ""),
    }
}

/// Routing numbers, dates, sequence numbers, and what a credit is for (clause 26.2).
fn is_wanted(field: &Field) -> bool {
    matches!(field.form, Form::Routing(_) | Form::Date)
        || field.name.ends_with("Sequence Number")
        || field.name == "Record Usage Indicator"
}
