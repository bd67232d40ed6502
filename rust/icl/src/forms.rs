//! Rows for programs: CSV (RFC 4180, lines ended by a line feed) or JSON (RFC 8259). The columns are the same in both; docs/ICL.md has them.

use std::io::{Result, Write};

use crate::json::quoted;

/// How a listing is written.
#[derive(Clone, Copy, PartialEq, Eq)]
pub enum Form {
    /// For people.
    Text,
    Csv,
    Json,
}

/// One value of a row.
pub enum Cell {
    /// There is none: empty in CSV, `null` in JSON.
    Blank,
    Text(String),
    Number(u128),
    Flag(bool),
    /// Parted by blanks in CSV, a list in JSON.
    Numbers(Vec<u64>),
}

impl Cell {
    pub fn text(text: impl Into<String>) -> Cell {
        Cell::Text(text.into())
    }

    pub fn number(number: u64) -> Cell {
        Cell::Number(number.into())
    }

    fn csv(&self) -> String {
        match self {
            Cell::Blank => String::new(),
            Cell::Text(text) if text.contains([',', '"', '\n', '\r']) => format!("\"{}\"", text.replace('"', "\"\"")),
            Cell::Text(text) => text.clone(),
            Cell::Number(number) => number.to_string(),
            Cell::Flag(flag) => flag.to_string(),
            Cell::Numbers(numbers) => joined(numbers, " "),
        }
    }

    fn json(&self) -> String {
        match self {
            Cell::Blank => "null".to_string(),
            Cell::Text(text) => quoted(text),
            Cell::Number(number) => number.to_string(),
            Cell::Flag(flag) => flag.to_string(),
            Cell::Numbers(numbers) => format!("[{}]", joined(numbers, ", ")),
        }
    }
}

fn joined(numbers: &[u64], between: &str) -> String {
    numbers.iter().map(u64::to_string).collect::<Vec<_>>().join(between)
}

impl Form {
    /// What stands before the first row.
    pub fn begin(self, columns: &[&str]) -> String {
        match self {
            Form::Text => String::new(),
            Form::Csv => format!("{}\n", columns.join(",")),
            Form::Json => "[".to_string(),
        }
    }

    /// What stands behind the last row, whether or not there was any.
    pub fn end(self, any: bool) -> &'static str {
        match (self, any) {
            (Form::Json, true) => "\n]\n",
            (Form::Json, false) => "]\n",
            _ => "",
        }
    }

    /// What stands between the rows of one file and those of the next.
    pub fn between(self) -> &'static str {
        match self {
            Form::Json => ",",
            _ => "",
        }
    }
}

/// The rows of one file, one after the other.
pub struct Rows<'o> {
    form: Form,
    columns: &'static [&'static str],
    out: &'o mut dyn Write,
    any: bool,
}

impl<'o> Rows<'o> {
    pub fn new(form: Form, columns: &'static [&'static str], out: &'o mut dyn Write) -> Rows<'o> {
        Rows { form, columns, out, any: false }
    }

    /// Writes a row, a cell for each column.
    pub fn put(&mut self, cells: &[Cell]) -> Result<()> {
        match self.form {
            Form::Json => {
                let pairs =
                    self.columns.iter().zip(cells).map(|(column, cell)| format!("\"{column}\": {}", cell.json()));
                let between = if self.any { "," } else { "" };
                write!(self.out, "{between}\n  {{{}}}", pairs.collect::<Vec<_>>().join(", "))?;
            }
            _ => writeln!(self.out, "{}", cells.iter().map(Cell::csv).collect::<Vec<_>>().join(","))?,
        }
        self.any = true;
        Ok(())
    }
}

#[cfg(test)]
mod tests {
    use super::*;

    const COLUMNS: &[&str] = &["a", "b", "c", "d", "e"];

    fn written(form: Form, rows: &[[Cell; 5]]) -> String {
        let mut out = Vec::new();
        let mut writer = Rows::new(form, COLUMNS, &mut out);
        rows.iter().for_each(|row| writer.put(row).unwrap());
        format!("{}{}{}", form.begin(COLUMNS), String::from_utf8(out).unwrap(), form.end(!rows.is_empty()))
    }

    fn rows() -> [[Cell; 5]; 2] {
        [
            [Cell::Blank, Cell::text("a, \"b\"\n"), Cell::number(7), Cell::Flag(true), Cell::Numbers(vec![1, 2])],
            [Cell::text("x"), Cell::text(""), Cell::Number(u128::MAX), Cell::Flag(false), Cell::Numbers(vec![])],
        ]
    }

    #[test]
    fn rows_in_csv() {
        let expected = "a,b,c,d,e\n,\"a, \"\"b\"\"\n\",7,true,1 2\nx,,340282366920938463463374607431768211455,false,\n";
        assert_eq!(written(Form::Csv, &rows()), expected);
        assert_eq!(written(Form::Csv, &[]), "a,b,c,d,e\n");
    }

    #[test]
    fn rows_in_json() {
        let expected = "[\n  {\"a\": null, \"b\": \"a, \\\"b\\\"\\u000a\", \"c\": 7, \"d\": true, \"e\": [1, 2]},\n  \
                        {\"a\": \"x\", \"b\": \"\", \"c\": 340282366920938463463374607431768211455, \"d\": false, \"e\": []}\n]\n";
        assert_eq!(written(Form::Json, &rows()), expected);
        assert_eq!(written(Form::Json, &[]), "[]\n");
    }
}
