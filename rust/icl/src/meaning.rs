//! What a field means, in plain words: amounts, dates, times, routing numbers, numbers and codes. It decides nothing: where nothing can be said, nothing is.

use x9180::{DataType, Field, Form, Kind, RoutingForm};

use crate::codes;
use crate::words::{amount, counted, grouped};

const MONTHS: [&str; 12] = [
    "January",
    "February",
    "March",
    "April",
    "May",
    "June",
    "July",
    "August",
    "September",
    "October",
    "November",
    "December",
];

/// What these characters mean in a field.
pub fn of(field: &Field, text: &str) -> String {
    if text.bytes().all(|byte| byte == b' ') {
        return "blank".to_string();
    }
    let meaning = match field.form {
        _ if field.number == 1 => text.parse().ok().and_then(Kind::of).map(|kind| kind.name.to_string()),
        Form::Date => date(text),
        Form::HourMinute | Form::HourMinuteSecond => time(text),
        Form::Routing(forms) => routing(forms, text),
        _ => codes::words(field.name, text).map(str::to_string).or_else(|| number(field, text)),
    };
    meaning.unwrap_or_default()
}

fn digits(text: &str) -> Option<u64> {
    text.bytes().all(|byte| byte.is_ascii_digit()).then(|| text.parse().ok())?
}

/// A day of the calendar or none: the standard asks for no more than a day from 01 to 31.
fn date(text: &str) -> Option<String> {
    let (year, month, day) = (digits(text.get(..4)?)?, digits(text.get(4..6)?)?, digits(text.get(6..8)?)?);
    let month = MONTHS.get(usize::try_from(month.checked_sub(1)?).ok()?)?;
    Some(format!("{day} {month} {year}"))
}

fn time(text: &str) -> Option<String> {
    digits(text)?;
    let parts: Vec<&str> = (0..text.len()).step_by(2).filter_map(|at| text.get(at..at + 2)).collect();
    Some(parts.join(":"))
}

/// The parts of a routing number. Where the number of a non-financial institution may stand, nine digits do not tell which it is.
fn routing(forms: &[RoutingForm], text: &str) -> Option<String> {
    let (before, behind) = text.split_once('-').unwrap_or((text, ""));
    match (before.len(), behind.len()) {
        (5, 3) => Some(format!("transit number {before}, Canadian financial institution number {behind}")),
        (4, 4) => Some(format!("Federal Reserve prefix {before}, ABA institution identifier {behind}")),
        (9, 0) if !forms.contains(&RoutingForm::NonFinancial) => {
            let (prefix, institution, check) = (text.get(..4)?, text.get(4..8)?, text.get(8..)?);
            digits(text)?;
            Some(format!(
                "Federal Reserve prefix {prefix}, ABA institution identifier {institution}, check digit {check}"
            ))
        }
        _ => None,
    }
}

fn number(field: &Field, text: &str) -> Option<String> {
    let value = digits(text.trim())?;
    match field.name {
        name if name.ends_with("Amount") => Some(amount(value)),
        name if name.starts_with("Length of ") => Some(counted(value, "byte")),
        name if name.ends_with("Count") => Some(grouped(value)),
        _ if matches!(field.data_type, DataType::N | DataType::NB) => Some(value.to_string()),
        _ => None,
    }
}

#[cfg(test)]
mod tests {
    use super::*;

    fn meaning(kind: u64, field: u64, text: &str) -> String {
        of(Kind::of(kind).unwrap().field(field).unwrap(), text)
    }

    #[test]
    fn meanings() {
        for (kind, field, text, expected) in [
            (1, 1, "01", "File Header Record"),
            (1, 6, "20240116", "16 January 2024"),
            (1, 6, "20050230", "30 February 2005"),
            (1, 6, "20051301", ""),
            (1, 7, "1030", "10:30"),
            (1, 4, "123456780", ""),
            (1, 4, "00002-003", "transit number 00002, Canadian financial institution number 003"),
            (1, 8, "N", "original file"),
            (25, 4, "123456780", "Federal Reserve prefix 1234, ABA institution identifier 5678, check digit 0"),
            (25, 4, "1234-5678", "Federal Reserve prefix 1234, ABA institution identifier 5678"),
            (25, 4, "12-4 678*", ""),
            (25, 6, "0000012550", "125.50"),
            (25, 7, "000000000000101", "101"),
            (25, 7, "1              ", "1"),
            (25, 7, "               ", "blank"),
            (25, 12, "02", "2"),
            (50, 21, "103005", "10:30:05"),
            (52, 20, "0001139", "1,139 bytes"),
            (70, 5, "01234", "1,234"),
            (27, 2, "a thing             ", ""),
        ] {
            assert_eq!(meaning(kind, field, text), expected, "{kind}.{field} {text:?}");
        }
    }
}
