//! How things are said: names of files, errors of the system, amounts, counts, sums and character sets.

use std::ffi::OsStr;
use std::io::{Error, ErrorKind};

use x9180::book::Figures;
use x9180::{CharacterSet, Totals};

/// A name as it is printed: control characters escaped, so that a name stays on its line.
pub fn name(name: &OsStr) -> String {
    let printed = |letter: char| match letter.is_control() {
        true => letter.escape_default().to_string(),
        false => letter.to_string(),
    };
    name.to_string_lossy().chars().map(printed).collect()
}

/// A name in a message, where `-` is standard input.
pub fn spoken(file: &OsStr) -> String {
    match file.to_str() {
        Some("-") => "standard input".to_string(),
        _ => name(file),
    }
}

/// An error of the system in plain words.
pub fn plain(error: &Error) -> String {
    match error.kind() {
        ErrorKind::NotFound => "there is no such file or folder".to_string(),
        ErrorKind::PermissionDenied => "permission was denied".to_string(),
        ErrorKind::IsADirectory => "it is a folder, not a file".to_string(),
        ErrorKind::NotADirectory => "a part of the path is no folder".to_string(),
        ErrorKind::StorageFull => "no space is left".to_string(),
        ErrorKind::OutOfMemory => "there is not memory enough".to_string(),
        _ => error.to_string(),
    }
}

/// Cents as an amount: `1,234.56`.
pub fn amount(cents: u64) -> String {
    amount_wide(cents.into())
}

/// The same of a sum that may pass 64 bits.
pub fn amount_wide(cents: u128) -> String {
    format!("{}.{:02}", grouped_wide(cents / 100), cents % 100)
}

/// Cents with a sign as an amount: `+1,234.56`, `-0.07`, `0.00`.
pub fn signed_amount(cents: i64) -> String {
    let sign = match cents.signum() {
        1 => "+",
        -1 => "-",
        _ => "",
    };
    format!("{sign}{}", amount(cents.unsigned_abs()))
}

/// A number with a comma before each group of three digits.
pub fn grouped(number: u64) -> String {
    grouped_wide(number.into())
}

/// The same of a number that may pass 64 bits.
pub fn grouped_wide(number: u128) -> String {
    let digits = number.to_string();
    let mut text = String::new();
    for (place, digit) in digits.chars().enumerate() {
        if place > 0 && (digits.len() - place).is_multiple_of(3) {
            text.push(',');
        }
        text.push(digit);
    }
    text
}

/// What a part of a file adds up to: `2 items, 1 view, 1 debit of 3.50, 1 credit of 0.07`.
pub fn sums(totals: &Totals) -> String {
    let parts = [
        counted(totals.items, "item"),
        counted(totals.views, "view"),
        format!("{} of {}", counted(totals.debit_items(), "debit"), amount(totals.debit)),
        format!("{} of {}", counted(totals.credit_items, "credit"), amount(totals.credit)),
    ];
    parts.join(", ")
}

/// What an entry of a day book keeps, or all of them together: `1 bundle, 2 views, 1 debit of 3.50, 0 credits of 0.00`.
pub fn figures(figures: &Figures) -> String {
    let parts = [
        counted(figures.bundles, "bundle"),
        counted(figures.views, "view"),
        format!("{} of {}", counted(figures.debit_items, "debit"), amount(figures.debit)),
        format!("{} of {}", counted(figures.credit_items, "credit"), amount(figures.credit)),
    ];
    parts.join(", ")
}

/// A count with its noun: `1 item`, `2 items`.
pub fn counted(count: u64, noun: &str) -> String {
    format!("{} {noun}{}", grouped(count), if count == 1 { "" } else { "s" })
}

/// A count of entries: `1 entry`, `2 entries`.
pub fn entries(count: u64) -> String {
    format!("{} {}", grouped(count), if count == 1 { "entry" } else { "entries" })
}

/// The set of a file that is not in ASCII. Of the others nothing is said, as before request 5.
pub fn set_told(set: CharacterSet) -> Option<String> {
    match set {
        CharacterSet::Ascii => None,
        CharacterSet::Ebcdic => Some("character set: EBCDIC (code page 037)".to_string()),
    }
}

#[cfg(test)]
mod tests {
    use super::*;

    #[test]
    fn amounts() {
        assert_eq!(amount(0), "0.00");
        assert_eq!(amount(7), "0.07");
        assert_eq!(amount(99_999), "999.99");
        assert_eq!(amount(100_000), "1,000.00");
        assert_eq!(amount(u64::MAX), "184,467,440,737,095,516.15");
        let signed = [0, 7, -7, 100_000, -100_000, i64::MIN, i64::MAX].map(signed_amount);
        let expected = ["0.00", "+0.07", "-0.07", "+1,000.00", "-1,000.00"];
        assert_eq!(signed[..5], expected);
        assert_eq!(signed[5..], ["-92,233,720,368,547,758.08", "+92,233,720,368,547,758.07"]);
    }

    #[test]
    fn names_stay_on_their_line() {
        assert_eq!(name(OsStr::new("a\nb\x1b[31m é")), "a\\nb\\u{1b}[31m é");
    }
}
