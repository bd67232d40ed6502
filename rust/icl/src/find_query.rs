//! What `icl find` looks for. A number is the same number with zeros or blanks before it and blanks behind it, as the standard's fields fill it up.

use std::ffi::OsStr;

use x9180::{Item, Row};

use crate::args::Args;
use crate::facts::{deposit_account, field_numbers};
use crate::stop::Stop;
use crate::words::{self, amount};

/// What is looked for: an item has to match all that is given.
pub struct Query {
    sequence: Option<String>,
    cents: Option<u64>,
    routing: Option<String>,
    account: Option<String>,
}

/// The fields of an item that matched: the record and the field's number.
pub type Matched<'r> = Vec<(&'r Row, u64)>;

impl Query {
    pub fn of(args: &Args) -> Result<Query, Stop> {
        let digits = |letter: char| letter.is_ascii_digit() || letter == ' ';
        let routing = |letter: char| digits(letter) || letter == '-' || letter == '*';
        let query = Query {
            sequence: number(args.option("--sequence"), "sequence number", "digits", digits)?,
            cents: args.option("--amount").map(cents).transpose()?,
            routing: number(args.option("--routing"), "routing number", "digits and dashes", routing)?,
            account: number(args.option("--account"), "account", "a text", |_| true)?,
        };
        match query.words().is_empty() {
            true => Err(Stop::Usage("--sequence, --amount, --routing or --account is missing".to_string())),
            false => Ok(query),
        }
    }

    /// What is looked for, in plain words: `sequence number 101, amount 125.50`.
    pub fn words(&self) -> String {
        let parts = [
            self.sequence.as_ref().map(|number| format!("sequence number {number}")),
            self.cents.map(|cents| format!("amount {}", amount(cents))),
            self.routing.as_ref().map(|number| format!("routing number {number}")),
            self.account.as_ref().map(|text| format!("account {text}")),
        ];
        parts.into_iter().flatten().collect::<Vec<_>>().join(", ")
    }

    /// The fields by which an item matches all that is looked for.
    pub fn matches<'r>(&self, item: &Item<'r>, file: &[u8]) -> Option<Matched<'r>> {
        if self.cents.is_some_and(|cents| cents != item.amount()) {
            return None;
        }
        let (row, fields) = (item.rows().first()?, field_numbers(item.kind()));
        let is =
            |field: u64, wanted: &str| row.text(file, field).and_then(|text| plain(&text)).as_deref() == Some(wanted);
        let mut matched = Matched::new();
        matched.extend(self.cents.map(|_| (row, fields.amount)));
        for (field, wanted) in [(fields.sequence, &self.sequence), (fields.routing, &self.routing)] {
            let Some(wanted) = wanted else { continue };
            matched.push(is(field, wanted).then_some((row, field))?);
        }
        if let Some(wanted) = &self.account {
            let accounts = accounts(item, fields.account, wanted, file);
            matched.extend((!accounts.is_empty()).then_some(accounts)?);
        }
        Some(matched)
    }
}

/// The fields of an item and of its addenda that hold an account with this in it.
fn accounts<'r>(item: &Item<'r>, own: u64, wanted: &str, file: &[u8]) -> Matched<'r> {
    let addenda = item.addenda().filter_map(|row| Some((row, deposit_account(row)?)));
    let fields = item.rows().first().map(|row| (row, own)).into_iter().chain(addenda);
    let holds =
        |(row, field): &(&Row, u64)| row.text(file, *field).is_some_and(|text| without_blanks(&text).contains(wanted));
    fields.filter(holds).collect()
}

fn without_blanks(text: &str) -> String {
    text.chars().filter(|letter| *letter != ' ').collect()
}

/// A number without what only fills its field up: blanks, and zeros before it. Nothing where all is blank.
fn plain(text: &str) -> Option<String> {
    let text = without_blanks(text);
    let number = text.trim_start_matches('0');
    match (text.is_empty(), number.is_empty()) {
        (true, _) => None,
        (_, true) => Some("0".to_string()),
        _ => Some(number.to_string()),
    }
}

fn number(
    word: Option<&OsStr>,
    what: &str,
    asked: &str,
    admits: impl Fn(char) -> bool,
) -> Result<Option<String>, Stop> {
    let Some(word) = word else { return Ok(None) };
    let text = word.to_str().filter(|text| text.chars().all(admits)).and_then(plain);
    let wrong =
        || Stop::Usage(format!("{} is no {what}: {asked} are asked", quoted(word)).replace("a text are", "a text is"));
    text.map(Some).ok_or_else(wrong)
}

/// An amount with a point is in dollars and cents, one without in cents, as the file has it.
fn cents(word: &OsStr) -> Result<u64, Stop> {
    let wrong = || {
        let asked = "dollars and cents as 125.50, or cents as 12550, are asked";
        Stop::Usage(format!("{} is no amount: {asked}", quoted(word)))
    };
    let text = word.to_str().ok_or_else(wrong)?.trim().replace(',', "");
    let (whole, part) = match text.split_once('.') {
        Some((whole, part)) if part.len() == 2 => (whole, part),
        Some(_) => return Err(wrong()),
        None => (text.as_str(), ""),
    };
    let digits = format!("{whole}{part}");
    let is_number = !whole.is_empty() && digits.bytes().all(|byte| byte.is_ascii_digit());
    // An amount of more digits than a number of 64 bits takes stands in no file, and is looked for in vain.
    match is_number {
        true => Ok(digits.parse().unwrap_or(u64::MAX)),
        false => Err(wrong()),
    }
}

fn quoted(word: &OsStr) -> String {
    match word.is_empty() || word.as_encoded_bytes().contains(&b' ') {
        true => format!("\"{}\"", words::name(word)),
        false => words::name(word),
    }
}

#[cfg(test)]
mod tests {
    use super::*;

    #[test]
    fn numbers_without_what_fills_them_up() {
        for (text, number) in
            [("000101", "101"), ("101   ", "101"), ("  0101 ", "101"), ("0000", "0"), ("00002-003", "2-003")]
        {
            assert_eq!(plain(text).as_deref(), Some(number), "{text}");
        }
        assert_eq!((plain(""), plain("    ")), (None, None));
    }

    #[test]
    fn amounts_in_dollars_and_in_cents() {
        let read = |text: &str| cents(OsStr::new(text)).ok();
        for (text, cents) in
            [("125.50", 12_550), ("12550", 12_550), ("0000012550", 12_550), ("1,234.56", 123_456), ("0.07", 7)]
        {
            assert_eq!(read(text), Some(cents), "{text}");
        }
        for text in ["", "125.5", "125.505", ".50", "1 2", "-1", "12a", "1.2.3"] {
            assert_eq!(read(text), None, "{text}");
        }
    }
}
