//! Values as a draft takes them: text, numbers, dates and times of day. Of the crate's modules it imports `kinds` alone.

use crate::kinds::Form;

/// A value for a field. `&str`, `u64`, [`Date`] and [`Time`] turn into one by themselves.
///
/// Each is put down in characters, and these are justified and filled up as clause 5.3 says of the field's data type: N to the right, with
/// zeros; the MICR types (NBMc, NBMcd, NBMcdo) to the right, with blanks; all others to the left, with blanks. A variable field is as long as its text.
#[derive(Clone, Copy, Debug, PartialEq, Eq)]
pub enum Value<'v> {
    /// The characters themselves.
    Text(&'v str),
    /// A number in digits: a count, or an amount in cents.
    Number(u64),
    /// YYYYMMDD.
    Date(Date),
    /// hhmm or hhmmss, as the field asks.
    Time(Time),
}

impl Value<'_> {
    /// The characters that a field of this form is to hold; `None` for a date or time that there is not.
    pub(crate) fn characters(self, form: Form) -> Option<String> {
        match self {
            Value::Text(text) => Some(text.to_string()),
            Value::Number(number) => Some(number.to_string()),
            Value::Date(date) => date.exists().then(|| format!("{:04}{:02}{:02}", date.year, date.month, date.day)),
            Value::Time(time) if !time.exists() => None,
            Value::Time(time) => Some(match form {
                Form::HourMinute => format!("{:02}{:02}", time.hour, time.minute),
                _ => format!("{:02}{:02}{:02}", time.hour, time.minute, time.second),
            }),
        }
    }

    /// What is asked of a value of this sort, whatever the field.
    pub(crate) fn asked(self) -> &'static str {
        match self {
            Value::Text(_) => "a text",
            Value::Number(_) => "a number",
            Value::Date(_) => "a date of the calendar, in the years 1993 to 9999",
            Value::Time(_) => "a time of day, 00:00:00 to 23:59:59",
        }
    }
}

impl std::fmt::Display for Value<'_> {
    fn fmt(&self, f: &mut std::fmt::Formatter<'_>) -> std::fmt::Result {
        match self {
            Value::Text(text) => shown(f, text),
            Value::Number(number) => write!(f, "{number}"),
            Value::Date(date) => write!(f, "{date}"),
            Value::Time(time) => write!(f, "{time}"),
        }
    }
}

/// The most characters of a text that are shown.
const SHOWN: usize = 64;

/// A text in quotes, on one line.
fn shown(f: &mut std::fmt::Formatter<'_>, text: &str) -> std::fmt::Result {
    let start: String = text.chars().take(SHOWN).collect();
    let escaped = |letter: char| match letter.is_control() {
        true => letter.escape_default().to_string(),
        false => letter.to_string(),
    };
    write!(f, "\"{}\"", start.chars().map(escaped).collect::<String>())?;
    match text.chars().count() {
        all if all > SHOWN => write!(f, " (the first {SHOWN} of {all} characters)"),
        _ => Ok(()),
    }
}

impl<'v> From<&'v str> for Value<'v> {
    fn from(text: &'v str) -> Value<'v> {
        Value::Text(text)
    }
}

impl<'v> From<&'v String> for Value<'v> {
    fn from(text: &'v String) -> Value<'v> {
        Value::Text(text)
    }
}

impl From<u64> for Value<'_> {
    fn from(number: u64) -> Self {
        Value::Number(number)
    }
}

impl From<Date> for Value<'_> {
    fn from(date: Date) -> Self {
        Value::Date(date)
    }
}

impl From<Time> for Value<'_> {
    fn from(time: Time) -> Self {
        Value::Time(time)
    }
}

/// A date of the calendar, in the years 1993 to 9999 that the standard defines. Whether there is such a date is told where it is given to a
/// field, with the field's name.
///
/// ```
/// assert_eq!(x9180::Date::new(2024, 1, 16).to_string(), "2024-01-16");
/// ```
#[derive(Clone, Copy, Debug, PartialEq, Eq, PartialOrd, Ord, Hash)]
pub struct Date {
    year: u16,
    month: u8,
    day: u8,
}

impl Date {
    /// The day of a month of a year, counted from 1.
    pub const fn new(year: u16, month: u8, day: u8) -> Date {
        Date { year, month, day }
    }

    /// Whether there is such a date. The reader lets the 30th of February pass; nobody should write it.
    pub fn exists(self) -> bool {
        let leap = self.year % 4 == 0 && (self.year % 100 != 0 || self.year % 400 == 0);
        let days = match self.month {
            2 if leap => 29,
            2 => 28,
            4 | 6 | 9 | 11 => 30,
            1..=12 => 31,
            _ => 0,
        };
        (1993..=9999).contains(&self.year) && (1..=days).contains(&self.day)
    }
}

impl std::fmt::Display for Date {
    fn fmt(&self, f: &mut std::fmt::Formatter<'_>) -> std::fmt::Result {
        write!(f, "{:04}-{:02}-{:02}", self.year, self.month, self.day)
    }
}

/// A time of day. Whether there is such a time is told where it is given to a field, with the field's name.
///
/// ```
/// assert_eq!(x9180::Time::new(10, 30).seconds(5).to_string(), "10:30:05");
/// ```
#[derive(Clone, Copy, Debug, PartialEq, Eq, PartialOrd, Ord, Hash)]
pub struct Time {
    hour: u8,
    minute: u8,
    second: u8,
}

impl Time {
    /// An hour from 0 to 23 and a minute of it from 0 to 59.
    pub const fn new(hour: u8, minute: u8) -> Time {
        Time { hour, minute, second: 0 }
    }

    /// So many seconds later in the minute, 0 to 59. A field hhmm leaves them out.
    pub const fn seconds(self, second: u8) -> Time {
        Time { second, ..self }
    }

    /// Whether there is such a time.
    pub fn exists(self) -> bool {
        self.hour < 24 && self.minute < 60 && self.second < 60
    }
}

impl std::fmt::Display for Time {
    fn fmt(&self, f: &mut std::fmt::Formatter<'_>) -> std::fmt::Result {
        write!(f, "{:02}:{:02}:{:02}", self.hour, self.minute, self.second)
    }
}

#[cfg(test)]
mod tests {
    use super::*;

    #[test]
    fn dates_of_the_calendar() {
        let dates =
            [(1993, 1, 1), (9999, 12, 31), (2024, 2, 29), (2000, 2, 29), (2023, 2, 28), (2024, 4, 30), (2024, 7, 31)];
        for (year, month, day) in dates {
            let date = Date::new(year, month, day);
            assert!(date.exists(), "{date}");
            let characters = Value::from(date).characters(Form::Date).unwrap();
            assert_eq!(characters, date.to_string().replace('-', ""));
            assert_eq!(characters.len(), 8);
        }
        let none = [
            (1992, 12, 31),
            (10_000, 1, 1),
            (0, 1, 1),
            (2023, 2, 29),
            (2100, 2, 29),
            (2024, 2, 30),
            (2024, 4, 31),
            (2024, 0, 1),
            (2024, 13, 1),
            (2024, 1, 0),
            (2024, 1, 32),
            (u16::MAX, u8::MAX, u8::MAX),
        ];
        for (year, month, day) in none {
            let date = Date::new(year, month, day);
            assert!(!date.exists() && Value::from(date).characters(Form::Date).is_none(), "{date}");
        }
    }

    #[test]
    fn times_of_the_day() {
        let characters = |time: Time, form| Value::from(time).characters(form);
        assert_eq!(characters(Time::new(23, 59), Form::HourMinute).as_deref(), Some("2359"));
        assert_eq!(characters(Time::new(0, 0), Form::HourMinuteSecond).as_deref(), Some("000000"));
        assert_eq!(characters(Time::new(1, 2).seconds(59), Form::HourMinute).as_deref(), Some("0102"));
        assert_eq!(characters(Time::new(1, 2).seconds(59), Form::HourMinuteSecond).as_deref(), Some("010259"));
        for time in [Time::new(24, 0), Time::new(0, 60), Time::new(0, 0).seconds(60), Time::new(255, 255)] {
            assert!(!time.exists() && characters(time, Form::HourMinute).is_none(), "{time}");
        }
    }

    #[test]
    fn values_on_one_line() {
        assert_eq!(Value::from("a\nb\"\u{e9}").to_string(), "\"a\\nb\"\u{e9}\"");
        assert_eq!(Value::from(7).to_string(), "7");
        let long = "\u{e9}".repeat(65);
        let shown = format!("\"{}\" (the first 64 of 65 characters)", "\u{e9}".repeat(64));
        assert_eq!(Value::from(&long).to_string(), shown);
    }
}
