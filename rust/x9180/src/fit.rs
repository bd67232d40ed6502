//! What may be put into which field of a draft, and in which characters. It judges no more than that the value fits: whether it is right there, the
//! proved library decides. Of the crate's modules it imports `value`, `misfit` and `kinds` alone.

use std::ops::Range;

use crate::kinds::{DataType, Field, Kind, Place};
use crate::misfit::Misfit;
use crate::value::Value;

/// Where a given field's characters or bytes go.
#[derive(Clone, Debug, PartialEq, Eq)]
pub(crate) enum Slot {
    /// Into the fixed part, there counted from 0.
    Fixed(Range<usize>),
    /// Into the variable field at this place among them, from 0.
    Part(usize),
}

/// The kind of the records of a type that is carried.
pub(crate) fn carried(record_type: u64) -> Result<&'static Kind, Misfit> {
    Kind::of(record_type).filter(|kind| kind.is_carried()).ok_or_else(|| {
        let given = Kind::of(record_type).map_or_else(|| format!("type {record_type}"), |kind| kind.to_string());
        Misfit::without_record(0, Some(given), "a type of record that is carried here")
    })
}

/// Where a field of characters has them, and the value in characters, which fill the field where it is fixed.
pub(crate) fn characters(kind: &'static Kind, number: u64, value: Value<'_>) -> Result<(Slot, String), Misfit> {
    let (field, slot) = given(kind, number)?;
    let misfit = |asked: String| Misfit::at(kind, number, Some(value.to_string()), asked);
    if field.data_type == DataType::Binary {
        return Err(misfit("bytes, not a text".to_string()));
    }
    let of_type = field.data_type.characters();
    let text = value.characters(field.form).ok_or_else(|| misfit(value.asked().to_string()))?;
    if let Some(stranger) = text.chars().find(|character| !field.data_type.admits(*character)) {
        return Err(misfit(format!("{of_type}; {} is none of them", Value::Text(&stranger.to_string()))));
    }
    // Every character is one byte here.
    let most = kind.most(number);
    if text.len() > most {
        return Err(misfit(format!("{of_type}, at most {most} of them")));
    }
    match &slot {
        // Zeros where nothing was given would be an amount of nothing.
        Slot::Fixed(_) if text.is_empty() && !field.data_type.admits(' ') => Err(misfit(of_type.to_string())),
        Slot::Fixed(_) => Ok((slot, filled(field.data_type, &text, most))),
        Slot::Part(_) => Ok((slot, text)),
    }
}

/// The place of a Binary field among the variable ones, where so many bytes fit into it.
pub(crate) fn binary(kind: &'static Kind, number: u64, length: usize) -> Result<usize, Misfit> {
    let (field, slot) = given(kind, number)?;
    let misfit = |asked: String| Misfit::at(kind, number, Some(format!("{length} bytes")), asked);
    let most = kind.most(number);
    match slot {
        Slot::Part(_) if field.data_type == DataType::Binary && length > most => {
            Err(misfit(format!("at most {most} bytes")))
        }
        Slot::Part(place) if field.data_type == DataType::Binary => Ok(place),
        _ => Err(misfit("a text, not bytes".to_string())),
    }
}

/// Whether the MICR total of a record of this kind may be asked to be blank.
pub(crate) fn micr_total(kind: &'static Kind) -> Result<(), Misfit> {
    let asked = "a Bundle Control Record (type 70), which alone has a MICR total that may be blank";
    (kind.number == 70).then_some(()).ok_or_else(|| Misfit::at(kind, 0, None, asked))
}

/// A field that a draft gives, and where it goes.
pub(crate) fn given(kind: &'static Kind, number: u64) -> Result<(&'static Field, Slot), Misfit> {
    let misfit = |asked: &str| Misfit::at(kind, number, None, asked);
    let field =
        kind.field(number).ok_or_else(|| misfit("the number of a field: the record has none of this number"))?;
    if kind.works_out(number) {
        return Err(misfit("nothing: the writer works it out"));
    }
    let slot = match field.place {
        Place::Positions(first, last) => Slot::Fixed(first - 1..last),
        Place::SizedBy(_) => Slot::Part(kind.parts().take_while(|part| part.number != number).count()),
    };
    Ok((field, slot))
}

/// Clause 5.3: a text that is shorter than its field is justified, and the field is filled up.
fn filled(data_type: DataType, text: &str, width: usize) -> String {
    let (fill, before) = data_type.fill();
    let filling: String = std::iter::repeat_n(fill, width.saturating_sub(text.len())).collect();
    match before {
        true => filling + text,
        false => text.to_string() + &filling,
    }
}

#[cfg(test)]
mod tests {
    use super::*;
    use crate::value::{Date, Time};

    fn fitted<'v>(record_type: u64, field: u64, value: impl Into<Value<'v>>) -> Result<String, String> {
        let kind = carried(record_type).unwrap();
        let fitted = characters(kind, field, value.into());
        fitted.map(|(_, characters)| characters).map_err(|misfit| misfit.asked().to_string())
    }

    /// Clause 5.3: each data type has its side and its filling.
    #[test]
    fn fields_are_filled_up() {
        assert_eq!(fitted(25, 6, 123).as_deref(), Ok("0000000123")); // N
        assert_eq!(fitted(25, 6, "123").as_deref(), Ok("0000000123"));
        assert_eq!(fitted(25, 7, 123).as_deref(), Ok("123            ")); // NB
        assert_eq!(fitted(25, 2, "12-3").as_deref(), Ok("           12-3")); // NBMcd
        assert_eq!(fitted(25, 5, "12/").as_deref(), Ok("                 12/")); // NBMcdo
        assert_eq!(fitted(25, 3, "*").as_deref(), Ok("*")); // NBMc
        assert_eq!(fitted(1, 4, "123").as_deref(), Ok("123      ")); // NBD
        assert_eq!(fitted(32, 4, "2005??").as_deref(), Ok("2005??  ")); // NBQ
        assert_eq!(fitted(1, 9, "A B").as_deref(), Ok("A B               ")); // ANS
        assert_eq!(fitted(1, 9, "").as_deref(), Ok("                  "));
        assert_eq!(fitted(1, 14, " ").as_deref(), Ok(" ")); // AB
        assert_eq!(fitted(1, 6, Date::new(2024, 1, 16)).as_deref(), Ok("20240116"));
        assert_eq!(fitted(1, 7, Time::new(9, 5)).as_deref(), Ok("0905"));
        assert_eq!(fitted(27, 4, Time::new(9, 5)).as_deref(), Ok("090500"));
        // A variable field is as long as its text.
        assert_eq!(fitted(27, 14, " 1 ").as_deref(), Ok(" 1 "));
        assert_eq!(fitted(27, 13, "").as_deref(), Ok(""));
    }

    #[test]
    fn what_does_not_fit() {
        let asked = |asked: &str| Err(asked.to_string());
        assert_eq!(fitted(25, 6, 12_345_678_901), asked("digits, at most 10 of them"));
        assert_eq!(fitted(25, 6, ""), asked("digits"));
        assert_eq!(fitted(25, 6, "12.34"), asked("digits; \".\" is none of them"));
        assert_eq!(fitted(1, 9, "NINETEEN CHARACTERS"), asked("printable characters, at most 18 of them"));
        assert_eq!(fitted(1, 9, "Cr\u{e9}dit"), asked("printable characters; \"\u{e9}\" is none of them"));
        assert_eq!(fitted(1, 9, "A\n"), asked("printable characters; \"\\n\" is none of them"));
        assert_eq!(fitted(1, 14, "A"), asked("blanks; \"A\" is none of them"));
        assert_eq!(fitted(1, 8, 1), asked("letters and blanks; \"1\" is none of them"));
        let calendar = asked("a date of the calendar, in the years 1993 to 9999");
        assert_eq!(fitted(1, 6, Date::new(2023, 2, 29)), calendar);
        assert_eq!(fitted(1, 7, Time::new(24, 0)), asked("a time of day, 00:00:00 to 23:59:59"));
        let most = "digits, blanks and the marks * - / $ #, at most 99 of them";
        assert_eq!(fitted(27, 14, &"1".repeat(100)), asked(most));
        assert!(fitted(27, 14, &"1".repeat(99)).is_ok() && fitted(27, 13, &"1".repeat(9_999)).is_ok());
        assert_eq!(fitted(52, 27, "text"), asked("bytes, not a text"));
        assert_eq!(fitted(25, 15, "1"), asked("the number of a field: the record has none of this number"));
        for (record_type, field) in [(25, 1), (25, 12), (26, 2), (27, 6), (52, 20), (70, 4), (90, 9), (99, 3)] {
            assert_eq!(fitted(record_type, field, "1"), asked("nothing: the writer works it out"));
        }
    }

    #[test]
    fn bytes_that_do_not_fit() {
        let asked = |field, length| {
            let kind = carried(52).unwrap();
            binary(kind, field, length).map_err(|misfit| misfit.asked().to_string())
        };
        assert_eq!(
            [(23, 99_999), (26, 99_999), (27, 9_999_999), (28, 0)].map(|(f, l)| asked(f, l).unwrap()),
            [1, 4, 5, 6]
        );
        assert_eq!(asked(27, 10_000_000), Err("at most 9999999 bytes".to_string()));
        assert_eq!(asked(22, 1), Err("a text, not bytes".to_string()));
        assert_eq!(asked(5, 1), Err("a text, not bytes".to_string()));
        assert_eq!(asked(20, 1), Err("nothing: the writer works it out".to_string()));
    }

    #[test]
    fn types_that_are_not_carried() {
        let misfit = |record_type| carried(record_type).unwrap_err().to_string();
        let asked = "asked: a type of record that is carried here";
        assert_eq!(misfit(68), format!("given User Record (type 68); {asked}"));
        assert_eq!(misfit(7), format!("given type 7; {asked}"));
        assert!(carried(25).is_ok());
    }
}
