//! What cannot be put into a draft, and why. The form only: `fit` finds the words. Of the crate's modules it imports `kinds` alone.

use crate::kinds::{Field, Kind};

/// A value that cannot be put into a draft: it does not fit its field, it is not in the field's data type, or there is no such field to give.
/// What fits, the proved library has yet to judge.
///
/// `{}` puts the words on one line, `{:#}` on a line each.
///
/// ```
/// let mut check = x9180::Record::new(25)?;
/// let misfit = check.set(6, 12_345_678_901).unwrap_err();
/// assert_eq!(
///     format!("{misfit:#}"),
///     "Check Detail Record (type 25)\n\
///      field 6, Item Amount\n\
///      given 12345678901\n\
///      asked: digits, at most 10 of them"
/// );
/// # Ok::<(), x9180::Misfit>(())
/// ```
#[derive(Clone, Debug, PartialEq, Eq)]
pub struct Misfit {
    pub(crate) record: u64,
    /// Boxed, so that a `Result` with a misfit in it stays small.
    pub(crate) words: Box<Words>,
}

#[derive(Clone, Debug, PartialEq, Eq)]
pub(crate) struct Words {
    pub kind: Option<&'static Kind>,
    pub field: u64,
    pub given: Option<String>,
    pub asked: String,
}

impl Misfit {
    /// At a field of a record that stands in no draft yet.
    pub(crate) fn at(kind: &'static Kind, field: u64, given: Option<String>, asked: impl Into<String>) -> Misfit {
        Misfit { record: 0, words: Box::new(Words { kind: Some(kind), field, given, asked: asked.into() }) }
    }

    /// Where not even a record is there.
    pub(crate) fn without_record(record: u64, given: Option<String>, asked: impl Into<String>) -> Misfit {
        Misfit { record, words: Box::new(Words { kind: None, field: 0, given, asked: asked.into() }) }
    }

    /// The same at this record of a draft.
    pub(crate) fn of_record(self, record: u64) -> Misfit {
        Misfit { record, ..self }
    }

    /// The record of the draft, from 1; 0 where the record stands in no draft yet.
    pub fn record(&self) -> u64 {
        self.record
    }

    /// The kind of the record, where there is one.
    pub fn kind(&self) -> Option<&'static Kind> {
        self.words.kind
    }

    /// The field, from 1; 0 where it is not about a field.
    pub fn field(&self) -> u64 {
        self.words.field
    }

    /// The field, with its name in the standard.
    pub fn named_field(&self) -> Option<&'static Field> {
        self.kind()?.field(self.field())
    }

    /// What was given, as it is shown.
    pub fn given(&self) -> Option<&str> {
        self.words.given.as_deref()
    }

    /// What is asked, in plain words.
    pub fn asked(&self) -> &str {
        &self.words.asked
    }

    fn lines(&self) -> Vec<String> {
        let kind = self.kind().map(|kind| kind.to_string());
        let record =
            Some(self.record).filter(|record| *record > 0).map(|record| format!("record {record} of the draft"));
        let place = [record, kind].into_iter().flatten().collect::<Vec<_>>().join(", ");
        let field = match (self.field(), self.named_field()) {
            (0, _) => None,
            (number, Some(field)) => Some(format!("field {number}, {}", field.name)),
            (number, None) => Some(format!("field {number}")),
        };
        let given = self.given().map(|given| format!("given {given}"));
        let asked = format!("asked: {}", self.asked());
        [Some(place).filter(|place| !place.is_empty()), field, given, Some(asked)].into_iter().flatten().collect()
    }
}

impl std::fmt::Display for Misfit {
    fn fmt(&self, f: &mut std::fmt::Formatter<'_>) -> std::fmt::Result {
        f.write_str(&self.lines().join(if f.alternate() { "\n" } else { "; " }))
    }
}

impl std::error::Error for Misfit {}
