//! One record of a file that is made from nothing: filled in by name, and what of it did not fit. Of the crate's modules it imports `given`, `value`
//! and `misfit` alone.

use crate::given::Record;
use crate::misfit::Misfit;
use crate::value::Value;

/// A record in the making: its values, or the first that did not fit.
#[derive(Clone, Debug)]
pub(crate) struct Entry<'p>(Result<Record<'p>, Misfit>);

impl<'p> Entry<'p> {
    pub fn new<const COUNT: usize>(record_type: u64, values: [(u64, Value<'_>); COUNT]) -> Entry<'p> {
        let mut entry = Entry(Record::new(record_type));
        values.into_iter().for_each(|(field, value)| entry.give(field, value));
        entry
    }

    pub fn give<'v>(&mut self, field: u64, value: impl Into<Value<'v>>) {
        self.change(|record| record.set(field, value));
    }

    pub fn lend(&mut self, field: u64, bytes: &'p [u8]) {
        self.change(|record| record.lend(field, bytes));
    }

    pub fn change(&mut self, change: impl FnOnce(&mut Record<'p>) -> Result<(), Misfit>) {
        if let Err(misfit) = self.0.as_mut().map_or(Ok(()), change) {
            self.0 = Err(misfit);
        }
    }

    pub fn text(&self, field: u64) -> Option<String> {
        self.0.as_ref().ok()?.text(field)
    }

    /// The record, as the one of this number in its draft.
    pub fn record(self, number: u64) -> Result<Record<'p>, Misfit> {
        self.0.map_err(|misfit| misfit.of_record(number))
    }

    /// Fills in what the records over an Image View Data Record tell, as far as it was left blank.
    pub fn fill_in(&mut self, key: &Key) {
        for (field, value) in (2..).zip(&key.0) {
            let is_blank = self.text(field).is_some_and(|text| text.chars().all(|character| character == ' '));
            if let Some(value) = value.as_ref().filter(|_| is_blank) {
                self.give(field, value);
            }
        }
    }
}

/// What a view repeats of the records over it: fields 2 to 5 of its Image View Data Record.
#[derive(Clone, Default)]
pub(crate) struct Key([Option<String>; 4]);

impl Key {
    /// Of a bundle's header; outside a bundle, of the cash letter's, which has no cycle number.
    pub fn of_header(header: &Entry<'_>, cycle_number: Option<u64>) -> Key {
        Key([header.text(4), header.text(5), cycle_number.and_then(|field| header.text(field)), None])
    }

    pub fn with_item(&self, sequence_number: Option<String>) -> Key {
        let Key([institution, date, cycle, _]) = self.clone();
        Key([institution, date, cycle, sequence_number])
    }
}

/// The methods that give fields by their names in the standard, and the list of them for the tests.
macro_rules! gives {
    ($maker:ident.$entry:ident = $list:ident, $kind:literal: $($number:literal $name:ident: $type:ty,)*) => {
        impl<'p> $maker<'p> {
            $(
                #[doc = concat!("Gives field ", $number, " of the ", $kind, ".")]
                #[must_use]
                pub fn $name(mut self, value: $type) -> $maker<'p> {
                    self.$entry.give($number, value);
                    self
                }
            )*
        }

        #[cfg(test)]
        pub(crate) const $list: (&str, &[(u64, &str)]) = ($kind, &[$(($number, stringify!($name))),*]);
    };
}
pub(crate) use gives;
