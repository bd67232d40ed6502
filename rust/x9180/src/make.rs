//! Makes out a file from nothing: cash letters, bundles, items, addenda and views, each filled in by the names of the standard.
//!
//! What has to be told is asked for by `new`; all else is a method. Amounts are cents, dates are dates, pictures are lent. What the writer works
//! out (lengths, counts, record numbers, sums) is nowhere to be given, nor is what is always blank. A value that does not fit stops nothing: the first
//! of them is told when the file is written, with its record and field. Pictures are not looked into: whether the tags of a TIFF picture are right,
//! [`tags`](crate::tags) tells.
//!
//! ```
//! use x9180::make::{Bundle, Check, Contents, File, FileType, Letter, Side, View};
//! use x9180::{Date, Time};
//!
//! # fn main() -> Result<(), Box<dyn std::error::Error>> {
//! let (bank, receiver) = ("123456780", "234567898");
//! let (today, now) = (Date::new(2024, 1, 16), Time::new(10, 30));
//! let (front, back) = (b"the picture of its front", b"the picture of its back");
//!
//! let check = Check::new(bank, 12_345, "1") // of 123.45
//!     .on_us("1234567/")
//!     .micr_valid_indicator("1")
//!     .view(View::new(Side::Front, bank, today, front))
//!     .view(View::new(Side::Back, bank, today, back));
//! let bundle = Bundle::new("01", receiver, bank, today).cycle_number("01").item(check);
//! let letter = Letter::new("01", receiver, bank, today, today, now, Contents::Images).bundle(bundle);
//! let file = File::new(FileType::Test, receiver, bank, today, now)
//!     .immediate_origin_name("SMALL BANK")
//!     .letter(letter)
//!     .write()?;
//!
//! let reading = x9180::read(&file)?;
//! assert_eq!(reading.line(), "accepted records 11 letters 1 bundles 1 items 1 views 2 debit 12345");
//! # Ok(())
//! # }
//! ```

use crate::draft::Draft;
use crate::entry::{gives, Entry, Key};
use crate::misfit::Misfit;
use crate::refusal::Refusal;
use crate::value::{Date, Time};

pub use crate::make_addenda::{
    CheckAddendumA, CheckAddendumB, CheckAddendumC, ReturnAddendumA, ReturnAddendumB, ReturnAddendumC, ReturnAddendumD,
};
pub use crate::make_items::{Check, Credit, Item, Return};
pub use crate::make_view::{Analysis, Side, View};

/// Why a file was not made.
#[derive(Clone, Debug, PartialEq, Eq)]
pub enum NotMade {
    /// A value does not fit: the first of those, in the order of the records.
    Misfit(Misfit),
    /// The proved library refused what was given.
    Refused(Refusal),
}

impl std::fmt::Display for NotMade {
    fn fmt(&self, f: &mut std::fmt::Formatter<'_>) -> std::fmt::Result {
        match self {
            NotMade::Misfit(misfit) => misfit.fmt(f),
            NotMade::Refused(refusal) => refusal.fmt(f),
        }
    }
}

impl std::error::Error for NotMade {}

impl From<Misfit> for NotMade {
    fn from(misfit: Misfit) -> NotMade {
        NotMade::Misfit(misfit)
    }
}

impl From<Refusal> for NotMade {
    fn from(refusal: Refusal) -> NotMade {
        NotMade::Refused(refusal)
    }
}

/// What a file is for (clause 7.3).
#[derive(Clone, Copy, Debug, PartialEq, Eq)]
pub enum FileType {
    /// P: an exchange of value.
    Production,
    /// T: a test of an exchange of value.
    Test,
    /// A: production, without value.
    NonFinancial,
    /// B: a test, without value.
    TestNonFinancial,
}

/// What a cash letter holds (clause 8.8, Annex B).
#[derive(Clone, Copy, Debug, PartialEq, Eq)]
pub enum Contents {
    /// N: no bundle.
    NoDetail,
    /// E: items without views.
    Electronic,
    /// I: items with views.
    Images,
    /// F: items with views, that were sent before without.
    ImagesSentAfter,
}

/// A file: its header, its cash letters, and what its control record says beyond counts and sums.
#[derive(Clone, Debug)]
pub struct File<'p> {
    header: Entry<'p>,
    letters: Vec<Letter<'p>>,
    control: Entry<'p>,
}

impl<'p> File<'p> {
    /// A file of this standard (level 20), sent for the first time: where it goes, whence it comes, and when it was made.
    pub fn new(file_type: FileType, destination: &str, origin: &str, date: Date, time: Time) -> File<'p> {
        let file_type = match file_type {
            FileType::Production => "P",
            FileType::Test => "T",
            FileType::NonFinancial => "A",
            FileType::TestNonFinancial => "B",
        };
        let header = Entry::new(
            1,
            [
                (2, "20".into()),
                (3, file_type.into()),
                (4, destination.into()),
                (5, origin.into()),
                (6, date.into()),
                (7, time.into()),
                (8, "N".into()),
            ],
        );
        File { header, letters: Vec::new(), control: Entry::new(99, []) }
    }

    /// Adds a cash letter.
    #[must_use]
    pub fn letter(mut self, letter: Letter<'p>) -> File<'p> {
        self.letters.push(letter);
        self
    }

    /// The draft of the file. Each picture is copied once. The misfit is the first in the order of the records.
    pub fn draft(self) -> Result<Draft<'static>, Misfit> {
        let mut entries = vec![self.header];
        self.letters.into_iter().for_each(|letter| letter.lay_down(&mut entries));
        entries.push(self.control);
        let records = (1..).zip(entries).map(|(number, entry)| entry.record(number));
        Ok(Draft::of_records(&records.collect::<Result<Vec<_>, _>>()?))
    }

    /// The file itself, in ASCII, as the proved library writes it.
    pub fn write(self) -> Result<Vec<u8>, NotMade> {
        Ok(self.draft()?.write()?)
    }
}

gives! { File.header = FILE_HEADER, "File Header Record":
    2 standard_level: &str,
    8 resend_indicator: &str,
    9 immediate_destination_name: &str,
    10 immediate_origin_name: &str,
    11 file_id_modifier: &str,
    12 country_code: &str,
    13 user_field: &str,
}

gives! { File.control = FILE_CONTROL, "File Control Record":
    6 immediate_origin_contact_name: &str,
    7 immediate_origin_contact_phone_number: &str,
}

/// A cash letter: its header, its bundles and the credits between them, and what its control record says beyond counts and sums.
#[derive(Clone, Debug)]
pub struct Letter<'p> {
    header: Entry<'p>,
    contents: Vec<InLetter<'p>>,
    control: Entry<'p>,
}

#[derive(Clone, Debug)]
enum InLetter<'p> {
    Bundle(Bundle<'p>),
    Credit(Credit<'p>),
}

impl<'p> Letter<'p> {
    /// A cash letter of a Collection Type Indicator: where it goes, the institution that makes it out, its business day, when it was made, and what it
    /// holds.
    pub fn new(
        collection_type: &str,
        destination: &str,
        institution: &str,
        business_date: Date,
        date: Date,
        time: Time,
        contents: Contents,
    ) -> Letter<'p> {
        let contents = match contents {
            Contents::NoDetail => "N",
            Contents::Electronic => "E",
            Contents::Images => "I",
            Contents::ImagesSentAfter => "F",
        };
        let header = Entry::new(
            10,
            [
                (2, collection_type.into()),
                (3, destination.into()),
                (4, institution.into()),
                (5, business_date.into()),
                (6, date.into()),
                (7, time.into()),
                (8, contents.into()),
            ],
        );
        Letter { header, contents: Vec::new(), control: Entry::new(90, []) }
    }

    /// Adds a bundle.
    #[must_use]
    pub fn bundle(mut self, bundle: Bundle<'p>) -> Letter<'p> {
        self.contents.push(InLetter::Bundle(bundle));
        self
    }

    /// Adds a credit that stands directly in the cash letter, outside every bundle.
    #[must_use]
    pub fn credit(mut self, credit: Credit<'p>) -> Letter<'p> {
        self.contents.push(InLetter::Credit(credit));
        self
    }

    fn lay_down(self, entries: &mut Vec<Entry<'p>>) {
        let key = Key::of_header(&self.header, None);
        entries.push(self.header);
        for content in self.contents {
            match content {
                InLetter::Bundle(bundle) => bundle.lay_down(entries),
                InLetter::Credit(credit) => credit.lay_down(&key, entries),
            }
        }
        entries.push(self.control);
    }
}

gives! { Letter.header = LETTER_HEADER, "Cash Letter Header Record":
    9 cash_letter_documentation_type_indicator: &str,
    10 cash_letter_id: &str,
    11 originator_contact_name: &str,
    12 originator_contact_phone_number: &str,
    13 work_type: &str,
    14 user_field: &str,
}

gives! { Letter.control = LETTER_CONTROL, "Cash Letter Control Record":
    6 ece_institution_name: &str,
    7 settlement_date: Date,
}

/// A bundle: its header, its items, and what its control record says beyond counts and sums.
#[derive(Clone, Debug)]
pub struct Bundle<'p> {
    header: Entry<'p>,
    items: Vec<Item<'p>>,
    control: Entry<'p>,
}

impl<'p> Bundle<'p> {
    /// A bundle of a Collection Type Indicator: where it goes, the institution that makes it out, and its business day.
    pub fn new(collection_type: &str, destination: &str, institution: &str, business_date: Date) -> Bundle<'p> {
        let header = Entry::new(
            20,
            [(2, collection_type.into()), (3, destination.into()), (4, institution.into()), (5, business_date.into())],
        );
        Bundle { header, items: Vec::new(), control: Entry::new(70, []) }
    }

    /// Adds a check, a return or a credit.
    #[must_use]
    pub fn item(mut self, item: impl Into<Item<'p>>) -> Bundle<'p> {
        self.items.push(item.into());
        self
    }

    /// Asks for a blank MICR Valid Debit Total Amount in the Bundle Control Record.
    #[must_use]
    pub fn blank_micr_total(mut self) -> Bundle<'p> {
        self.control.change(|control| control.ask_blank_micr_total(true));
        self
    }

    /// Gives field 8, User Field, of the Bundle Control Record.
    #[must_use]
    pub fn control_user_field(mut self, value: &str) -> Bundle<'p> {
        self.control.give(8, value);
        self
    }

    fn lay_down(self, entries: &mut Vec<Entry<'p>>) {
        let key = Key::of_header(&self.header, Some(9));
        entries.push(self.header);
        for item in self.items {
            match item {
                Item::Check(check) => check.lay_down(&key, entries),
                Item::Return(returned) => returned.lay_down(&key, entries),
                Item::Credit(credit) => credit.lay_down(&key, entries),
            }
        }
        entries.push(self.control);
    }
}

gives! { Bundle.header = BUNDLE_HEADER, "Bundle Header Record":
    6 bundle_creation_date: Date,
    7 bundle_id: &str,
    8 bundle_sequence_number: &str,
    9 cycle_number: &str,
    10 return_location_routing_number: &str,
    11 bundle_creation_time: Time,
    12 user_field: &str,
}

#[cfg(test)]
mod tests {
    use super::*;
    use crate::kinds::{Field, KINDS};
    use crate::make_addenda::*;
    use crate::make_items::{CHECK, CREDIT, RETURN};
    use crate::make_view::{ANALYSIS, VIEW_DATA, VIEW_DETAIL};

    /// The name of a record's kind, and its methods with the fields that they give.
    type Methods = (&'static str, &'static [(u64, &'static str)]);

    /// The methods of every record, and those of its fields that `new` or a method written out takes.
    const LISTS: [(Methods, &[u64]); 19] = [
        (FILE_HEADER, &[3, 4, 5, 6, 7]),
        (FILE_CONTROL, &[]),
        (LETTER_HEADER, &[2, 3, 4, 5, 6, 7, 8]),
        (LETTER_CONTROL, &[]),
        (BUNDLE_HEADER, &[2, 3, 4, 5]),
        (("Bundle Control Record", &[]), &[8]),
        (CHECK, &[4, 6, 7]),
        (CHECK_ADDENDUM_A, &[]),
        (CHECK_ADDENDUM_B, &[]),
        (CHECK_ADDENDUM_C, &[]),
        (RETURN, &[4, 6, 7]),
        (RETURN_ADDENDUM_A, &[]),
        (RETURN_ADDENDUM_B, &[2]),
        (RETURN_ADDENDUM_C, &[]),
        (RETURN_ADDENDUM_D, &[]),
        (CREDIT, &[5, 7, 8]),
        (VIEW_DETAIL, &[3, 4, 8]),
        (VIEW_DATA, &[23, 26, 27, 28]),
        (ANALYSIS, &[2, 3, 4]),
    ];

    /// `Posting Account Number (On-Us)` as `posting_account_number_on_us`.
    fn as_method(field: &Field) -> String {
        let words = field.name.split(|letter: char| !letter.is_ascii_alphanumeric()).filter(|word| !word.is_empty());
        words.map(str::to_lowercase).collect::<Vec<_>>().join("_")
    }

    #[test]
    fn every_given_field_has_its_method_and_no_other_has() {
        for kind in KINDS.iter().filter(|kind| kind.is_carried()) {
            let ((_, methods), taken) = LISTS.iter().find(|((name, _), _)| *name == kind.name).unwrap();
            for field in kind.fields {
                let method = methods.iter().find(|(number, _)| *number == field.number);
                let is_told = taken.contains(&field.number);
                let is_given = !kind.works_out(field.number) && field.name != "Reserved";
                assert_eq!(method.is_some() || is_told, is_given, "{kind} field {}", field.number);
                assert!(method.is_none_or(|(_, name)| *name == as_method(field)), "{kind} {method:?}");
            }
        }
    }
}
