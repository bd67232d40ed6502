//! The kinds of record and their fields: numbers, names, positions, data types and values as clauses 7 to 35 of
//! ANS X9.100-180-2006 print them. The table serves to find a field's bytes and to speak of it; what is right in a file, the
//! proved library alone decides. Of the crate's modules it imports `digits` and `character_set` alone.

use crate::character_set::CharacterSet;
use crate::digits::number_in;

/// A kind of record that the standard describes. Those without fields here are named so that a refusal can speak of them.
#[derive(PartialEq, Eq)]
pub struct Kind {
    /// The type number: the record's first two characters.
    pub number: u64,
    /// The name that heads the record's clause.
    pub name: &'static str,
    /// The fields in their order; field numbers start at 1.
    pub fields: &'static [Field],
}

/// One field of a kind of record.
#[derive(Debug, PartialEq, Eq)]
pub struct Field {
    /// The field's number in its record, from 1.
    pub number: u64,
    /// The field's name in the standard.
    pub name: &'static str,
    /// Whether the field may be left blank.
    pub usage: Usage,
    /// Where the field stands.
    pub place: Place,
    /// The characters that the field may hold.
    pub data_type: DataType,
    /// What the field's clause asks beyond its data type.
    pub form: Form,
}

/// The USAGE column (clause 6.3).
#[derive(Clone, Copy, Debug, PartialEq, Eq)]
pub enum Usage {
    /// M
    Mandatory,
    /// C
    Conditional,
}

/// Where a field stands within its record.
#[derive(Clone, Copy, Debug, PartialEq, Eq)]
pub enum Place {
    /// The first and the last position; the record's first byte is position 1.
    Positions(usize, usize),
    /// After the fixed part and the variable fields before it, as long as the field of this number says.
    SizedBy(u64),
}

/// The TYPE column (clause 5.3).
#[derive(Clone, Copy, Debug, PartialEq, Eq)]
#[allow(missing_docs)]
pub enum DataType {
    A,
    AB,
    AN,
    ANS,
    Binary,
    N,
    NB,
    NBD,
    NBMU,
    NBMc,
    NBMcd,
    NBMcdo,
    NBQ,
}

/// A field's "Format" and "Defined Values".
#[derive(Clone, Copy, Debug, PartialEq, Eq)]
pub enum Form {
    /// Nothing beyond the data type.
    TypeAlone,
    /// YYYYMMDD
    Date,
    /// hhmm
    HourMinute,
    /// hhmmss
    HourMinuteSecond,
    /// A routing number in one of the forms that the field's own "Format" lists.
    Routing(&'static [RoutingForm]),
    /// Digits alone.
    Digits,
    /// `0` to `99` in two characters.
    OneOrTwoDigits,
    /// One of the listed values and ranges; a letter in either case.
    Values(&'static str),
}

/// A form of a routing number, nine characters.
#[derive(Clone, Copy, Debug, PartialEq, Eq)]
pub enum RoutingForm {
    /// TTTTAAAAC
    WithCheckDigit,
    /// TTTTT-FFF
    Canadian,
    /// TTTT-AAAA
    WithDash,
    /// bTTTTAAAA
    BlankFirst,
    /// NNNNNNNNN
    NonFinancial,
}

impl Kind {
    /// The kind with this type number.
    ///
    /// ```
    /// assert_eq!(x9180::Kind::of(25).map(|kind| kind.name), Some("Check Detail Record"));
    /// assert_eq!(x9180::Kind::of(3), None);
    /// ```
    pub fn of(number: u64) -> Option<&'static Kind> {
        KINDS.iter().find(|kind| kind.number == number)
    }

    /// The kind that a record's first two characters name, in the set of its file.
    ///
    /// ```
    /// use x9180::{CharacterSet, Kind};
    ///
    /// assert_eq!(Kind::of_body(CharacterSet::Ascii, b"25"), Kind::of(25));
    /// assert_eq!(Kind::of_body(CharacterSet::Ebcdic, &[0xF2, 0xF5]), Kind::of(25));
    /// assert_eq!(Kind::of_body(CharacterSet::Ebcdic, b"25"), None);
    /// ```
    pub fn of_body(set: CharacterSet, body: &[u8]) -> Option<&'static Kind> {
        Kind::of(number_in(set, body.get(..2)?)?)
    }

    /// Whether records of this kind are read and written here.
    pub fn is_carried(&self) -> bool {
        !self.fields.is_empty()
    }

    /// The field with this number.
    pub fn field(&self, number: u64) -> Option<&'static Field> {
        self.fields.iter().find(|field| field.number == number)
    }

    /// The variable fields, which stand behind the fixed part, in their order.
    pub fn parts(&self) -> impl Iterator<Item = &'static Field> {
        self.fields.iter().filter(|field| matches!(field.place, Place::SizedBy(_)))
    }

    /// Whether the writer works the field out (request 4), so that no draft gives it: record types, the lengths of parts, addendum counts,
    /// record numbers, and what a control record counts and adds up.
    ///
    /// ```
    /// let control = x9180::Kind::of(99).unwrap();
    /// let given = control.fields.iter().filter(|field| !control.works_out(field.number)).map(|field| field.name);
    /// assert!(given.eq(["Immediate Origin Contact Name", "Immediate Origin Contact Phone Number"]));
    /// ```
    pub fn works_out(&self, number: u64) -> bool {
        match (self.number, number) {
            (_, 1) | (25, 12) | (31, 8) | (26 | 28 | 32 | 35, 2) => true,
            (70, 2..=7) | (90, 2..=5 | 8 | 9) | (99, 2..=5 | 8) => true,
            _ => self.parts().any(|part| part.place == Place::SizedBy(number)),
        }
    }

    /// The most characters or bytes that a field can hold: of a variable field, what the field that sizes it can state.
    pub fn most(&self, number: u64) -> usize {
        match self.field(number).map(|field| field.place) {
            Some(Place::Positions(first, last)) => last + 1 - first,
            Some(Place::SizedBy(sizing)) => "9".repeat(self.most(sizing)).parse().unwrap_or(usize::MAX),
            None => 0,
        }
    }

    /// The length of the fixed part; 0 where the table has no fields.
    pub fn fixed_length(&self) -> usize {
        let ends = self.fields.iter().map(|field| match field.place {
            Place::Positions(_, last) => last,
            Place::SizedBy(_) => 0,
        });
        ends.max().unwrap_or(0)
    }

    /// Where a field stands within a body of this kind, counted from 0: `None` where there is no such field, or the body does
    /// not reach so far, or a length that sizes it is no number in the set.
    pub fn range(&self, set: CharacterSet, body: &[u8], number: u64) -> Option<std::ops::Range<usize>> {
        if let Place::Positions(first, last) = self.field(number)?.place {
            return (last <= body.len()).then_some(first - 1..last);
        }
        let mut start = self.fixed_length();
        for field in self.fields {
            if let Place::SizedBy(sizing) = field.place {
                let end = start.checked_add(self.length_in(set, body, sizing)?)?;
                if field.number == number {
                    return (end <= body.len()).then_some(start..end);
                }
                start = end;
            }
        }
        None
    }

    /// The length that a body of this kind should have: its fixed part and the variable fields as its own lengths state them.
    pub fn stated_length(&self, set: CharacterSet, body: &[u8]) -> Option<usize> {
        self.fields.iter().try_fold(self.fixed_length(), |length, field| match field.place {
            Place::Positions(..) => Some(length),
            Place::SizedBy(sizing) => length.checked_add(self.length_in(set, body, sizing)?),
        })
    }

    /// Whether a record of this kind has variable fields.
    pub fn is_variable(&self) -> bool {
        self.fields.iter().any(|field| matches!(field.place, Place::SizedBy(_)))
    }

    fn length_in(&self, set: CharacterSet, body: &[u8], sizing: u64) -> Option<usize> {
        match self.field(sizing)?.place {
            Place::Positions(first, last) => usize::try_from(number_in(set, body.get(first - 1..last)?)?).ok(),
            Place::SizedBy(_) => None,
        }
    }
}

impl std::fmt::Debug for Kind {
    /// As it is displayed: the table behind it would fill a page.
    fn fmt(&self, f: &mut std::fmt::Formatter<'_>) -> std::fmt::Result {
        std::fmt::Display::fmt(self, f)
    }
}

impl std::fmt::Display for Kind {
    /// The name and the two characters: `Check Detail Record (type 25)`.
    fn fmt(&self, f: &mut std::fmt::Formatter<'_>) -> std::fmt::Result {
        write!(f, "{} (type {:02})", self.name, self.number)
    }
}

impl Field {
    /// What the standard and the house rules ask of the field, in plain words.
    pub fn asked(&self) -> String {
        let asked = match self.form {
            Form::TypeAlone => self.data_type.characters().to_string(),
            Form::Date => "a date YYYYMMDD: year 1993 to 9999, month 01 to 12, day 01 to 31".to_string(),
            Form::HourMinute => "a time hhmm: 0000 to 2359".to_string(),
            Form::HourMinuteSecond => "a time hhmmss: 000000 to 235959".to_string(),
            Form::Routing(forms) => format!("a routing number in one of these forms: {}", listed(forms)),
            Form::Digits => "digits".to_string(),
            Form::OneOrTwoDigits => "0 to 99: two digits, or one digit and a blank".to_string(),
            Form::Values(values) => format!("one of {values}"),
        };
        // Clauses 5.1.4 and 5.2.2: a mark that the data type admits stands for what could not be read.
        let mark = match (self.form, self.data_type) {
            (Form::Routing(_), DataType::NBMcd) => ", unless it holds a can't-read mark *",
            (Form::Date, DataType::NBQ) => ", unless it holds a questionable mark ?",
            _ => "",
        };
        match self.usage {
            Usage::Conditional if self.form != Form::TypeAlone => format!("all blank, or {asked}{mark}"),
            _ => format!("{asked}{mark}"),
        }
    }
}

impl RoutingForm {
    /// The form as the standard prints it.
    pub fn pattern(self) -> &'static str {
        match self {
            RoutingForm::WithCheckDigit => "TTTTAAAAC",
            RoutingForm::Canadian => "TTTTT-FFF",
            RoutingForm::WithDash => "TTTT-AAAA",
            RoutingForm::BlankFirst => "bTTTTAAAA",
            RoutingForm::NonFinancial => "NNNNNNNNN",
        }
    }

    /// The form in plain words.
    pub fn meaning(self) -> &'static str {
        match self {
            RoutingForm::WithCheckDigit => "nine digits, the ninth the check digit of the ABA rule",
            RoutingForm::Canadian => "five digits, a dash, three digits",
            RoutingForm::WithDash => "four digits, a dash, four digits",
            RoutingForm::BlankFirst => "a blank, eight digits",
            RoutingForm::NonFinancial => {
                "the number of a non-financial institution: one to nine digits side by side, the rest blank"
            }
        }
    }
}

/// The forms with their meanings, the last after an "or".
fn listed(forms: &[RoutingForm]) -> String {
    let words: Vec<String> = forms.iter().map(|form| format!("{} ({})", form.pattern(), form.meaning())).collect();
    match words.split_last() {
        Some((last, others)) if !others.is_empty() => format!("{} or {last}", others.join(", ")),
        _ => words.concat(),
    }
}

impl DataType {
    /// Whether a character is one of the data type's (clauses 5.1 to 5.3). Where blanks may stand among the digits of NB, NBD and NBQ is another
    /// matter.
    pub fn admits(self, character: char) -> bool {
        let others = match self {
            DataType::ANS => return matches!(character, ' '..='~'),
            DataType::A => return character.is_ascii_alphabetic() || character == ' ',
            DataType::AN => return character.is_ascii_alphanumeric() || character == ' ',
            DataType::AB => return character == ' ',
            DataType::Binary => return false,
            DataType::N => "",
            DataType::NB => " ",
            DataType::NBD => " -",
            DataType::NBQ => " ?",
            DataType::NBMc => " *",
            DataType::NBMcd => " *-",
            DataType::NBMcdo => " *-/",
            DataType::NBMU => " *-/$#",
        };
        character.is_ascii_digit() || others.contains(character)
    }

    /// The character that fills a field up, and whether it stands before the text (clause 5.3: right justified) or behind it.
    pub fn fill(self) -> (char, bool) {
        match self {
            DataType::N => ('0', true),
            DataType::NBMc | DataType::NBMcd | DataType::NBMcdo | DataType::NBMU => (' ', true),
            _ => (' ', false),
        }
    }

    /// The characters of the data type, in plain words.
    pub fn characters(self) -> &'static str {
        match self {
            DataType::A => "letters and blanks",
            DataType::AB => "blanks",
            DataType::AN => "letters, digits and blanks",
            DataType::ANS => "printable characters",
            DataType::Binary => "any bytes",
            DataType::N => "digits",
            DataType::NB => "digits and blanks, no blank between digits",
            DataType::NBD => "digits, dashes and blanks, no blank between digits",
            DataType::NBQ => "digits, question marks and blanks, no blank between digits",
            DataType::NBMc => "digits, blanks and the mark *",
            DataType::NBMcd => "digits, blanks, dashes and the mark *",
            DataType::NBMcdo => "digits, blanks, dashes, slashes and the mark *",
            DataType::NBMU => "digits, blanks and the marks * - / $ #",
        }
    }
}

const fn field(number: u64, name: &'static str, usage: Usage, place: Place, data_type: DataType, form: Form) -> Field {
    Field { number, name, usage, place, data_type, form }
}

use DataType::{Binary, NBMc, NBMcd, NBMcdo, A, AB, AN, ANS, N, NB, NBD, NBMU, NBQ};
use Form::{Date, Digits, HourMinute, HourMinuteSecond, OneOrTwoDigits, Routing, TypeAlone, Values};
use Place::{Positions, SizedBy};
use RoutingForm::{
    BlankFirst as bTTTTAAAA, Canadian as TTTTT_FFF, NonFinancial as NNNNNNNNN, WithCheckDigit as TTTTAAAAC,
    WithDash as TTTT_AAAA,
};
use Usage::{Conditional as C, Mandatory as M};

/// The kinds of the standard in rising order of their type numbers.
#[rustfmt::skip]
pub static KINDS: &[Kind] = &[
    Kind { number: 1, name: "File Header Record", fields: &[
        field(1, "Record Type", M, Positions(1, 2), N, Values("01")),
        field(2, "Standard Level", M, Positions(3, 4), N, Values("01, 02, 03, 20")),
        field(3, "File Type Indicator", M, Positions(5, 5), AN, Values("P, T, A, B")),
        field(4, "Immediate Destination Routing Number", M, Positions(6, 14), NBD, Routing(&[TTTTAAAAC, TTTTT_FFF, NNNNNNNNN])),
        field(5, "Immediate Origin Routing Number", M, Positions(15, 23), NBD, Routing(&[TTTTAAAAC, TTTTT_FFF, NNNNNNNNN])),
        field(6, "File Creation Date", M, Positions(24, 31), N, Date),
        field(7, "File Creation Time", M, Positions(32, 35), N, HourMinute),
        field(8, "Resend Indicator", M, Positions(36, 36), A, Values("Y, N")),
        field(9, "Immediate Destination Name", C, Positions(37, 54), ANS, TypeAlone),
        field(10, "Immediate Origin Name", C, Positions(55, 72), ANS, TypeAlone),
        field(11, "File ID Modifier", C, Positions(73, 73), AN, TypeAlone),
        field(12, "Country Code", C, Positions(74, 75), AN, TypeAlone),
        field(13, "User Field", C, Positions(76, 79), ANS, TypeAlone),
        field(14, "Reserved", M, Positions(80, 80), AB, TypeAlone),
    ] },
    Kind { number: 10, name: "Cash Letter Header Record", fields: &[
        field(1, "Record Type", M, Positions(1, 2), N, Values("10")),
        field(2, "Collection Type Indicator", M, Positions(3, 4), N, Values("00, 01, 03, 05, 06, 07, 09, 10, 12, 20, 80-85, 86-89, 99")),
        field(3, "Destination Routing Number", M, Positions(5, 13), NBD, Routing(&[TTTTAAAAC, TTTTT_FFF, NNNNNNNNN])),
        field(4, "ECE Institution Routing Number", M, Positions(14, 22), NBD, Routing(&[TTTTAAAAC, TTTTT_FFF, NNNNNNNNN])),
        field(5, "Cash Letter Business Date", M, Positions(23, 30), N, Date),
        field(6, "Cash Letter Creation Date", M, Positions(31, 38), N, Date),
        field(7, "Cash Letter Creation Time", M, Positions(39, 42), N, HourMinute),
        field(8, "Cash Letter Record Type Indicator", M, Positions(43, 43), AN, Values("N, E, I, F")),
        field(9, "Cash Letter Documentation Type Indicator", C, Positions(44, 44), AN, Values("A-M, Z")),
        field(10, "Cash Letter ID", C, Positions(45, 52), AN, TypeAlone),
        field(11, "Originator Contact Name", C, Positions(53, 66), ANS, TypeAlone),
        field(12, "Originator Contact Phone Number", C, Positions(67, 76), NB, TypeAlone),
        field(13, "Work Type", C, Positions(77, 78), AN, Values("01-17, 18-25, 26-36, 37-60, 61-66, 67-90, 91-94, 95-99")),
        field(14, "User Field", C, Positions(79, 80), ANS, TypeAlone),
    ] },
    Kind { number: 20, name: "Bundle Header Record", fields: &[
        field(1, "Record Type", M, Positions(1, 2), N, Values("20")),
        field(2, "Collection Type Indicator", M, Positions(3, 4), N, Values("00, 01, 03, 05, 06, 07, 09, 12, 80-85, 86-89")),
        field(3, "Bundle Destination Routing Number", M, Positions(5, 13), NBD, Routing(&[TTTTAAAAC, TTTTT_FFF, NNNNNNNNN])),
        field(4, "Bundle ECE Institution Routing Number", M, Positions(14, 22), NBD, Routing(&[TTTTAAAAC, TTTTT_FFF, NNNNNNNNN])),
        field(5, "Bundle Business Date", M, Positions(23, 30), N, Date),
        field(6, "Bundle Creation Date", C, Positions(31, 38), NB, Date),
        field(7, "Bundle ID", C, Positions(39, 48), AN, TypeAlone),
        field(8, "Bundle Sequence Number", C, Positions(49, 52), NB, TypeAlone),
        field(9, "Cycle Number", C, Positions(53, 54), AN, TypeAlone),
        field(10, "Return Location Routing Number", C, Positions(55, 63), NBD, Routing(&[TTTTAAAAC, TTTTT_FFF])),
        field(11, "Bundle Creation Time", C, Positions(64, 67), NB, HourMinute),
        field(12, "User Field", C, Positions(68, 73), ANS, TypeAlone),
        field(13, "Reserved", M, Positions(74, 80), AB, TypeAlone),
    ] },
    Kind { number: 25, name: "Check Detail Record", fields: &[
        field(1, "Record Type", M, Positions(1, 2), N, Values("25")),
        field(2, "Auxiliary On-Us", C, Positions(3, 17), NBMcd, TypeAlone),
        field(3, "External Processing Code", C, Positions(18, 18), NBMc, TypeAlone),
        field(4, "Payor Bank Routing Number", M, Positions(19, 27), NBMcd, Routing(&[TTTTAAAAC, TTTTT_FFF, TTTT_AAAA, bTTTTAAAA])),
        field(5, "On-Us", C, Positions(28, 47), NBMcdo, TypeAlone),
        field(6, "Item Amount", M, Positions(48, 57), N, TypeAlone),
        field(7, "ECE Institution Item Sequence Number", M, Positions(58, 72), NB, TypeAlone),
        field(8, "Documentation Type Indicator", C, Positions(73, 73), AN, Values("A-M")),
        field(9, "Electronic Return Acceptance Indicator", C, Positions(74, 74), AN, Values("0-9, A-F")),
        field(10, "MICR Valid Indicator", C, Positions(75, 75), NB, Values("1, 2, 3, 4")),
        field(11, "BOFD Indicator", C, Positions(76, 76), A, Values("Y, N, U")),
        field(12, "Check Detail Record Addendum Count", M, Positions(77, 78), N, Values("00-99")),
        field(13, "Correction Indicator", C, Positions(79, 79), AN, Values("0, 1, 2, 3, 4")),
        field(14, "Archive Type Indicator", C, Positions(80, 80), AN, Values("A-I")),
    ] },
    Kind { number: 26, name: "Check Detail Addendum A Record", fields: &[
        field(1, "Record Type", M, Positions(1, 2), N, Values("26")),
        field(2, "Check Detail Addendum A Record Number", M, Positions(3, 3), N, TypeAlone),
        field(3, "Return Location Routing Number", C, Positions(4, 12), NBD, Routing(&[TTTTAAAAC, TTTTT_FFF])),
        field(4, "BOFD Business Endorsement Date", C, Positions(13, 20), NB, Date),
        field(5, "BOFD Item Sequence Number", C, Positions(21, 35), NB, TypeAlone),
        field(6, "Deposit Account Number at BOFD", C, Positions(36, 53), ANS, TypeAlone),
        field(7, "BOFD Deposit Branch", C, Positions(54, 58), ANS, TypeAlone),
        field(8, "Payee Name", C, Positions(59, 108), ANS, TypeAlone),
        field(9, "Truncation Indicator", C, Positions(109, 109), A, Values("Y, N")),
        field(10, "BOFD Conversion Indicator", C, Positions(110, 110), AN, Values("0, 1, 2, 3, 4, 5, 6, 7, 8")),
        field(11, "BOFD Correction Indicator", C, Positions(111, 111), AN, Values("0, 1, 2, 3, 4")),
        field(12, "BOFD Magnetic Read Indicator", C, Positions(112, 112), AN, Values("0, 1, 2, 3")),
        field(13, "User Field", C, Positions(113, 113), ANS, TypeAlone),
        field(14, "Reserved", M, Positions(114, 115), AB, TypeAlone),
    ] },
    Kind { number: 27, name: "Check Detail Addendum B Record", fields: &[
        field(1, "Record Type", M, Positions(1, 2), N, Values("27")),
        field(2, "Item Description", C, Positions(3, 22), ANS, TypeAlone),
        field(3, "Image Capture Date", C, Positions(23, 30), NB, Date),
        field(4, "Image Capture Time", C, Positions(31, 36), NB, HourMinuteSecond),
        field(5, "Microfilm Archive Sequence Number", C, Positions(37, 51), NB, TypeAlone),
        field(6, "Length of Image Archive Locator", M, Positions(52, 55), N, Values("0000-9999")),
        field(7, "Length of Captured Unparsed MICR Data", M, Positions(56, 57), N, Values("00-99")),
        field(8, "Length of Captured High Unparsed MICR Data", M, Positions(58, 59), N, Values("00-99")),
        field(9, "Length of Corrected Unparsed MICR Data", M, Positions(60, 61), N, Values("00-99")),
        field(10, "Length of Corrected High Unparsed MICR Data", M, Positions(62, 63), N, Values("00-99")),
        field(11, "Length of User Data", M, Positions(64, 68), N, Values("00000-99999")),
        field(12, "Reserved", M, Positions(69, 73), AB, TypeAlone),
        field(13, "Image Archive Locator", C, SizedBy(6), ANS, TypeAlone),
        field(14, "Captured Unparsed MICR Data", C, SizedBy(7), NBMU, TypeAlone),
        field(15, "Captured High Unparsed MICR Data", C, SizedBy(8), NBMU, TypeAlone),
        field(16, "Corrected Unparsed MICR Data", C, SizedBy(9), NBMU, TypeAlone),
        field(17, "Corrected High Unparsed MICR Data", C, SizedBy(10), NBMU, TypeAlone),
        field(18, "User Field", C, SizedBy(11), ANS, TypeAlone),
    ] },
    Kind { number: 28, name: "Check Detail Addendum C Record", fields: &[
        field(1, "Record Type", M, Positions(1, 2), N, Values("28")),
        field(2, "Check Detail Addendum C Record Number", M, Positions(3, 4), N, TypeAlone),
        field(3, "Endorsing Bank Routing Number", C, Positions(5, 13), NBD, Routing(&[TTTTAAAAC, TTTTT_FFF])),
        field(4, "Endorsing Bank Endorsement Date", C, Positions(14, 21), NB, Date),
        field(5, "Endorsing Bank Item Sequence Number", C, Positions(22, 36), NB, TypeAlone),
        field(6, "Truncation Indicator", C, Positions(37, 37), A, Values("Y, N")),
        field(7, "Endorsing Bank Conversion Indicator", C, Positions(38, 38), AN, Values("0, 1, 2, 3, 4, 5, 6, 7, 8")),
        field(8, "Endorsing Bank Correction Indicator", C, Positions(39, 39), AN, Values("0, 1, 2, 3, 4")),
        field(9, "Return Reason", C, Positions(40, 41), AN, TypeAlone),
        field(10, "Endorsing Bank Magnetic Read Indicator", C, Positions(42, 42), AN, Values("0, 1, 2, 3")),
        field(11, "Endorsing Bank Identifier", C, Positions(43, 43), AN, Values("0, 1, 2, 3")),
        field(12, "Deposit Account Number at BOFD", C, Positions(44, 61), ANS, TypeAlone),
        field(13, "User Field", C, Positions(62, 76), ANS, TypeAlone),
        field(14, "Reserved", M, Positions(77, 80), AB, TypeAlone),
    ] },
    Kind { number: 31, name: "Return Record", fields: &[
        field(1, "Record Type", M, Positions(1, 2), N, Values("31")),
        field(2, "Auxiliary On-Us", C, Positions(3, 17), NBMcd, TypeAlone),
        field(3, "External Processing Code", C, Positions(18, 18), NBMc, TypeAlone),
        field(4, "Payor Bank Routing Number", M, Positions(19, 27), NBMcd, Routing(&[TTTTAAAAC, TTTTT_FFF, TTTT_AAAA, bTTTTAAAA])),
        field(5, "On-Us", C, Positions(28, 47), NBMcdo, TypeAlone),
        field(6, "Item Amount", M, Positions(48, 57), N, TypeAlone),
        field(7, "ECE Institution Item Sequence Number", M, Positions(58, 72), NB, TypeAlone),
        field(8, "Return Record Addendum Count", M, Positions(73, 74), N, Values("00-99")),
        field(9, "Reserved", M, Positions(75, 80), AB, TypeAlone),
    ] },
    Kind { number: 32, name: "Return Addendum A Record", fields: &[
        field(1, "Record Type", M, Positions(1, 2), N, Values("32")),
        field(2, "Return Addendum A Record Number", M, Positions(3, 3), N, TypeAlone),
        field(3, "Return Location Routing Number", C, Positions(4, 12), NBD, Routing(&[TTTTAAAAC, TTTTT_FFF])),
        field(4, "BOFD Business Endorsement Date", C, Positions(13, 20), NBQ, Date),
        field(5, "BOFD Item Sequence Number", C, Positions(21, 35), NBQ, TypeAlone),
        field(6, "Deposit Account Number at BOFD", C, Positions(36, 53), ANS, TypeAlone),
        field(7, "BOFD Deposit Branch", C, Positions(54, 58), ANS, TypeAlone),
        field(8, "Payee Name", C, Positions(59, 108), ANS, TypeAlone),
        field(9, "Truncation Indicator", C, Positions(109, 109), A, Values("Y, N")),
        field(10, "BOFD Conversion Indicator", C, Positions(110, 110), AN, Values("0, 1, 2, 3, 4, 5, 6, 7, 8")),
        field(11, "BOFD Correction Indicator", C, Positions(111, 111), AN, Values("0, 1, 2, 3, 4")),
        field(12, "BOFD Magnetic Read Indicator", C, Positions(112, 112), AN, Values("0, 1, 2, 3")),
        field(13, "User Field", C, Positions(113, 113), ANS, TypeAlone),
        field(14, "Reserved", M, Positions(114, 115), AB, TypeAlone),
    ] },
    Kind { number: 33, name: "Return Addendum B Record", fields: &[
        field(1, "Record Type", M, Positions(1, 2), N, Values("33")),
        field(2, "Return Reason", M, Positions(3, 4), AN, TypeAlone),
        field(3, "Forward Bundle Date", C, Positions(5, 12), NB, Date),
        field(4, "Additional Return Reason", C, Positions(13, 14), AN, TypeAlone),
        field(5, "Number of Times Returned", C, Positions(15, 15), NB, Values("0, 1, 2, 3")),
        field(6, "Return Documentation Type Indicator", C, Positions(16, 16), AN, Values("A-M")),
        field(7, "Archive Type Indicator", C, Positions(17, 17), AN, Values("A-I")),
        field(8, "Payor Bank Name", C, Positions(18, 35), ANS, TypeAlone),
        field(9, "Payor Bank Item Sequence Number", C, Positions(36, 50), NB, TypeAlone),
        field(10, "Payor Bank Business Date", C, Positions(51, 58), NB, Date),
        field(11, "Payor Account Name", C, Positions(59, 80), ANS, TypeAlone),
    ] },
    Kind { number: 34, name: "Return Addendum C Record", fields: &[
        field(1, "Record Type", M, Positions(1, 2), N, Values("34")),
        field(2, "Item Description", C, Positions(3, 22), ANS, TypeAlone),
        field(3, "Image Capture Date", C, Positions(23, 30), NB, Date),
        field(4, "Image Capture Time", C, Positions(31, 36), NB, HourMinuteSecond),
        field(5, "Microfilm Archive Sequence Number", C, Positions(37, 51), NB, TypeAlone),
        field(6, "Length of Image Archive Locator", M, Positions(52, 55), N, Values("0000-9999")),
        field(7, "Length of Captured Unparsed MICR Data", M, Positions(56, 57), N, Values("00-99")),
        field(8, "Length of Captured High Unparsed MICR Data", M, Positions(58, 59), N, Values("00-99")),
        field(9, "Length of Corrected Unparsed MICR Data", M, Positions(60, 61), N, Values("00-99")),
        field(10, "Length of Corrected High Unparsed MICR Data", M, Positions(62, 63), N, Values("00-99")),
        field(11, "Length of User Data", M, Positions(64, 68), N, Values("00000-99999")),
        field(12, "Reserved", M, Positions(69, 73), AB, TypeAlone),
        field(13, "Image Archive Locator", C, SizedBy(6), ANS, TypeAlone),
        field(14, "Captured Unparsed MICR Data", C, SizedBy(7), NBMU, TypeAlone),
        field(15, "Captured High Unparsed MICR Data", C, SizedBy(8), NBMU, TypeAlone),
        field(16, "Corrected Unparsed MICR Data", C, SizedBy(9), NBMU, TypeAlone),
        field(17, "Corrected High Unparsed MICR Data", C, SizedBy(10), NBMU, TypeAlone),
        field(18, "User Field", C, SizedBy(11), ANS, TypeAlone),
    ] },
    Kind { number: 35, name: "Return Addendum D Record", fields: &[
        field(1, "Record Type", M, Positions(1, 2), N, Values("35")),
        field(2, "Return Addendum D Record Number", M, Positions(3, 4), N, TypeAlone),
        field(3, "Endorsing Bank Routing Number", C, Positions(5, 13), NBD, Routing(&[TTTTAAAAC, TTTTT_FFF])),
        field(4, "Endorsing Bank Endorsement Date", C, Positions(14, 21), NB, Date),
        field(5, "Endorsing Bank Item Sequence Number", C, Positions(22, 36), NB, TypeAlone),
        field(6, "Truncation Indicator", C, Positions(37, 37), A, Values("Y, N")),
        field(7, "Endorsing Bank Conversion Indicator", C, Positions(38, 38), AN, Values("0, 1, 2, 3, 4, 5, 6, 7, 8")),
        field(8, "Endorsing Bank Correction Indicator", C, Positions(39, 39), AN, Values("0, 1, 2, 3, 4")),
        field(9, "Return Reason", C, Positions(40, 41), AN, TypeAlone),
        field(10, "Endorsing Bank Magnetic Read Indicator", C, Positions(42, 42), AN, Values("0, 1, 2, 3")),
        field(11, "Endorsing Bank Identifier", C, Positions(43, 43), AN, Values("0, 1, 2, 3")),
        field(12, "Deposit Account Number at BOFD", C, Positions(44, 61), ANS, TypeAlone),
        field(13, "User Field", C, Positions(62, 76), ANS, TypeAlone),
        field(14, "Reserved", M, Positions(77, 80), AB, TypeAlone),
    ] },
    Kind { number: 40, name: "Account Totals Record", fields: &[] },
    Kind { number: 41, name: "Non-Hit Totals Record", fields: &[] },
    Kind { number: 50, name: "Image View Detail Record", fields: &[
        field(1, "Record Type", M, Positions(1, 2), N, Values("50")),
        field(2, "Image Indicator", M, Positions(3, 3), AN, Values("0, 1, 2, 3")),
        field(3, "Image Creator Routing Number", M, Positions(4, 12), NBD, Routing(&[TTTTAAAAC, TTTTT_FFF, NNNNNNNNN])),
        field(4, "Image Creator Date", M, Positions(13, 20), N, Date),
        field(5, "Image View Format Indicator", M, Positions(21, 22), AN, Values("00, 01-20, 21-26, 27-99")),
        field(6, "Image View Compression Algorithm Identifier", M, Positions(23, 24), AN, Values("00, 01-20, 21-25, 26-99")),
        field(7, "Image View Type", M, Positions(25, 25), AN, Values("0, 1, 2, 3, 4")),
        field(8, "View Side Indicator", M, Positions(26, 26), AN, Values("0, 1")),
        field(9, "View Descriptor", M, Positions(27, 28), AN, Values("00-13, 14-99")),
        field(10, "Digital Signature Indicator", M, Positions(29, 29), AN, Values("0, 1")),
        field(11, "Digital Signature Hash Function Method", C, Positions(30, 31), AN, OneOrTwoDigits),
        field(12, "Digital Signature Cryptographic Algorithm Method", C, Positions(32, 33), AN, OneOrTwoDigits),
        field(13, "DSA/RSA Key Size or ECC Curve Number", C, Positions(34, 43), ANS, TypeAlone),
        field(14, "Digital Certificate Indicator", M, Positions(44, 44), AN, Values("0, 1")),
        field(15, "Digital Certificate Format", C, Positions(45, 46), AN, Values("00, 01, 02-99")),
        field(16, "Digital Certificate Conveyance Method", C, Positions(47, 48), AN, Values("00, 01, 02, 03-99")),
        field(17, "Start of Protected Data", M, Positions(49, 55), N, Values("0000000-9999999")),
        field(18, "Length of Protected Data", M, Positions(56, 62), N, Values("0000000-9999999")),
        field(19, "Image Recreate Indicator", C, Positions(63, 63), AN, Values("0, 1")),
        field(20, "Image Test Override Indicator", C, Positions(64, 64), AN, Values("0, A-R")),
        field(21, "Image Capture Time", C, Positions(65, 70), NB, HourMinuteSecond),
        field(22, "User Field", C, Positions(71, 76), ANS, TypeAlone),
        field(23, "Reserved", M, Positions(77, 80), AB, TypeAlone),
    ] },
    Kind { number: 52, name: "Image View Data Record", fields: &[
        field(1, "Record Type", M, Positions(1, 2), N, Values("52")),
        field(2, "ECE Institution Routing Number", M, Positions(3, 11), NBD, Routing(&[TTTTAAAAC, TTTTT_FFF, NNNNNNNNN])),
        field(3, "Bundle Business Date", M, Positions(12, 19), N, Date),
        field(4, "Cycle Number", C, Positions(20, 21), AN, TypeAlone),
        field(5, "ECE Institution Item Sequence Number", M, Positions(22, 36), NB, TypeAlone),
        field(6, "Security Originator Name", C, Positions(37, 52), ANS, TypeAlone),
        field(7, "Security Authenticator Name", C, Positions(53, 68), ANS, TypeAlone),
        field(8, "Security Key Name", C, Positions(69, 84), ANS, TypeAlone),
        field(9, "Clipping Origin", M, Positions(85, 85), AN, Values("0, 1, 2, 3, 4")),
        field(10, "Clipping Coordinate h1", M, Positions(86, 89), N, Values("0000-9999")),
        field(11, "Clipping Coordinate h2", M, Positions(90, 93), N, Values("0000-9999")),
        field(12, "Clipping Coordinate v1", M, Positions(94, 97), N, Values("0000-9999")),
        field(13, "Clipping Coordinate v2", M, Positions(98, 101), N, Values("0000-9999")),
        field(14, "Ancillary Data Indicator", M, Positions(102, 103), N, Values("00, 01-88, 89-99")),
        field(15, "Length of Image Reference Key", M, Positions(104, 107), N, Values("0000-9999")),
        field(16, "Length of Digital Signature", M, Positions(108, 112), N, Values("00000-99999")),
        field(17, "Length of Digital Certificate Issuer Distinguished Name", M, Positions(113, 117), N, Values("00000-99999")),
        field(18, "Length of Digital Certificate Serial Number", M, Positions(118, 122), N, Values("00000-99999")),
        field(19, "Length of Digital Certificate", M, Positions(123, 127), N, Values("00000-99999")),
        field(20, "Length of Image Data", M, Positions(128, 134), N, Values("0000000-9999999")),
        field(21, "Length of Ancillary Data", M, Positions(135, 139), N, Values("00000-99999")),
        field(22, "Image Reference Key", C, SizedBy(15), ANS, TypeAlone),
        field(23, "Digital Signature", C, SizedBy(16), Binary, TypeAlone),
        field(24, "Digital Certificate Issuer Distinguished Name", C, SizedBy(17), ANS, TypeAlone),
        field(25, "Digital Certificate Serial Number", C, SizedBy(18), ANS, TypeAlone),
        field(26, "Digital Certificate", C, SizedBy(19), Binary, TypeAlone),
        field(27, "Image Data", C, SizedBy(20), Binary, TypeAlone),
        field(28, "Ancillary Data", C, SizedBy(21), Binary, TypeAlone),
    ] },
    Kind { number: 54, name: "Image View Analysis Record", fields: &[
        field(1, "Record Type", M, Positions(1, 2), N, Values("54")),
        field(2, "Global Image Defect", M, Positions(3, 3), AN, Values("0, 1, 2")),
        field(3, "Global Image Usability", M, Positions(4, 4), AN, Values("0, 1, 2")),
        field(4, "Imaging Bank Specific Test", M, Positions(5, 5), AN, Values("0, 1, 2")),
        field(5, "Partial Image", C, Positions(6, 6), AN, Values("0, 1, 2")),
        field(6, "Excessive Image Skew", C, Positions(7, 7), AN, Values("0, 1, 2")),
        field(7, "Piggyback Image", C, Positions(8, 8), AN, Values("0, 1, 2")),
        field(8, "Too Light", C, Positions(9, 9), AN, Values("0, 1, 2")),
        field(9, "Too Dark", C, Positions(10, 10), AN, Values("0, 1, 2")),
        field(10, "Streaks and or Bands", C, Positions(11, 11), AN, Values("0, 1, 2")),
        field(11, "Below Minimum Image Size", C, Positions(12, 12), AN, Values("0, 1, 2")),
        field(12, "Exceeds Maximum Image Size", C, Positions(13, 13), AN, Values("0, 1, 2")),
        field(13, "Reserved", M, Positions(14, 14), AB, TypeAlone),
        field(14, "Reserved", M, Positions(15, 15), AB, TypeAlone),
        field(15, "Reserved", M, Positions(16, 16), AB, TypeAlone),
        field(16, "Reserved", M, Positions(17, 17), AB, TypeAlone),
        field(17, "Reserved", M, Positions(18, 18), AB, TypeAlone),
        field(18, "Reserved", M, Positions(19, 19), AB, TypeAlone),
        field(19, "Reserved", M, Positions(20, 20), AB, TypeAlone),
        field(20, "Reserved", M, Positions(21, 21), AB, TypeAlone),
        field(21, "Reserved", M, Positions(22, 22), AB, TypeAlone),
        field(22, "Reserved", M, Positions(23, 23), AB, TypeAlone),
        field(23, "Reserved", M, Positions(24, 24), AB, TypeAlone),
        field(24, "Reserved", M, Positions(25, 25), AB, TypeAlone),
        field(25, "Reserved", M, Positions(26, 26), AB, TypeAlone),
        field(26, "Image-Enabled POD", C, Positions(27, 27), AN, Values("0, 1, 2")),
        field(27, "Source Document Bad", C, Positions(28, 28), AN, Values("0, 1, 2")),
        field(28, "Date (Issue) Usability", C, Positions(29, 29), AN, Values("0, 1, 2")),
        field(29, "Payee Usability", C, Positions(30, 30), AN, Values("0, 1, 2")),
        field(30, "Convenience Amount Usability", C, Positions(31, 31), AN, Values("0, 1, 2")),
        field(31, "Amount in Words (Legal Amount) Usability", C, Positions(32, 32), AN, Values("0, 1, 2")),
        field(32, "Signature (Payor) Usability", C, Positions(33, 33), AN, Values("0, 1, 2")),
        field(33, "Payor Name and Address Usability", C, Positions(34, 34), AN, Values("0, 1, 2")),
        field(34, "MICR Line Usability", C, Positions(35, 35), AN, Values("0, 1, 2")),
        field(35, "Memo Line Usability", C, Positions(36, 36), AN, Values("0, 1, 2")),
        field(36, "Payor Bank Name and Address Usability", C, Positions(37, 37), AN, Values("0, 1, 2")),
        field(37, "Payee Endorsement Usability", C, Positions(38, 38), AN, Values("0, 1, 2")),
        field(38, "Bank of First Deposit Endorsement Usability", C, Positions(39, 39), AN, Values("0, 1, 2")),
        field(39, "Transit Endorsement Usability", C, Positions(40, 40), AN, Values("0, 1, 2")),
        field(40, "Reserved", M, Positions(41, 41), AB, TypeAlone),
        field(41, "Reserved", M, Positions(42, 42), AB, TypeAlone),
        field(42, "Reserved", M, Positions(43, 43), AB, TypeAlone),
        field(43, "Reserved", M, Positions(44, 44), AB, TypeAlone),
        field(44, "Reserved", M, Positions(45, 45), AB, TypeAlone),
        field(45, "Reserved", M, Positions(46, 46), AB, TypeAlone),
        field(46, "User Field", C, Positions(47, 66), ANS, TypeAlone),
        field(47, "Reserved", M, Positions(67, 80), AB, TypeAlone),
    ] },
    Kind { number: 55, name: "Image Test Summary Record", fields: &[] },
    Kind { number: 56, name: "Image Test Detail Record", fields: &[] },
    Kind { number: 61, name: "Credit/Reconciliation Record", fields: &[
        field(1, "Record Type", M, Positions(1, 2), N, Values("61")),
        field(2, "Record Usage Indicator", C, Positions(3, 3), AN, Values("1, 2, 3, 4, 5, 6, 7, 8, 9")),
        field(3, "Auxiliary On-Us", C, Positions(4, 18), NBMcd, TypeAlone),
        field(4, "External Processing Code", C, Positions(19, 19), NBMc, TypeAlone),
        field(5, "Posting Bank Routing Number", M, Positions(20, 28), NBMcd, Routing(&[TTTTAAAAC, TTTTT_FFF])),
        field(6, "Posting Account Number (On-Us)", C, Positions(29, 48), NBMcdo, TypeAlone),
        field(7, "Item Amount", M, Positions(49, 62), N, TypeAlone),
        field(8, "Item Sequence Number", M, Positions(63, 77), NB, TypeAlone),
        field(9, "Documentation Type Indicator", C, Positions(78, 78), AN, Values("A-M")),
        field(10, "Type of Account Code", C, Positions(79, 79), AN, Values("1-5, A-J")),
        field(11, "Source of Work Code", C, Positions(80, 81), AN, Values("01-11, 21-50, 51-99")),
        field(12, "Reserved", M, Positions(82, 84), AB, TypeAlone),
    ] },
    Kind { number: 64, name: "Digital Certificate Record", fields: &[] },
    Kind { number: 68, name: "User Record", fields: &[] },
    Kind { number: 70, name: "Bundle Control Record", fields: &[
        field(1, "Record Type", M, Positions(1, 2), N, Values("70")),
        field(2, "Bundle Debit Item Count", M, Positions(3, 6), N, TypeAlone),
        field(3, "Bundle Debit Total Amount", M, Positions(7, 18), N, TypeAlone),
        field(4, "MICR Valid Debit Total Amount", C, Positions(19, 30), NB, Digits),
        field(5, "Bundle Image View Record Count", M, Positions(31, 35), N, TypeAlone),
        field(6, "Bundle Credit Item Count", M, Positions(36, 39), N, TypeAlone),
        field(7, "Bundle Credit Total Amount", M, Positions(40, 51), N, TypeAlone),
        field(8, "User Field", C, Positions(52, 60), ANS, TypeAlone),
        field(9, "Reserved", M, Positions(61, 80), AB, TypeAlone),
    ] },
    Kind { number: 75, name: "Box Summary Record", fields: &[] },
    Kind { number: 85, name: "Routing Number Summary Record", fields: &[] },
    Kind { number: 90, name: "Cash Letter Control Record", fields: &[
        field(1, "Record Type", M, Positions(1, 2), N, Values("90")),
        field(2, "Bundle Count", M, Positions(3, 8), N, TypeAlone),
        field(3, "Cash Letter Debit Item Count", M, Positions(9, 16), N, TypeAlone),
        field(4, "Cash Letter Debit Total Amount", M, Positions(17, 30), N, TypeAlone),
        field(5, "Cash Letter Image View Record Count", M, Positions(31, 39), N, TypeAlone),
        field(6, "ECE Institution Name", C, Positions(40, 55), ANS, TypeAlone),
        field(7, "Settlement Date", C, Positions(56, 63), NB, Date),
        field(8, "Cash Letter Credit Item Count", M, Positions(64, 71), N, TypeAlone),
        field(9, "Cash Letter Credit Total Amount", M, Positions(72, 85), N, TypeAlone),
    ] },
    Kind { number: 99, name: "File Control Record", fields: &[
        field(1, "Record Type", M, Positions(1, 2), N, Values("99")),
        field(2, "Cash Letter Count", M, Positions(3, 8), N, TypeAlone),
        field(3, "Total Record Count", M, Positions(9, 16), N, TypeAlone),
        field(4, "Total Item Count", M, Positions(17, 24), N, TypeAlone),
        field(5, "File Debit Total Amount", M, Positions(25, 40), N, TypeAlone),
        field(6, "Immediate Origin Contact Name", C, Positions(41, 54), ANS, TypeAlone),
        field(7, "Immediate Origin Contact Phone Number", C, Positions(55, 64), NB, TypeAlone),
        field(8, "File Credit Total Amount", M, Positions(65, 80), N, TypeAlone),
    ] },
];
