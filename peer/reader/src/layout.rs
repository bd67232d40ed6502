//! The layouts of the nineteen carried record types, typed from the tables of ANS X9.100-180-2006.
//! Positions are those of the standard: the first character of a record is position 1, both ends belong to the field.

use crate::charset::Set;

/// The USAGE column (clause 6.3).
#[derive(Clone, Copy, Debug, PartialEq, Eq)]
pub enum Usage {
    Mandatory,
    Conditional,
}

/// The TYPE column (clause 5.3).
#[derive(Clone, Copy, Debug, PartialEq, Eq)]
pub enum Type {
    AllBlank,             // AB, 5.3.1
    Alphabetic,           // A, 5.3.2
    Alphanumeric,         // AN, 5.3.3
    AlphanumericSpecial,  // ANS, 5.3.5
    Binary,               // 5.3.6
    Numeric,              // N, 5.3.7
    NumericBlank,         // NB, 5.3.8
    NumericBlankDash,     // NBD, 5.3.9
    NumericBlankQuestion, // NBQ, 5.3.10
    MicrCantRead,         // NBMc, 5.3.11
    MicrDash,             // NBMcd, 5.3.12
    MicrOnUs,             // NBMcdo, 5.3.13
    MicrUnparsed,         // NBMU, 5.3.14
}

/// What a field's own clause asks beyond its type ("Format", "Defined Values").
#[derive(Clone, Copy, Debug, PartialEq, Eq)]
pub enum Rule {
    /// Nothing more.
    TypeAlone,
    /// One of the listed values; a letter in either case (clause 5.1.1).
    Codes(&'static [&'static str]),
    /// All digits, from the first number to the second.
    Range(u64, u64),
    /// All digits, in one of the ranges.
    Ranges(&'static [(u64, u64)]),
    /// Digits only, any number: a conditional total.
    Digits,
    /// Values '0' through '99' in two characters (clauses 21.11, 21.12): one digit and one blank, or two digits.
    OneOrTwoDigits,
    /// YYYYMMDD.
    Date,
    /// hhmm.
    HourMinute,
    /// hhmmss.
    HourMinuteSecond,
    /// A routing number in one of the forms that the field's own Format lines print.
    Routing(&'static [Form]),
}

/// A form of a routing number, nine characters (the Format lines of clauses 7.4, 10.4 and their like).
#[derive(Clone, Copy, Debug, PartialEq, Eq)]
pub enum Form {
    WithCheckDigit, // TTTTAAAAC: Federal Reserve prefix, ABA institution identifier, check digit
    Canadian,       // TTTTT-FFF: transit number, Canadian financial institution number
    WithDash,       // TTTT-AAAA: the first form's prefix and identifier as a MICR line may show them
    BlankFirst,     // bTTTTAAAA: the same without the dash, behind a blank
    NonFinancial,   // NNNNNNNNN: a non-financial institution's number, blank filled where it is shorter
}

/// A field at fixed positions.
#[derive(Debug)]
pub struct Field {
    pub number: u8,
    pub name: &'static str,
    pub usage: Usage,
    pub first: usize,
    pub last: usize,
    pub kind: Type,
    pub rule: Rule,
}

impl Field {
    pub fn size(&self) -> usize {
        self.last - self.first + 1
    }

    /// The field's bytes in a record at least as long as its fixed part.
    pub fn of<'a>(&self, record: &'a [u8]) -> &'a [u8] {
        &record[self.first - 1..self.last]
    }
}

/// A field of the variable part, sized by an earlier field.
#[derive(Debug)]
pub struct Part {
    pub number: u8,
    pub name: &'static str,
    pub sized_by: u8,
    pub kind: Type,
}

/// One record type.
#[derive(Debug)]
pub struct Layout {
    pub code: u8,
    pub clause: u8,
    pub fixed: usize,
    pub fields: &'static [Field],
    pub parts: &'static [Part],
}

impl Layout {
    pub fn field(&self, number: u8) -> &'static Field {
        let found = self.fields.iter().find(|field| field.number == number);
        found.expect("a field of the fixed part")
    }

    pub fn field_count(&self) -> usize {
        self.fields.len() + self.parts.len()
    }
}

/// The carried types in rising order.
pub const CARRIED: [u8; 19] = [1, 10, 20, 25, 26, 27, 28, 31, 32, 33, 34, 35, 50, 52, 54, 61, 70, 90, 99];

/// The types of the standard that are not carried.
pub const NOT_CARRIED: [u8; 8] = [40, 41, 55, 56, 64, 68, 75, 85];

/// The layout of a carried type.
pub fn layout(code: u8) -> &'static Layout {
    let found = LAYOUTS.iter().find(|layout| layout.code == code);
    found.expect("a carried type")
}

/// The carried type that two characters of a set name.
pub fn carried_in(set: Set, characters: &[u8]) -> Option<u8> {
    carried(&[set.character(characters[0]), set.character(characters[1])])
}

/// The carried type that two ASCII characters name.
pub fn carried(characters: &[u8]) -> Option<u8> {
    LAYOUTS.iter().find(|layout| name_of(layout.code) == characters).map(|layout| layout.code)
}

/// A type's two characters.
pub fn name_of(code: u8) -> [u8; 2] {
    [b'0' + code / 10, b'0' + code % 10]
}

use Form::{
    BlankFirst as bTTTTAAAA, Canadian as TTTTT_FFF, NonFinancial as NNNNNNNNN, WithCheckDigit as TTTTAAAAC,
    WithDash as TTTT_AAAA,
};
use Rule::{Codes, Date, Digits, HourMinute, HourMinuteSecond, OneOrTwoDigits, Range, Ranges, Routing, TypeAlone};
use Type::{
    AllBlank as AB, Alphabetic as A, Alphanumeric as AN, AlphanumericSpecial as ANS, Binary, MicrCantRead as NBMc,
    MicrDash as NBMcd, MicrOnUs as NBMcdo, MicrUnparsed as NBMU, Numeric as N, NumericBlank as NB,
    NumericBlankDash as NBD, NumericBlankQuestion as NBQ,
};
use Usage::{Conditional as C, Mandatory as M};

const fn f(number: u8, name: &'static str, usage: Usage, first: usize, last: usize, kind: Type, rule: Rule) -> Field {
    Field { number, name, usage, first, last, kind, rule }
}

const fn part(number: u8, name: &'static str, sized_by: u8, kind: Type) -> Part {
    Part { number, name, sized_by, kind }
}

// Lists of defined values that several clauses print alike.
const A_TO_I: Rule = Codes(&["A", "B", "C", "D", "E", "F", "G", "H", "I"]); // 10.14, 16.7
const A_TO_M: Rule = Codes(&["A", "B", "C", "D", "E", "F", "G", "H", "I", "J", "K", "L", "M"]); // 10.8, 16.6, 26.9
const YES_NO: Rule = Codes(&["Y", "N"]); // 7.8, 11.9, 13.6, 15.9, 18.6
const CONVERSION: Rule = Range(0, 8); // 11.10, 13.7, 15.10, 18.7
const CORRECTION: Rule = Range(0, 4); // 10.13, 11.11, 13.8, 15.11, 18.8
const MAGNETIC: Rule = Range(0, 3); // 11.12, 13.10, 15.12, 18.10
const TEST: Rule = Range(0, 2); // 23.2 to 23.12, 23.26 to 23.39

#[rustfmt::skip]
pub static LAYOUTS: [Layout; 19] = [
    // Clause 7, File Header Record.
    Layout { code: 1, clause: 7, fixed: 80, parts: &[], fields: &[
        f(1, "Record Type", M, 1, 2, N, Codes(&["01"])),
        f(2, "Standard Level", M, 3, 4, N, Codes(&["01", "02", "03", "20"])),
        f(3, "File Type Indicator", M, 5, 5, AN, Codes(&["P", "T", "A", "B"])),
        f(4, "Immediate Destination Routing Number", M, 6, 14, NBD, Routing(&[TTTTAAAAC, TTTTT_FFF, NNNNNNNNN])),
        f(5, "Immediate Origin Routing Number", M, 15, 23, NBD, Routing(&[TTTTAAAAC, TTTTT_FFF, NNNNNNNNN])),
        f(6, "File Creation Date", M, 24, 31, N, Date),
        f(7, "File Creation Time", M, 32, 35, N, HourMinute),
        f(8, "Resend Indicator", M, 36, 36, A, YES_NO),
        f(9, "Immediate Destination Name", C, 37, 54, ANS, TypeAlone),
        f(10, "Immediate Origin Name", C, 55, 72, ANS, TypeAlone),
        f(11, "File ID Modifier", C, 73, 73, AN, TypeAlone),
        f(12, "Country Code", C, 74, 75, AN, TypeAlone),
        f(13, "User Field", C, 76, 79, ANS, TypeAlone),
        f(14, "Reserved", M, 80, 80, AB, TypeAlone),
    ] },
    // Clause 8, Cash Letter Header Record.
    Layout { code: 10, clause: 8, fixed: 80, parts: &[], fields: &[
        f(1, "Record Type", M, 1, 2, N, Codes(&["10"])),
        f(2, "Collection Type Indicator", M, 3, 4, N, Codes(&[
            "00", "01", "03", "05", "06", "07", "09", "10", "12", "20",
            "80", "81", "82", "83", "84", "85", "86", "87", "88", "89", "99",
        ])),
        f(3, "Destination Routing Number", M, 5, 13, NBD, Routing(&[TTTTAAAAC, TTTTT_FFF, NNNNNNNNN])),
        f(4, "ECE Institution Routing Number", M, 14, 22, NBD, Routing(&[TTTTAAAAC, TTTTT_FFF, NNNNNNNNN])),
        f(5, "Cash Letter Business Date", M, 23, 30, N, Date),
        f(6, "Cash Letter Creation Date", M, 31, 38, N, Date),
        f(7, "Cash Letter Creation Time", M, 39, 42, N, HourMinute),
        f(8, "Cash Letter Record Type Indicator", M, 43, 43, AN, Codes(&["N", "E", "I", "F"])),
        f(9, "Cash Letter Documentation Type Indicator", C, 44, 44, AN, Codes(&[
            "A", "B", "C", "D", "E", "F", "G", "H", "I", "J", "K", "L", "M", "Z",
        ])),
        f(10, "Cash Letter ID", C, 45, 52, AN, TypeAlone),
        f(11, "Originator Contact Name", C, 53, 66, ANS, TypeAlone),
        f(12, "Originator Contact Phone Number", C, 67, 76, NB, TypeAlone),
        f(13, "Work Type", C, 77, 78, AN, Range(1, 99)),
        f(14, "User Field", C, 79, 80, ANS, TypeAlone),
    ] },
    // Clause 9, Bundle Header Record.
    Layout { code: 20, clause: 9, fixed: 80, parts: &[], fields: &[
        f(1, "Record Type", M, 1, 2, N, Codes(&["20"])),
        f(2, "Collection Type Indicator", M, 3, 4, N, Codes(&[
            "00", "01", "03", "05", "06", "07", "09", "12",
            "80", "81", "82", "83", "84", "85", "86", "87", "88", "89",
        ])),
        f(3, "Bundle Destination Routing Number", M, 5, 13, NBD, Routing(&[TTTTAAAAC, TTTTT_FFF, NNNNNNNNN])),
        f(4, "Bundle ECE Institution Routing Number", M, 14, 22, NBD, Routing(&[TTTTAAAAC, TTTTT_FFF, NNNNNNNNN])),
        f(5, "Bundle Business Date", M, 23, 30, N, Date),
        f(6, "Bundle Creation Date", C, 31, 38, NB, Date),
        f(7, "Bundle ID", C, 39, 48, AN, TypeAlone),
        f(8, "Bundle Sequence Number", C, 49, 52, NB, TypeAlone),
        f(9, "Cycle Number", C, 53, 54, AN, TypeAlone),
        f(10, "Return Location Routing Number", C, 55, 63, NBD, Routing(&[TTTTAAAAC, TTTTT_FFF])),
        f(11, "Bundle Creation Time", C, 64, 67, NB, HourMinute),
        f(12, "User Field", C, 68, 73, ANS, TypeAlone),
        f(13, "Reserved", M, 74, 80, AB, TypeAlone),
    ] },
    // Clause 10, Check Detail Record.
    Layout { code: 25, clause: 10, fixed: 80, parts: &[], fields: &[
        f(1, "Record Type", M, 1, 2, N, Codes(&["25"])),
        f(2, "Auxiliary On-Us", C, 3, 17, NBMcd, TypeAlone),
        f(3, "External Processing Code", C, 18, 18, NBMc, TypeAlone),
        f(4, "Payor Bank Routing Number", M, 19, 27, NBMcd, Routing(&[TTTTAAAAC, TTTTT_FFF, TTTT_AAAA, bTTTTAAAA])),
        f(5, "On-Us", C, 28, 47, NBMcdo, TypeAlone),
        f(6, "Item Amount", M, 48, 57, N, TypeAlone),
        f(7, "ECE Institution Item Sequence Number", M, 58, 72, NB, TypeAlone),
        f(8, "Documentation Type Indicator", C, 73, 73, AN, A_TO_M),
        f(9, "Electronic Return Acceptance Indicator", C, 74, 74, AN, Codes(&[
            "0", "1", "2", "3", "4", "5", "6", "7", "8", "9", "A", "B", "C", "D", "E", "F",
        ])),
        f(10, "MICR Valid Indicator", C, 75, 75, NB, Range(1, 4)),
        f(11, "BOFD Indicator", C, 76, 76, A, Codes(&["Y", "N", "U"])),
        f(12, "Check Detail Record Addendum Count", M, 77, 78, N, Range(0, 99)),
        f(13, "Correction Indicator", C, 79, 79, AN, CORRECTION),
        f(14, "Archive Type Indicator", C, 80, 80, AN, A_TO_I),
    ] },
    // Clause 11, Check Detail Addendum A Record.
    Layout { code: 26, clause: 11, fixed: 115, parts: &[], fields: &[
        f(1, "Record Type", M, 1, 2, N, Codes(&["26"])),
        f(2, "Check Detail Addendum A Record Number", M, 3, 3, N, TypeAlone),
        f(3, "Return Location Routing Number", C, 4, 12, NBD, Routing(&[TTTTAAAAC, TTTTT_FFF])),
        f(4, "BOFD Business Endorsement Date", C, 13, 20, NB, Date),
        f(5, "BOFD Item Sequence Number", C, 21, 35, NB, TypeAlone),
        f(6, "Deposit Account Number at BOFD", C, 36, 53, ANS, TypeAlone),
        f(7, "BOFD Deposit Branch", C, 54, 58, ANS, TypeAlone),
        f(8, "Payee Name", C, 59, 108, ANS, TypeAlone),
        f(9, "Truncation Indicator", C, 109, 109, A, YES_NO),
        f(10, "BOFD Conversion Indicator", C, 110, 110, AN, CONVERSION),
        f(11, "BOFD Correction Indicator", C, 111, 111, AN, CORRECTION),
        f(12, "BOFD Magnetic Read Indicator", C, 112, 112, AN, MAGNETIC),
        f(13, "User Field", C, 113, 113, ANS, TypeAlone),
        f(14, "Reserved", M, 114, 115, AB, TypeAlone),
    ] },
    // Clause 12, Check Detail Addendum B Record.
    Layout { code: 27, clause: 12, fixed: 73, fields: &[
        f(1, "Record Type", M, 1, 2, N, Codes(&["27"])),
        f(2, "Item Description", C, 3, 22, ANS, TypeAlone),
        f(3, "Image Capture Date", C, 23, 30, NB, Date),
        f(4, "Image Capture Time", C, 31, 36, NB, HourMinuteSecond),
        f(5, "Microfilm Archive Sequence Number", C, 37, 51, NB, TypeAlone),
        f(6, "Length of Image Archive Locator", M, 52, 55, N, TypeAlone),
        f(7, "Length of Captured Unparsed MICR Data", M, 56, 57, N, TypeAlone),
        f(8, "Length of Captured High Unparsed MICR Data", M, 58, 59, N, TypeAlone),
        f(9, "Length of Corrected Unparsed MICR Data", M, 60, 61, N, TypeAlone),
        f(10, "Length of Corrected High Unparsed MICR Data", M, 62, 63, N, TypeAlone),
        f(11, "Length of User Data", M, 64, 68, N, TypeAlone),
        f(12, "Reserved", M, 69, 73, AB, TypeAlone),
    ], parts: &[
        part(13, "Image Archive Locator", 6, ANS),
        part(14, "Captured Unparsed MICR Data", 7, NBMU),
        part(15, "Captured High Unparsed MICR Data", 8, NBMU),
        part(16, "Corrected Unparsed MICR Data", 9, NBMU),
        part(17, "Corrected High Unparsed MICR Data", 10, NBMU),
        part(18, "User Field", 11, ANS),
    ] },
    // Clause 13, Check Detail Addendum C Record.
    Layout { code: 28, clause: 13, fixed: 80, parts: &[], fields: &[
        f(1, "Record Type", M, 1, 2, N, Codes(&["28"])),
        f(2, "Check Detail Addendum C Record Number", M, 3, 4, N, TypeAlone),
        f(3, "Endorsing Bank Routing Number", C, 5, 13, NBD, Routing(&[TTTTAAAAC, TTTTT_FFF])),
        f(4, "Endorsing Bank Endorsement Date", C, 14, 21, NB, Date),
        f(5, "Endorsing Bank Item Sequence Number", C, 22, 36, NB, TypeAlone),
        f(6, "Truncation Indicator", C, 37, 37, A, YES_NO),
        f(7, "Endorsing Bank Conversion Indicator", C, 38, 38, AN, CONVERSION),
        f(8, "Endorsing Bank Correction Indicator", C, 39, 39, AN, CORRECTION),
        f(9, "Return Reason", C, 40, 41, AN, TypeAlone), // Annex G codes are not judged
        f(10, "Endorsing Bank Magnetic Read Indicator", C, 42, 42, AN, MAGNETIC),
        f(11, "Endorsing Bank Identifier", C, 43, 43, AN, Range(0, 3)),
        f(12, "Deposit Account Number at BOFD", C, 44, 61, ANS, TypeAlone),
        f(13, "User Field", C, 62, 76, ANS, TypeAlone),
        f(14, "Reserved", M, 77, 80, AB, TypeAlone),
    ] },
    // Clause 14, Return Record.
    Layout { code: 31, clause: 14, fixed: 80, parts: &[], fields: &[
        f(1, "Record Type", M, 1, 2, N, Codes(&["31"])),
        f(2, "Auxiliary On-Us", C, 3, 17, NBMcd, TypeAlone),
        f(3, "External Processing Code", C, 18, 18, NBMc, TypeAlone),
        f(4, "Payor Bank Routing Number", M, 19, 27, NBMcd, Routing(&[TTTTAAAAC, TTTTT_FFF, TTTT_AAAA, bTTTTAAAA])),
        f(5, "On-Us", C, 28, 47, NBMcdo, TypeAlone),
        f(6, "Item Amount", M, 48, 57, N, TypeAlone),
        f(7, "ECE Institution Item Sequence Number", M, 58, 72, NB, TypeAlone),
        f(8, "Return Record Addendum Count", M, 73, 74, N, Range(0, 99)),
        f(9, "Reserved", M, 75, 80, AB, TypeAlone),
    ] },
    // Clause 15, Return Addendum A Record.
    Layout { code: 32, clause: 15, fixed: 115, parts: &[], fields: &[
        f(1, "Record Type", M, 1, 2, N, Codes(&["32"])),
        f(2, "Return Addendum A Record Number", M, 3, 3, N, TypeAlone),
        f(3, "Return Location Routing Number", C, 4, 12, NBD, Routing(&[TTTTAAAAC, TTTTT_FFF])),
        f(4, "BOFD Business Endorsement Date", C, 13, 20, NBQ, Date),
        f(5, "BOFD Item Sequence Number", C, 21, 35, NBQ, TypeAlone),
        f(6, "Deposit Account Number at BOFD", C, 36, 53, ANS, TypeAlone),
        f(7, "BOFD Deposit Branch", C, 54, 58, ANS, TypeAlone),
        f(8, "Payee Name", C, 59, 108, ANS, TypeAlone),
        f(9, "Truncation Indicator", C, 109, 109, A, YES_NO),
        f(10, "BOFD Conversion Indicator", C, 110, 110, AN, CONVERSION),
        f(11, "BOFD Correction Indicator", C, 111, 111, AN, CORRECTION),
        f(12, "BOFD Magnetic Read Indicator", C, 112, 112, AN, MAGNETIC),
        f(13, "User Field", C, 113, 113, ANS, TypeAlone),
        f(14, "Reserved", M, 114, 115, AB, TypeAlone),
    ] },
    // Clause 16, Return Addendum B Record.
    Layout { code: 33, clause: 16, fixed: 80, parts: &[], fields: &[
        f(1, "Record Type", M, 1, 2, N, Codes(&["33"])),
        f(2, "Return Reason", M, 3, 4, AN, TypeAlone), // Annex G codes are not judged
        f(3, "Forward Bundle Date", C, 5, 12, NB, Date),
        f(4, "Additional Return Reason", C, 13, 14, AN, TypeAlone),
        f(5, "Number of Times Returned", C, 15, 15, NB, Range(0, 3)),
        f(6, "Return Documentation Type Indicator", C, 16, 16, AN, A_TO_M),
        f(7, "Archive Type Indicator", C, 17, 17, AN, A_TO_I),
        f(8, "Payor Bank Name", C, 18, 35, ANS, TypeAlone),
        f(9, "Payor Bank Item Sequence Number", C, 36, 50, NB, TypeAlone),
        f(10, "Payor Bank Business Date", C, 51, 58, NB, Date),
        f(11, "Payor Account Name", C, 59, 80, ANS, TypeAlone),
    ] },
    // Clause 17, Return Addendum C Record.
    Layout { code: 34, clause: 17, fixed: 73, fields: &[
        f(1, "Record Type", M, 1, 2, N, Codes(&["34"])),
        f(2, "Item Description", C, 3, 22, ANS, TypeAlone),
        f(3, "Image Capture Date", C, 23, 30, NB, Date),
        f(4, "Image Capture Time", C, 31, 36, NB, HourMinuteSecond),
        f(5, "Microfilm Archive Sequence Number", C, 37, 51, NB, TypeAlone),
        f(6, "Length of Image Archive Locator", M, 52, 55, N, TypeAlone),
        f(7, "Length of Captured Unparsed MICR Data", M, 56, 57, N, TypeAlone),
        f(8, "Length of Captured High Unparsed MICR Data", M, 58, 59, N, TypeAlone),
        f(9, "Length of Corrected Unparsed MICR Data", M, 60, 61, N, TypeAlone),
        f(10, "Length of Corrected High Unparsed MICR Data", M, 62, 63, N, TypeAlone),
        f(11, "Length of User Data", M, 64, 68, N, TypeAlone),
        f(12, "Reserved", M, 69, 73, AB, TypeAlone),
    ], parts: &[
        part(13, "Image Archive Locator", 6, ANS),
        part(14, "Captured Unparsed MICR Data", 7, NBMU),
        part(15, "Captured High Unparsed MICR Data", 8, NBMU),
        part(16, "Corrected Unparsed MICR Data", 9, NBMU),
        part(17, "Corrected High Unparsed MICR Data", 10, NBMU),
        part(18, "User Field", 11, ANS),
    ] },
    // Clause 18, Return Addendum D Record.
    Layout { code: 35, clause: 18, fixed: 80, parts: &[], fields: &[
        f(1, "Record Type", M, 1, 2, N, Codes(&["35"])),
        f(2, "Return Addendum D Record Number", M, 3, 4, N, TypeAlone),
        f(3, "Endorsing Bank Routing Number", C, 5, 13, NBD, Routing(&[TTTTAAAAC, TTTTT_FFF])),
        f(4, "Endorsing Bank Endorsement Date", C, 14, 21, NB, Date),
        f(5, "Endorsing Bank Item Sequence Number", C, 22, 36, NB, TypeAlone),
        f(6, "Truncation Indicator", C, 37, 37, A, YES_NO),
        f(7, "Endorsing Bank Conversion Indicator", C, 38, 38, AN, CONVERSION),
        f(8, "Endorsing Bank Correction Indicator", C, 39, 39, AN, CORRECTION),
        f(9, "Return Reason", C, 40, 41, AN, TypeAlone), // Annex G codes are not judged
        f(10, "Endorsing Bank Magnetic Read Indicator", C, 42, 42, AN, MAGNETIC),
        f(11, "Endorsing Bank Identifier", C, 43, 43, AN, Range(0, 3)),
        f(12, "Deposit Account Number at BOFD", C, 44, 61, ANS, TypeAlone),
        f(13, "User Field", C, 62, 76, ANS, TypeAlone),
        f(14, "Reserved", M, 77, 80, AB, TypeAlone),
    ] },
    // Clause 21, Image View Detail Record.
    Layout { code: 50, clause: 21, fixed: 80, parts: &[], fields: &[
        f(1, "Record Type", M, 1, 2, N, Codes(&["50"])),
        f(2, "Image Indicator", M, 3, 3, AN, Range(0, 3)),
        f(3, "Image Creator Routing Number", M, 4, 12, NBD, Routing(&[TTTTAAAAC, TTTTT_FFF, NNNNNNNNN])),
        f(4, "Image Creator Date", M, 13, 20, N, Date),
        f(5, "Image View Format Indicator", M, 21, 22, AN, Range(0, 99)),
        f(6, "Image View Compression Algorithm Identifier", M, 23, 24, AN, Range(0, 99)),
        f(7, "Image View Type", M, 25, 25, AN, Range(0, 4)),
        f(8, "View Side Indicator", M, 26, 26, AN, Range(0, 1)),
        f(9, "View Descriptor", M, 27, 28, AN, Range(0, 99)),
        f(10, "Digital Signature Indicator", M, 29, 29, AN, Range(0, 1)),
        f(11, "Digital Signature Hash Function Method", C, 30, 31, AN, OneOrTwoDigits),
        f(12, "Digital Signature Cryptographic Algorithm Method", C, 32, 33, AN, OneOrTwoDigits),
        f(13, "DSA/RSA Key Size or ECC Curve Number", C, 34, 43, ANS, TypeAlone),
        f(14, "Digital Certificate Indicator", M, 44, 44, AN, Range(0, 1)),
        f(15, "Digital Certificate Format", C, 45, 46, AN, Range(0, 99)),
        f(16, "Digital Certificate Conveyance Method", C, 47, 48, AN, Range(0, 99)),
        f(17, "Start of Protected Data", M, 49, 55, N, TypeAlone),
        f(18, "Length of Protected Data", M, 56, 62, N, TypeAlone),
        f(19, "Image Recreate Indicator", C, 63, 63, AN, Range(0, 1)),
        f(20, "Image Test Override Indicator", C, 64, 64, AN, Codes(&[
            "0", "A", "B", "C", "D", "E", "F", "G", "H", "I", "J", "K", "L", "M", "N", "O", "P", "Q", "R",
        ])),
        f(21, "Image Capture Time", C, 65, 70, NB, HourMinuteSecond),
        f(22, "User Field", C, 71, 76, ANS, TypeAlone),
        f(23, "Reserved", M, 77, 80, AB, TypeAlone),
    ] },
    // Clause 22, Image View Data Record.
    Layout { code: 52, clause: 22, fixed: 139, fields: &[
        f(1, "Record Type", M, 1, 2, N, Codes(&["52"])),
        f(2, "ECE Institution Routing Number", M, 3, 11, NBD, Routing(&[TTTTAAAAC, TTTTT_FFF, NNNNNNNNN])),
        f(3, "Bundle Business Date", M, 12, 19, N, Date),
        f(4, "Cycle Number", C, 20, 21, AN, TypeAlone),
        f(5, "ECE Institution Item Sequence Number", M, 22, 36, NB, TypeAlone),
        f(6, "Security Originator Name", C, 37, 52, ANS, TypeAlone),
        f(7, "Security Authenticator Name", C, 53, 68, ANS, TypeAlone),
        f(8, "Security Key Name", C, 69, 84, ANS, TypeAlone),
        f(9, "Clipping Origin", M, 85, 85, AN, Range(0, 4)),
        f(10, "Clipping Coordinate h1", M, 86, 89, N, TypeAlone),
        f(11, "Clipping Coordinate h2", M, 90, 93, N, TypeAlone),
        f(12, "Clipping Coordinate v1", M, 94, 97, N, TypeAlone),
        f(13, "Clipping Coordinate v2", M, 98, 101, N, TypeAlone),
        f(14, "Ancillary Data Indicator", M, 102, 103, N, Range(0, 99)),
        f(15, "Length of Image Reference Key", M, 104, 107, N, TypeAlone),
        f(16, "Length of Digital Signature", M, 108, 112, N, TypeAlone),
        f(17, "Length of Digital Certificate Issuer Distinguished Name", M, 113, 117, N, TypeAlone),
        f(18, "Length of Digital Certificate Serial Number", M, 118, 122, N, TypeAlone),
        f(19, "Length of Digital Certificate", M, 123, 127, N, TypeAlone),
        f(20, "Length of Image Data", M, 128, 134, N, TypeAlone),
        f(21, "Length of Ancillary Data", M, 135, 139, N, TypeAlone),
    ], parts: &[
        part(22, "Image Reference Key", 15, ANS),
        part(23, "Digital Signature", 16, Binary),
        part(24, "Digital Certificate Issuer Distinguished Name", 17, ANS),
        part(25, "Digital Certificate Serial Number", 18, ANS),
        part(26, "Digital Certificate", 19, Binary),
        part(27, "Image Data", 20, Binary),
        part(28, "Ancillary Data", 21, Binary),
    ] },
    // Clause 23, Image View Analysis Record.
    Layout { code: 54, clause: 23, fixed: 80, parts: &[], fields: &[
        f(1, "Record Type", M, 1, 2, N, Codes(&["54"])),
        f(2, "Global Image Defect", M, 3, 3, AN, TEST),
        f(3, "Global Image Usability", M, 4, 4, AN, TEST),
        f(4, "Imaging Bank Specific Test", M, 5, 5, AN, TEST),
        f(5, "Partial Image", C, 6, 6, AN, TEST),
        f(6, "Excessive Image Skew", C, 7, 7, AN, TEST),
        f(7, "Piggyback Image", C, 8, 8, AN, TEST),
        f(8, "Too Light", C, 9, 9, AN, TEST),
        f(9, "Too Dark", C, 10, 10, AN, TEST),
        f(10, "Streaks and or Bands", C, 11, 11, AN, TEST),
        f(11, "Below Minimum Image Size", C, 12, 12, AN, TEST),
        f(12, "Exceeds Maximum Image Size", C, 13, 13, AN, TEST),
        f(13, "Reserved", M, 14, 14, AB, TypeAlone),
        f(14, "Reserved", M, 15, 15, AB, TypeAlone),
        f(15, "Reserved", M, 16, 16, AB, TypeAlone),
        f(16, "Reserved", M, 17, 17, AB, TypeAlone),
        f(17, "Reserved", M, 18, 18, AB, TypeAlone),
        f(18, "Reserved", M, 19, 19, AB, TypeAlone),
        f(19, "Reserved", M, 20, 20, AB, TypeAlone),
        f(20, "Reserved", M, 21, 21, AB, TypeAlone),
        f(21, "Reserved", M, 22, 22, AB, TypeAlone),
        f(22, "Reserved", M, 23, 23, AB, TypeAlone),
        f(23, "Reserved", M, 24, 24, AB, TypeAlone),
        f(24, "Reserved", M, 25, 25, AB, TypeAlone),
        f(25, "Reserved", M, 26, 26, AB, TypeAlone),
        f(26, "Image-Enabled POD", C, 27, 27, AN, TEST),
        f(27, "Source Document Bad", C, 28, 28, AN, TEST),
        f(28, "Date (Issue) Usability", C, 29, 29, AN, TEST),
        f(29, "Payee Usability", C, 30, 30, AN, TEST),
        f(30, "Convenience Amount Usability", C, 31, 31, AN, TEST),
        f(31, "Amount in Words (Legal Amount) Usability", C, 32, 32, AN, TEST),
        f(32, "Signature (Payor) Usability", C, 33, 33, AN, TEST),
        f(33, "Payor Name and Address Usability", C, 34, 34, AN, TEST),
        f(34, "MICR Line Usability", C, 35, 35, AN, TEST),
        f(35, "Memo Line Usability", C, 36, 36, AN, TEST),
        f(36, "Payor Bank Name and Address Usability", C, 37, 37, AN, TEST),
        f(37, "Payee Endorsement Usability", C, 38, 38, AN, TEST),
        f(38, "Bank of First Deposit Endorsement Usability", C, 39, 39, AN, TEST),
        f(39, "Transit Endorsement Usability", C, 40, 40, AN, TEST),
        f(40, "Reserved", M, 41, 41, AB, TypeAlone),
        f(41, "Reserved", M, 42, 42, AB, TypeAlone),
        f(42, "Reserved", M, 43, 43, AB, TypeAlone),
        f(43, "Reserved", M, 44, 44, AB, TypeAlone),
        f(44, "Reserved", M, 45, 45, AB, TypeAlone),
        f(45, "Reserved", M, 46, 46, AB, TypeAlone),
        f(46, "User Field", C, 47, 66, ANS, TypeAlone),
        f(47, "Reserved", M, 67, 80, AB, TypeAlone),
    ] },
    // Clause 26, Credit/Reconciliation Record.
    Layout { code: 61, clause: 26, fixed: 84, parts: &[], fields: &[
        f(1, "Record Type", M, 1, 2, N, Codes(&["61"])),
        f(2, "Record Usage Indicator", C, 3, 3, AN, Range(1, 9)),
        f(3, "Auxiliary On-Us", C, 4, 18, NBMcd, TypeAlone),
        f(4, "External Processing Code", C, 19, 19, NBMc, TypeAlone),
        f(5, "Posting Bank Routing Number", M, 20, 28, NBMcd, Routing(&[TTTTAAAAC, TTTTT_FFF])),
        f(6, "Posting Account Number (On-Us)", C, 29, 48, NBMcdo, TypeAlone),
        f(7, "Item Amount", M, 49, 62, N, TypeAlone),
        f(8, "Item Sequence Number", M, 63, 77, NB, TypeAlone),
        f(9, "Documentation Type Indicator", C, 78, 78, AN, A_TO_M),
        f(10, "Type of Account Code", C, 79, 79, AN, Codes(&[
            "1", "2", "3", "4", "5", "A", "B", "C", "D", "E", "F", "G", "H", "I", "J",
        ])),
        f(11, "Source of Work Code", C, 80, 81, AN, Ranges(&[(1, 11), (21, 50), (51, 99)])), // user defined, reserved
        f(12, "Reserved", M, 82, 84, AB, TypeAlone),
    ] },
    // Clause 31, Bundle Control Record.
    Layout { code: 70, clause: 31, fixed: 80, parts: &[], fields: &[
        f(1, "Record Type", M, 1, 2, N, Codes(&["70"])),
        f(2, "Bundle Debit Item Count", M, 3, 6, N, TypeAlone),
        f(3, "Bundle Debit Total Amount", M, 7, 18, N, TypeAlone),
        f(4, "MICR Valid Debit Total Amount", C, 19, 30, NB, Digits),
        f(5, "Bundle Image View Record Count", M, 31, 35, N, TypeAlone),
        f(6, "Bundle Credit Item Count", M, 36, 39, N, TypeAlone),
        f(7, "Bundle Credit Total Amount", M, 40, 51, N, TypeAlone),
        f(8, "User Field", C, 52, 60, ANS, TypeAlone),
        f(9, "Reserved", M, 61, 80, AB, TypeAlone),
    ] },
    // Clause 34, Cash Letter Control Record.
    Layout { code: 90, clause: 34, fixed: 85, parts: &[], fields: &[
        f(1, "Record Type", M, 1, 2, N, Codes(&["90"])),
        f(2, "Bundle Count", M, 3, 8, N, TypeAlone),
        f(3, "Cash Letter Debit Item Count", M, 9, 16, N, TypeAlone),
        f(4, "Cash Letter Debit Total Amount", M, 17, 30, N, TypeAlone),
        f(5, "Cash Letter Image View Record Count", M, 31, 39, N, TypeAlone),
        f(6, "ECE Institution Name", C, 40, 55, ANS, TypeAlone),
        f(7, "Settlement Date", C, 56, 63, NB, Date),
        f(8, "Cash Letter Credit Item Count", M, 64, 71, N, TypeAlone),
        f(9, "Cash Letter Credit Total Amount", M, 72, 85, N, TypeAlone),
    ] },
    // Clause 35, File Control Record.
    Layout { code: 99, clause: 35, fixed: 80, parts: &[], fields: &[
        f(1, "Record Type", M, 1, 2, N, Codes(&["99"])),
        f(2, "Cash Letter Count", M, 3, 8, N, TypeAlone),
        f(3, "Total Record Count", M, 9, 16, N, TypeAlone),
        f(4, "Total Item Count", M, 17, 24, N, TypeAlone),
        f(5, "File Debit Total Amount", M, 25, 40, N, TypeAlone),
        f(6, "Immediate Origin Contact Name", C, 41, 54, ANS, TypeAlone),
        f(7, "Immediate Origin Contact Phone Number", C, 55, 64, NB, TypeAlone),
        f(8, "File Credit Total Amount", M, 65, 80, N, TypeAlone),
    ] },
];

#[cfg(test)]
mod tests {
    use super::*;

    #[test]
    fn the_tables_hold_303_fields_that_touch_and_fill_their_records() {
        let mut fields = 0;
        for (layout, code) in LAYOUTS.iter().zip(CARRIED) {
            assert_eq!(layout.code, code);
            let mut next = 1;
            for (index, field) in layout.fields.iter().enumerate() {
                assert_eq!(field.number as usize, index + 1, "type {code}");
                assert_eq!(field.first, next, "type {code} field {}", field.number);
                assert!(field.last >= field.first);
                next = field.last + 1;
            }
            assert_eq!(next, layout.fixed + 1, "type {code}");
            for (index, part) in layout.parts.iter().enumerate() {
                assert_eq!(part.number as usize, layout.fields.len() + index + 1);
                assert_eq!(layout.field(part.sized_by).kind, Type::Numeric);
            }
            fields += layout.field_count();
        }
        assert_eq!(fields, 303);
    }

    #[test]
    fn the_tables_hold_the_counts_that_the_clauses_state_in_words() {
        // "contains fourteen fields" and so on, in the first sentence of each clause.
        let stated = [14, 14, 13, 14, 14, 18, 14, 9, 14, 11, 18, 14, 23, 28, 47, 12, 9, 9, 8];
        for (layout, count) in LAYOUTS.iter().zip(stated) {
            assert_eq!(layout.field_count(), count, "type {}", layout.code);
        }
    }
}
