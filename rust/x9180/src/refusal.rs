//! Why a file, a picture or a draft was refused, in numbers and in plain words.
//!
//! The form of a refusal only: `explain`, `explain_draft` and `explain_salvage` find the words and fill it in, so this module imports the kinds and nothing above
//! them.

use crate::kinds::{Field, Kind};

/// The number of an answer. [`Number::name`] and [`Number::meaning`] say it in words.
#[derive(Clone, Copy, Debug, PartialEq, Eq, PartialOrd, Ord, Hash)]
pub struct Number(pub u64);

#[allow(missing_docs)]
impl Number {
    pub const ACCEPTED: Number = Number(0);
    pub const SIZE: Number = Number(1);
    pub const ROOM: Number = Number(2);
    pub const CUT: Number = Number(3);
    pub const LENGTH: Number = Number(4);
    pub const TYPE: Number = Number(5);
    pub const PLACE: Number = Number(6);
    pub const FIELD: Number = Number(7);
    pub const LINK: Number = Number(8);
    pub const TOTAL: Number = Number(9);
    pub const OPEN: Number = Number(10);
    pub const AFTER: Number = Number(11);
    pub const DUPLICATE: Number = Number(12);
    pub const FULL: Number = Number(13);
    pub const NOENTRY: Number = Number(15);
    pub const RANGE: Number = Number(16);
    pub const NOTHING: Number = Number(17);
    pub const TAGORDER: Number = Number(18);
    pub const TAGVALUE: Number = Number(19);
    pub const BOOK: Number = Number(20);
}

/// Each number with its name and its meaning.
const NUMBERS: [(Number, &str, &str); 20] = [
    (Number::ACCEPTED, "ACCEPTED", "all rules hold"),
    (Number::SIZE, "SIZE", "the file has no byte, or more than 268435456"),
    (Number::ROOM, "ROOM", "all rules hold, but there is not memory enough"),
    (Number::CUT, "CUT", "the file ends before the record does"),
    (Number::LENGTH, "LENGTH", "the length is wrong for the record"),
    (Number::TYPE, "TYPE", "the record's first two characters name no type that is read here"),
    (Number::PLACE, "PLACE", "a record of this type may not stand here"),
    (Number::FIELD, "FIELD", "a field breaks its data type or its defined values"),
    (Number::LINK, "LINK", "a field or record disagrees with an earlier one"),
    (Number::TOTAL, "TOTAL", "a control field is not what its part of the file adds up to"),
    (Number::OPEN, "OPEN", "the file ends without a File Control Record (type 99)"),
    (Number::AFTER, "AFTER", "bytes follow the File Control Record (type 99)"),
    (Number::DUPLICATE, "DUPLICATE", "the file number has been entered already"),
    (Number::FULL, "FULL", "the day book has no room for the file"),
    (Number::NOENTRY, "NOENTRY", "the day book has no such entry"),
    (Number::RANGE, "RANGE", "the net position would lie beyond 1000000000000000000 cents either side"),
    (Number::NOTHING, "NOTHING", "no sound cash letter is left of the torn file"),
    (Number::TAGORDER, "TAGORDER", "a tag of a picture is not above the tag before it"),
    (Number::TAGVALUE, "TAGVALUE", "the header of a picture is wrong, or a required tag is wrong or absent"),
    (Number::BOOK, "BOOK", "the day book is not sound"),
];

impl Number {
    /// The number's name, as `FIELD`.
    pub fn name(self) -> &'static str {
        self.entry().0
    }

    /// What the number says of a file, of a day book, or, `TAGORDER` and `TAGVALUE`, of a picture.
    pub fn meaning(self) -> &'static str {
        self.entry().1
    }

    fn entry(self) -> (&'static str, &'static str) {
        let entry = NUMBERS.iter().find(|(number, ..)| *number == self);
        entry.map_or(("UNKNOWN", "a number that this version does not know"), |(_, name, meaning)| (name, meaning))
    }
}

/// A refusal: the numbers of the answer, and what can be said of it in plain words.
///
/// `{}` puts the words on one line, `{:#}` on a line each.
///
/// ```
/// # fn main() -> Result<(), std::io::Error> {
/// let file = std::fs::read("../../peer/samples/damaged-02-check-digit.x9")?;
/// let Err(refusal) = x9180::read(&file) else { panic!("the check digit is wrong") };
/// assert_eq!((refusal.number(), refusal.record(), refusal.field(), refusal.offset()), (x9180::Number::FIELD, 4, 4, 252));
/// assert_eq!(
///     format!("{refusal:#}"),
///     "FIELD: a field breaks its data type or its defined values\n\
///      record 4, Check Detail Record (type 25), at offset 252\n\
///      field 4, Payor Bank Routing Number, at offset 274\n\
///      found \"123456781\"\n\
///      asked: a routing number in one of these forms: TTTTAAAAC (nine digits, the ninth the check digit of the ABA rule), \
///      TTTTT-FFF (five digits, a dash, three digits), TTTT-AAAA (four digits, a dash, four digits) or \
///      bTTTTAAAA (a blank, eight digits), unless it holds a can't-read mark *\n\
///      the check digit is wrong: it is 1 and should be 0"
/// );
/// # Ok(())
/// # }
/// ```
#[derive(Clone, Debug, PartialEq, Eq)]
pub struct Refusal {
    pub(crate) number: Number,
    pub(crate) record: u64,
    pub(crate) field: u64,
    pub(crate) offset: u64,
    /// What stands in the file at the fault. Boxed, so that a `Result` with a refusal in it stays small.
    pub(crate) words: Box<Words>,
}

/// What can be said of a fault beyond its numbers.
#[derive(Clone, Debug, Default, PartialEq, Eq)]
pub(crate) struct Words {
    /// What the number says here, where that is not what it says elsewhere.
    pub meaning: Option<&'static str>,
    /// The kind that the record's first two characters name.
    pub kind: Option<&'static Kind>,
    /// The bytes at the fault.
    pub found: Vec<u8>,
    /// The plain words, a line each.
    pub lines: Vec<String>,
    /// How many of the file's first bytes decide the refusal.
    pub decided_by: Option<u64>,
    /// Whether bytes that follow could mend the file.
    pub more_bytes: Option<String>,
}

impl Refusal {
    /// The number of the answer.
    pub fn number(&self) -> Number {
        self.number
    }

    /// The record at fault, from 1, of the file or of the draft. For `ROOM` the rows needed, or the bytes of the file that a draft would make. 0
    /// for `SIZE`, and from [`picture`](crate::picture) and [`record`](crate::record), which count no records.
    pub fn record(&self) -> u64 {
        self.record
    }

    /// The field at fault, from 1; 0 for the whole record.
    pub fn field(&self) -> u64 {
        self.field
    }

    /// The offset of the record's length field; 0 from [`record`](crate::record). Of a draft, the one that it would have in the file.
    pub fn offset(&self) -> u64 {
        self.offset
    }

    /// The kind of the record at fault, where its first two characters name one.
    pub fn kind(&self) -> Option<&'static Kind> {
        self.words.kind
    }

    /// The field at fault, with its name in the standard.
    pub fn named_field(&self) -> Option<&'static Field> {
        self.kind()?.field(self.field)
    }

    /// The bytes found at the fault, the first 64 of them where there are more: the field's, or those that should be a length or a
    /// type. Never a picture's. They are as they stand in the file, or in the draft, where what is worked out is none;
    /// [`CharacterSet::text`](crate::CharacterSet::text) translates them.
    pub fn found(&self) -> &[u8] {
        &self.words.found
    }

    /// How many of the file's first bytes decide the refusal: every file within the limit that begins with them is refused with the same
    /// numbers, whatever follows (request 7). They end with the record at fault; for `AFTER` with the first byte behind the file, for `CUT`
    /// with a length that leads past the limit. `None` where more bytes might change the answer, for `SIZE`, for `ROOM`, from
    /// [`picture`](crate::picture) and [`record`](crate::record), and of a draft.
    ///
    /// ```
    /// # fn main() -> Result<(), std::io::Error> {
    /// let mut file = std::fs::read("../../peer/samples/damaged-02-check-digit.x9")?;
    /// let refusal = x9180::read(&file).unwrap_err();
    /// assert_eq!(refusal.decided_by(), Some(252 + 4 + 80));
    /// file.truncate(252 + 4 + 80);
    /// file.extend(b"anything");
    /// assert_eq!(x9180::read(&file), Err(refusal));
    /// # Ok(())
    /// # }
    /// ```
    pub fn decided_by(&self) -> Option<u64> {
        self.words.decided_by
    }

    /// Whether bytes that follow could mend a refused file, in plain words. `None` from [`picture`](crate::picture) and
    /// [`record`](crate::record), but for `SIZE`, and of a draft.
    ///
    /// ```
    /// let refusal = x9180::read(&[0, 0, 0, 0x50]).unwrap_err();
    /// assert_eq!(refusal.more_bytes(), Some("more bytes might mend it: no record has come whole"));
    /// ```
    pub fn more_bytes(&self) -> Option<&str> {
        self.words.more_bytes.as_deref()
    }

    /// The line of the scope document for a refused file.
    ///
    /// ```
    /// let refusal = x9180::read(&[0, 0, 0, 0x50]).unwrap_err();
    /// assert_eq!(refusal.line(), "refused 3 record 1 field 0 offset 0");
    /// ```
    pub fn line(&self) -> String {
        format!("refused {} record {} field {} offset {}", self.number.0, self.record, self.field, self.offset)
    }
}

impl std::fmt::Display for Refusal {
    fn fmt(&self, f: &mut std::fmt::Formatter<'_>) -> std::fmt::Result {
        write!(f, "{}: {}", self.number.name(), self.words.meaning.unwrap_or(self.number.meaning()))?;
        let between = if f.alternate() { "\n" } else { "; " };
        self.words.lines.iter().try_for_each(|line| write!(f, "{between}{line}"))
    }
}

impl std::error::Error for Refusal {}
