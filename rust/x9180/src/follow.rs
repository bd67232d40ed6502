//! The way of the slow reader through a file, step by step: which of its functions stands at which record, what that function calls for, and what has come so far. For people to follow;
//! it decides nothing.
//!
//! The slow reader's sources (`crates/slow_cycle/src/lib.rt`) are a function for each box of the standard's figures. Each stands at a record, judges it, and calls the function for the record behind it,
//! if that is one of those that may come there. [`FUNCTIONS`] has their names and what each calls for. Given where a reading ended, which is the proved library's own answer,
//! the lengths and types of the records before that place tell all the steps, and nothing is judged again here.
//!
//! The steps are no part of what is proved. They are tested: the slow reader's own sources, compiled without their contracts and with a note at each function, give the same functions at the same
//! offsets with the same figures on the files of the comparison with the independent reader (`peer/traced`, `peer/README.md`).
//!
//! ```
//! # fn main() -> Result<(), Box<dyn std::error::Error>> {
//! let file = std::fs::read("../../peer/samples/damaged-03-place.x9")?;
//! let answer = x9180::read_slowly(&file);
//! let steps = x9180::follow::steps(&file, &answer);
//! let way: Vec<_> = steps.iter().map(|step| (step.function().name, step.offset())).collect();
//! assert_eq!(way, [("file_header", 0), ("not_called_for", 84)]); // a bundle, where a cash letter should begin
//! # Ok(())
//! # }
//! ```

use crate::before::Before;
pub use crate::before::{OfItem, SoFar};
use crate::character_set::CharacterSet;
use crate::digits::number_in;
use crate::kinds::{DataType, Field, Kind};
use crate::reading::Reading;
use crate::refusal::{Number, Refusal};

/// A function of the slow reader's cycle.
#[derive(Debug, PartialEq, Eq)]
pub struct Function {
    /// Its name in the sources.
    pub name: &'static str,
    /// The type of the record that it stands at; 0 for the one that nothing calls for.
    pub record_type: u64,
    /// The clause of the standard that describes this record; 0 for that one.
    pub clause: u64,
    /// How deep its record lies: 0 in the file, 1 in a cash letter, 2 a bundle or a credit directly in a cash letter, 3 an item of a bundle or a view of such a credit, 4 an addendum or a view.
    pub depth: usize,
    /// The types of record that it calls for behind its own, and the function that it calls at each, in the order of the sources.
    pub calls: &'static [(u64, &'static str)],
}

/// The functions of the cycle, in the order of the sources, and at the end the one that is called where none of the records stands that are called for.
#[rustfmt::skip]
pub const FUNCTIONS: [Function; 24] = [
    function("file_header", 1, 7, 0, &[(10, "letter")]),
    function("letter", 10, 8, 1, &[(20, "bundle"), (61, "own_credit"), (90, "letter_control")]),
    function("bundle", 20, 9, 2, &[(25, "check"), (31, "returned"), (61, "credit")]),
    function("check", 25, 10, 3, &[(26, "check_a"), (27, "check_b"), (28, "check_c"), (50, "view"), (25, "check"), (61, "credit"), (70, "bundle_control")]),
    function("check_a", 26, 11, 4, &[(26, "check_a"), (27, "check_b"), (28, "check_c"), (50, "view"), (25, "check"), (61, "credit"), (70, "bundle_control")]),
    function("check_b", 27, 12, 4, &[(28, "check_c"), (50, "view"), (25, "check"), (61, "credit"), (70, "bundle_control")]),
    function("check_c", 28, 13, 4, &[(28, "check_c"), (50, "view"), (25, "check"), (61, "credit"), (70, "bundle_control")]),
    function("returned", 31, 14, 3, &[(32, "return_a"), (33, "return_b")]),
    function("return_a", 32, 15, 4, &[(32, "return_a"), (33, "return_b")]),
    function("return_b", 33, 16, 4, &[(34, "return_c"), (35, "return_d"), (50, "view"), (31, "returned"), (61, "credit"), (70, "bundle_control")]),
    function("return_c", 34, 17, 4, &[(35, "return_d"), (50, "view"), (31, "returned"), (61, "credit"), (70, "bundle_control")]),
    function("return_d", 35, 18, 4, &[(35, "return_d"), (50, "view"), (31, "returned"), (61, "credit"), (70, "bundle_control")]),
    function("view", 50, 21, 4, &[(52, "view_data")]),
    function("view_data", 52, 22, 4, &[(50, "view"), (54, "analysis"), (25, "check"), (31, "returned"), (61, "credit"), (70, "bundle_control")]),
    function("analysis", 54, 23, 4, &[(50, "view"), (25, "check"), (31, "returned"), (61, "credit"), (70, "bundle_control")]),
    function("credit", 61, 26, 3, &[(50, "view"), (61, "credit"), (25, "check"), (31, "returned"), (70, "bundle_control")]),
    function("bundle_control", 70, 31, 2, &[(20, "bundle"), (61, "own_credit"), (90, "letter_control")]),
    function("own_credit", 61, 26, 2, &[(50, "own_view"), (61, "own_credit"), (20, "bundle"), (90, "letter_control")]),
    function("own_view", 50, 21, 3, &[(52, "own_data")]),
    function("own_data", 52, 22, 3, &[(50, "own_view"), (54, "own_analysis"), (61, "own_credit"), (20, "bundle"), (90, "letter_control")]),
    function("own_analysis", 54, 23, 3, &[(50, "own_view"), (61, "own_credit"), (20, "bundle"), (90, "letter_control")]),
    function("letter_control", 90, 34, 1, &[(10, "letter"), (99, "file_control")]),
    function("file_control", 99, 35, 0, &[]),
    function("not_called_for", 0, 0, 0, &[]),
];

/// What is called for at the start of a file.
const AT_THE_START: &[(u64, &str)] = &[(1, FUNCTIONS[0].name)];

const fn function(
    name: &'static str,
    record_type: u64,
    clause: u64,
    depth: usize,
    calls: &'static [(u64, &'static str)],
) -> Function {
    Function { name, record_type, clause, depth, calls }
}

impl Function {
    /// Whether it is the one that is called where none of the records stands that are called for.
    pub fn is_for_the_rest(&self) -> bool {
        self.record_type == 0
    }
}

/// The function among those called for that stands at a record of this type, or the one for the rest.
fn called(calls: &[(u64, &str)], kind: Option<&Kind>) -> &'static Function {
    let [in_cycle @ .., for_the_rest] = &FUNCTIONS;
    let name = kind.and_then(|kind| calls.iter().find(|(record_type, _)| *record_type == kind.number));
    name.and_then(|(_, name)| in_cycle.iter().find(|function| function.name == *name)).unwrap_or(for_the_rest)
}

/// A function of the slow reader where it stands.
#[derive(Clone, Copy)]
pub struct Step<'f> {
    function: &'static Function,
    record: u64,
    offset: u64,
    set: CharacterSet,
    body: Option<&'f [u8]>,
    bytes_left: u64,
    before: Before<'f>,
    calls: Option<&'static Function>,
}

/// What a field of a control record states, and what its part of the file comes to.
#[derive(Clone, Copy, Debug, PartialEq, Eq)]
pub struct Stated {
    /// The field.
    pub field: &'static Field,
    /// The number that stands in it; `None` where it is blank or no number.
    pub stated: Option<u64>,
    /// The count or sum of the records before.
    pub comes_to: u64,
}

impl<'f> Step<'f> {
    /// The function that stands here.
    pub fn function(&self) -> &'static Function {
        self.function
    }

    /// The ordinal of the record, from 1; at the end of the bytes, that of the record that would stand there.
    pub fn record(&self) -> u64 {
        self.record
    }

    /// The offset of the record's length field, or of the end of the bytes.
    pub fn offset(&self) -> u64 {
        self.offset
    }

    /// The record without its length; `None` where the bytes end here or the record is cut.
    pub fn body(&self) -> Option<&'f [u8]> {
        self.body
    }

    /// How many bytes of the file stand from this offset on.
    pub fn bytes_left(&self) -> u64 {
        self.bytes_left
    }

    /// The kind of the record, where its first two characters name one.
    pub fn kind(&self) -> Option<&'static Kind> {
        Kind::of_body(self.set, self.body?)
    }

    /// The characters of a field; `None` for a Binary one, and where there is no such field or a byte of it is no character.
    pub fn text(&self, field: u64) -> Option<String> {
        let (kind, body) = (self.kind()?, self.body?);
        let is_binary = kind.field(field)?.data_type == DataType::Binary;
        let bytes = body.get(kind.range(self.set, body, field)?).filter(|_| !is_binary)?;
        self.set.text(bytes)
    }

    /// What the records before this one come to.
    pub fn so_far(&self) -> SoFar {
        self.before.so_far()
    }

    /// What a control record states, field by field, and what its part of the file comes to.
    pub fn stated(&self) -> Vec<Stated> {
        let (Some(kind), Some(body)) = (self.kind(), self.body) else { return Vec::new() };
        let of = |field: &'static Field| {
            let comes_to = self.before.comes_to(kind.number, field.number, self.record)?;
            let bytes = body.get(kind.range(self.set, body, field.number)?)?;
            Some(Stated { field, stated: number_in(self.set, bytes), comes_to })
        };
        kind.fields.iter().filter_map(of).collect()
    }

    /// The record of the item that is open before this one.
    pub fn item(&self) -> Option<u64> {
        self.before.item_record()
    }

    /// The record of the bundle header that is open before this one, or else of the cash letter header.
    pub fn header(&self) -> Option<u64> {
        self.before.header_record()
    }

    /// The function that is called behind this record; `None` where the answer is given here.
    pub fn calls(&self) -> Option<&'static Function> {
        self.calls
    }
}

/// The steps of the reading of a file that was answered so by [`read_slowly`](crate::read_slowly). There are none where it was refused by its size.
pub fn steps<'f>(file: &'f [u8], answer: &Result<Reading, Refusal>) -> Vec<Step<'f>> {
    match answer {
        Err(refusal) if refusal.number() == Number::SIZE => Vec::new(),
        Err(refusal) if refusal.number() != Number::ROOM => steps_to(file, refusal.offset()),
        _ => steps_to(file, file.len() as u64),
    }
}

/// The steps of the reading of a file that ended at an offset: that of the record at fault, or the end of an accepted file.
pub fn steps_to(file: &[u8], end: u64) -> Vec<Step<'_>> {
    let set = CharacterSet::of(file);
    let kind_in = |body: Option<_>| body.and_then(|body| Kind::of_body(set, body)).filter(|kind| kind.is_carried());
    let (mut steps, mut before) = (Vec::new(), Before::default());
    let (mut offset, mut body) = (0, framed(file, 0));
    let mut function = called(AT_THE_START, kind_in(body));
    for record in 1.. {
        let bytes_left = (file.len() as u64).saturating_sub(offset);
        let mut step = Step { function, record, offset, set, body, bytes_left, before, calls: None };
        match (kind_in(body), body) {
            (Some(kind), Some(bytes)) if offset < end && !function.is_for_the_rest() => {
                before.go_on(record, kind, set, bytes);
                offset += 4 + bytes.len() as u64;
                body = framed(file, offset);
                function = called(function.calls, kind_in(body));
                step.calls = Some(function);
                steps.push(step);
            }
            _ => {
                steps.push(step);
                break;
            }
        }
    }
    steps
}

/// The record whose length stands at an offset, without that length.
fn framed(file: &[u8], offset: u64) -> Option<&[u8]> {
    let (length, after) = file.get(usize::try_from(offset).ok()?..)?.split_first_chunk()?;
    after.get(..usize::try_from(u32::from_be_bytes(*length)).ok()?)
}
