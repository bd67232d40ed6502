//! The writer (readings 41 to 46): a first pass judges every record of the draft and touches nothing, a second sets the file out.

use peer_reader::charset::{Set, Text};
use peer_reader::descent::{Answer, Number, LARGEST};
use peer_reader::judge::{field_in, of_type};
use peer_reader::layout::{Field, Part, Type, CARRIED};

use crate::draft::{Draft, Row};
use crate::links;
use crate::source::{source, Source};
use crate::state::State;

/// What the first pass finds, before the buffer is looked at.
#[derive(Clone, Debug)]
pub struct Verdict {
    /// The answer with a buffer that is large enough.
    pub answer: Answer,
    /// The reason of a refusal, for the coverage.
    pub why: &'static str,
}

impl Verdict {
    /// The answer with a buffer of so many bytes: ROOM exactly when the file exceeds it.
    pub fn with_room(&self, room: usize) -> Answer {
        let needed = self.answer.offset;
        if self.answer.number == Number::Accepted && needed > room as u64 {
            return Answer::refused(Number::Room, needed, 0, 0);
        }
        self.answer
    }
}

/// Writes a draft's file into a lent buffer. On a refusal the buffer is as it was, and otherwise so are its bytes after the file.
pub fn write(text: &[u8], numbers: &[u64], out: &mut [u8]) -> Answer {
    let answer = judge(text, numbers).with_room(out.len());
    if answer.number == Number::Accepted {
        set_out(&Draft::new(text, numbers), &mut out[..answer.offset as usize]);
    }
    answer
}

/// The first pass: PLACE, FIELD, LINK, TOTAL record by record, then SIZE.
pub fn judge(text: &[u8], numbers: &[u64]) -> Verdict {
    let draft = Draft::new(text, numbers);
    let mut state = State::default();
    let mut offset = 0u128;
    loop {
        let fault = match next_row(&draft, &state) {
            Err(fault) => fault,
            Ok(None) => break,
            Ok(Some(row)) => match fault_of(&draft, &state, &row) {
                Some(fault) => fault,
                None => {
                    offset += 4 + row.length();
                    state.go_on(&row);
                    continue;
                }
            },
        };
        // Offsets are whole numbers; one that no 64 bits hold is given as 2^64 - 1 (reading 43).
        let at = u64::try_from(offset).unwrap_or(u64::MAX);
        let answer = Answer::refused(fault.number, state.records as u64 + 1, u64::from(fault.field), at);
        return Verdict { answer, why: fault.why };
    }
    if offset > u128::from(LARGEST) {
        return Verdict { answer: Answer::refused(Number::Size, 0, 0, 0), why: "size" };
    }
    let records = state.records as u64;
    let totals = state.whole().totals(records);
    let answer = Answer { number: Number::Accepted, record: records, field: 0, offset: offset as u64, totals };
    Verdict { answer, why: "written" }
}

/// The first fault, at the record that stands next.
struct Fault {
    number: Number,
    field: u8,
    why: &'static str,
}

impl Fault {
    fn place(why: &'static str) -> Fault {
        Fault { number: Number::Place, field: 0, why }
    }

    fn field(field: u8, why: &'static str) -> Fault {
        Fault { number: Number::Field, field, why }
    }
}

/// The row that stands next, or none where the file is whole: PLACE where its type may not follow, is not carried, or is missing.
fn next_row<'a>(draft: &Draft<'a>, state: &State) -> Result<Option<Row<'a>>, Fault> {
    let index = state.records;
    if index == draft.rows() {
        return match state.order.is_whole() {
            true => Ok(None),
            false => Err(Fault::place("rows end")),
        };
    }
    let named = draft.type_of(index);
    let code = CARRIED.into_iter().find(|code| u64::from(*code) == named).ok_or(Fault::place("not carried"))?;
    match state.order.admits(named) {
        true => Ok(Some(draft.row(index, code))),
        false if state.order.is_whole() => Err(Fault::place("behind the 99")),
        false => Err(Fault::place("place")),
    }
}

/// FIELD, LINK, TOTAL of a record that stands where it may.
fn fault_of(draft: &Draft, state: &State, row: &Row) -> Option<Fault> {
    fixed_fault(draft, state, row)
        .or_else(|| part_fault(draft.set, row))
        .or_else(|| links::broken(state, row).map(|(field, why)| Fault { number: Number::Link, field, why }))
        .or_else(|| too_long_fault(draft, state, row))
}

/// FIELD over the fixed part from the lowest number: a value outside the text or against its rule, a length or count that is outgrown.
fn fixed_fault(draft: &Draft, state: &State, row: &Row) -> Option<Fault> {
    row.layout.fields.iter().find_map(|field| {
        let source = source(row.layout, field.number);
        match source {
            Source::Given => value_fault(draft.set, row, field),
            Source::PartLength(_) | Source::AddendumCount => {
                let outgrown = too_long(state.worked_out(draft, row, field.number, source), field);
                outgrown.then(|| Fault::field(field.number, "outgrown"))
            }
            _ => None,
        }
    })
}

fn value_fault(set: Set, row: &Row, field: &Field) -> Option<Fault> {
    let Some(bytes) = row.field(field) else {
        return Some(Fault::field(field.number, "outside the text"));
    };
    let sound = field_in(set, field, bytes) && !clipping_broken(set, row, field, bytes);
    (!sound).then(|| Fault::field(field.number, "field"))
}

/// Clause 22.9: clipping origin 0 asks four coordinates of 0000. The origin has been judged before them.
fn clipping_broken(set: Set, row: &Row, field: &Field, bytes: &[u8]) -> bool {
    let coordinate = row.layout.code == 52 && (10..=13).contains(&field.number);
    coordinate && row.characters(9).is(b"0") && !Text::new(set, bytes).is(b"0000")
}

/// FIELD over the parts: outside the text, or against its type. A part of size 0 is neither.
fn part_fault(set: Set, row: &Row) -> Option<Fault> {
    let fault_of_part = |(place, part): (usize, &Part)| match row.part(place) {
        None => Some(Fault::field(part.number, "outside the text")),
        Some(bytes) if of_type(part.kind, Text::new(set, bytes)) => None,
        Some(_) => Some(Fault::field(part.number, "field")),
    };
    row.layout.parts.iter().enumerate().find_map(fault_of_part)
}

/// A record number too long for its field is LINK at it; a sum too long is TOTAL at the lowest such field (reading 43).
fn too_long_fault(draft: &Draft, state: &State, row: &Row) -> Option<Fault> {
    row.layout.fields.iter().find_map(|field| {
        let source = source(row.layout, field.number);
        let (number, why) = match source {
            Source::RecordNumber => (Number::Link, "record number too long"),
            Source::Sum(_) => (Number::Total, "sum too long"),
            _ => return None,
        };
        let found = too_long(state.worked_out(draft, row, field.number, source), field);
        found.then_some(Fault { number, field: field.number, why })
    })
}

/// Whether a number has more digits than its field; a blank has none.
fn too_long(number: Option<u128>, field: &Field) -> bool {
    number.is_some_and(|number| number >= 10u128.pow(field.size() as u32))
}

/// The second pass: each record into the rest of the buffer, where the last one ended.
fn set_out(draft: &Draft, out: &mut [u8]) {
    let mut state = State::default();
    let mut rest = out;
    for index in 0..draft.rows() {
        let row = draft.row(index, draft.type_of(index) as u8);
        let (record, behind) = rest.split_at_mut(4 + row.length() as usize);
        set_out_record(draft, &state, &row, record);
        state.go_on(&row);
        rest = behind;
    }
}

/// Sets an accepted draft out record by record, for the coverage: each row and its record's fixed part as it is written.
pub fn set_out_for_tally(draft: &Draft, mut look: impl FnMut(&Row, &[u8])) {
    let mut state = State::default();
    for index in 0..draft.rows() {
        let row = draft.row(index, draft.type_of(index) as u8);
        let mut fixed = vec![0; row.layout.fixed];
        set_out_fixed(draft, &state, &row, &mut fixed);
        look(&row, &fixed);
        state.go_on(&row);
    }
}

/// One record with its length before it, high byte first (Annex D).
fn set_out_record(draft: &Draft, state: &State, row: &Row, out: &mut [u8]) {
    let (length, body) = out.split_at_mut(4);
    length.copy_from_slice(&(body.len() as u32).to_be_bytes());
    let (fixed, mut rest) = body.split_at_mut(row.layout.fixed);
    set_out_fixed(draft, state, row, fixed);
    for (index, part) in row.layout.parts.iter().enumerate() {
        let bytes = row.part(index).expect("a part of a judged record lies in the text");
        let (place, behind) = rest.split_at_mut(bytes.len());
        match part.kind {
            Type::Binary => place.copy_from_slice(bytes),
            _ => set_out_value(draft.set, bytes, place),
        }
        rest = behind;
    }
}

fn set_out_fixed(draft: &Draft, state: &State, row: &Row, fixed: &mut [u8]) {
    for field in row.layout.fields {
        let place = &mut fixed[field.first - 1..field.last];
        match source(row.layout, field.number) {
            Source::Given => set_out_value(draft.set, row.value(field.number), place),
            source => set_out_number(state.worked_out(draft, row, field.number, source), place),
        }
    }
}

/// Characters of the text in ASCII (reading 46).
fn set_out_value(set: Set, bytes: &[u8], place: &mut [u8]) {
    match set {
        Set::Ascii => place.copy_from_slice(bytes),
        Set::Ebcdic => place.iter_mut().zip(bytes).for_each(|(to, from)| *to = set.character(*from)),
    }
}

/// A number zero filled, which is not too long for its place; blanks where none is stated.
fn set_out_number(number: Option<u128>, place: &mut [u8]) {
    let Some(number) = number else {
        return place.fill(b' ');
    };
    let mut left = u64::try_from(number).expect("sixteen digits at most");
    for digit in place.iter_mut().rev() {
        *digit = b'0' + (left % 10) as u8;
        left /= 10;
    }
    assert_eq!(left, 0, "the number is not too long");
}
