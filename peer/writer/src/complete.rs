//! A second opinion, made of the reader: each record of a draft is completed, whatever else is wrong with it, and the file is read (reading 43,
//! "the reader's own answer to that file"). It asks the writer nothing but which fields are worked out; its sums are those of the books.

use peer_reader::books::{self, Way};
use peer_reader::charset::Set;
use peer_reader::descent::{read, Answer, Number, LARGEST};
use peer_reader::judge::all_digits;
use peer_reader::layout::{layout, name_of, Field, Layout, Type, CARRIED};

use crate::draft::{BLANK_MICR, ROW};
use crate::source::{source, Source};

/// The completed records of a draft, up to the first of which something is outgrown or lies outside the text.
pub struct Completed {
    pub file: Vec<u8>,
    pub records: usize,
    /// Whether that are all of them.
    pub all: bool,
}

struct Completer<'a> {
    text: &'a [u8],
    set: Set,
    rows: Vec<&'a [u64]>,
    bodies: Vec<Vec<u8>>,
    /// Whether every amount so far is a number: behind another the reader reads nothing, and any sums will do.
    counted: bool,
}

/// Completes the records of a draft.
pub fn complete(text: &[u8], numbers: &[u64]) -> Completed {
    let rows: Vec<&[u64]> = numbers.chunks_exact(ROW).collect();
    let begin = rows.first().and_then(|row| usize::try_from(row[1]).ok()).and_then(|from| text.get(from..));
    let set = if begin.is_some_and(|begin| begin.starts_with(&[0xF0, 0xF1])) { Set::Ebcdic } else { Set::Ascii };
    let mut completer = Completer { text, set, rows, bodies: Vec::new(), counted: true };
    while completer.bodies.len() < completer.rows.len() {
        let Some(body) = completer.next_body() else { break };
        completer.bodies.push(body);
    }
    let (records, all) = (completer.bodies.len(), completer.bodies.len() == completer.rows.len());
    let with_length = |body: &Vec<u8>| [&(body.len() as u32).to_be_bytes(), body.as_slice()].concat();
    Completed { file: completer.bodies.iter().flat_map(with_length).collect(), records, all }
}

/// The answer that the writer is to give by the reader's answer to the completed records: TYPE, AFTER and OPEN are read as PLACE. None
/// where the statement says nothing: an empty file or one past the limit; or where the reader comes to the first record that is not
/// completed, which is then at fault itself.
pub fn answer_by_reader(completed: &Completed) -> Option<Answer> {
    if completed.file.is_empty() || completed.file.len() as u64 > LARGEST {
        return None;
    }
    let mut answer = read(&completed.file).answer;
    if !completed.all && (answer.number == Number::Open || answer.number == Number::Accepted) {
        return None;
    }
    if matches!(answer.number, Number::Type | Number::After | Number::Open) {
        answer.number = Number::Place;
    }
    Some(answer)
}

impl Completer<'_> {
    fn row(&self) -> &[u64] {
        self.rows[self.bodies.len()]
    }

    /// The text's bytes, in ASCII where they are characters.
    fn bytes(&self, from: u128, size: u64, kind: Type) -> Option<Vec<u8>> {
        if size == 0 {
            return Some(Vec::new());
        }
        let end = usize::try_from(from + u128::from(size)).ok()?;
        let bytes = self.text.get(end.checked_sub(size as usize)?..end)?;
        let translate = |byte: &u8| if kind == Type::Binary { *byte } else { self.set.character(*byte) };
        Some(bytes.iter().map(translate).collect())
    }

    /// The record of the next row. One of a type that is not carried is completed as two characters that name none.
    fn next_body(&mut self) -> Option<Vec<u8>> {
        let named = self.row()[0];
        let Some(code) = CARRIED.into_iter().find(|code| u64::from(*code) == named) else {
            return Some(if named < 100 { name_of(named as u8).to_vec() } else { b"??".to_vec() });
        };
        let layout = layout(code);
        let mut body = Vec::new();
        for field in layout.fields {
            body.extend(self.characters(layout, field)?);
        }
        let mut from = u128::from(self.row()[1]) + layout.fixed as u128;
        for (place, part) in layout.parts.iter().enumerate() {
            let size = self.row()[3 + place];
            body.extend(self.bytes(from, size, part.kind)?);
            from += u128::from(size);
        }
        let amount = match code {
            25 | 31 => 6,
            61 => 7,
            _ => return Some(body),
        };
        self.counted &= all_digits(layout.field(amount).of(&body));
        Some(body)
    }

    fn characters(&self, layout: &Layout, field: &Field) -> Option<Vec<u8>> {
        let size = field.size();
        let digits = |number: u128| format!("{:0size$}", number % 10u128.pow(size as u32)).into_bytes();
        let fitting = |number: u64| (number.to_string().len() <= size).then(|| digits(u128::from(number)));
        match source(layout, field.number) {
            Source::Given => {
                let from = u128::from(self.row()[1]) + field.first as u128 - 1;
                self.bytes(from, size as u64, field.kind)
            }
            Source::RecordType => Some(name_of(layout.code).to_vec()),
            Source::PartLength(place) => fitting(self.row()[3 + place]),
            Source::AddendumCount => fitting(self.addenda(layout.code)),
            Source::RecordNumber => Some(digits(self.number(layout.code))),
            Source::Sum(_) if layout.code == 70 && field.number == 4 && self.row()[2] == BLANK_MICR => {
                Some(vec![b' '; size])
            }
            Source::Sum(_) => Some(digits(self.sum(layout.code, field.number))),
        }
    }

    fn addenda(&self, code: u8) -> u64 {
        let behind = self.rows[self.bodies.len() + 1..].iter();
        let of_kind = |row: &&&[u64]| match code {
            25 => matches!(row[0], 26..=28),
            _ => matches!(row[0], 32..=35),
        };
        behind.take_while(of_kind).count() as u64
    }

    /// One more than the records of this type behind the newest item.
    fn number(&self, code: u8) -> u128 {
        let before = self.rows[..self.bodies.len()].iter().rev().take_while(|row| !matches!(row[0], 25 | 31));
        1 + before.filter(|row| row[0] == u64::from(code)).count() as u128
    }

    fn sum(&self, code: u8, field: u8) -> u128 {
        let control = name_of(code);
        let named = self.bodies.iter().all(|body| body.iter().take(2).all(u8::is_ascii_digit));
        if !self.counted || !named {
            return 0;
        }
        let mut bodies: Vec<&[u8]> = self.bodies.iter().map(Vec::as_slice).collect();
        bodies.push(&control);
        books::stated(&bodies, bodies.len() - 1, field, Way::Right).expect("a sum")
    }
}
