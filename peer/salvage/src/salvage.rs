//! The salvage (readings 60 to 66), by the independent writer: the text is the file with the new controls behind it, the draft names what is kept.

use peer_reader::charset::Set;
use peer_reader::descent::{Number, LARGEST, LISTED};
use peer_reader::judge::field_in;
use peer_reader::layout::layout;
use peer_writer::draft::{row_of, ROW};
use peer_writer::write::{judge, write};

use crate::survey::{survey, Survey};
use crate::walk::Walked;

/// The number of NOTHING.
pub const NOTHING: u64 = 17;

/// Numbers of a row of the list: offset, type, status, number.
pub const LIST_ROW: usize = 4;

/// The twelve numbers of an answer.
pub type Answer = [u64; LISTED];

/// An answer that is a refusal; the totals are zero.
pub fn refused(number: u64, record: u64, field: u64, offset: u64) -> Answer {
    let mut answer = [0; LISTED];
    answer[..4].copy_from_slice(&[number, record, field, offset]);
    answer
}

/// What a salvage comes to with room enough for all of it. On a refusal there is no file and no list.
#[derive(Clone, Debug, PartialEq, Eq)]
pub struct Outcome {
    pub answer: Answer,
    pub file: Vec<u8>,
    pub list: Vec<[u64; LIST_ROW]>,
}

impl Outcome {
    pub fn refused(answer: Answer) -> Outcome {
        Outcome { answer, file: Vec::new(), list: Vec::new() }
    }

    pub fn is_written(&self) -> bool {
        self.answer[0] == 0
    }

    /// The answer with a buffer of so many bytes and a list of so many numbers: ROOM with the bytes needed, then with the rows needed.
    pub fn with_room(&self, bytes: usize, numbers: usize) -> Answer {
        if self.is_written() && self.file.len() > bytes {
            return refused(Number::Room as u64, self.file.len() as u64, 0, 0);
        }
        if self.is_written() && self.list.len() > numbers / LIST_ROW {
            return refused(Number::Room as u64, self.list.len() as u64, 0, 0);
        }
        self.answer
    }

    /// Fills what is lent, if it suffices; otherwise both are as they were.
    pub fn fill(&self, out: &mut [u8], list: &mut [u64]) -> Answer {
        let answer = self.with_room(out.len(), list.len());
        if answer[0] == 0 {
            out[..self.file.len()].copy_from_slice(&self.file);
            for (place, row) in list.chunks_exact_mut(LIST_ROW).zip(&self.list) {
                place.copy_from_slice(row);
            }
        }
        answer
    }
}

/// The call of reading 66.
pub fn salvage(file: &[u8], out: &mut [u8], list: &mut [u64]) -> Answer {
    outcome(file).fill(out, list)
}

/// SIZE, NOTHING, the writer's own refusals, or what is written and listed.
pub fn outcome(file: &[u8]) -> Outcome {
    if file.is_empty() || file.len() as u64 > LARGEST {
        return Outcome::refused(refused(Number::Size as u64, 0, 0, 0));
    }
    outcome_of(file, &survey(file))
}

/// The same of a file that has been surveyed.
pub fn outcome_of(file: &[u8], survey: &Survey) -> Outcome {
    if !survey.leaves_something() {
        return Outcome::refused(refused(NOTHING, 0, 0, 0));
    }
    let (text, draft) = draft_of(file, survey);
    let answer = judge(&text, &draft).answer;
    if answer.number != Number::Accepted {
        return Outcome::refused(answer.listed());
    }
    let mut written = vec![0; answer.offset as usize];
    let answer = write(&text, &draft, &mut written).listed();
    Outcome { answer, file: written, list: list(survey) }
}

/// A row for each record walked.
pub fn list(survey: &Survey) -> Vec<[u64; LIST_ROW]> {
    let row = |(record, [status, number]): (&Walked, [u64; 2])| {
        [record.offset as u64, u64::from(record.kind.unwrap_or(0)), status, number]
    };
    let marks = survey.marks().into_iter().map(|mark| mark.listed());
    survey.walked.iter().zip(marks).map(row).collect()
}

/// What is kept, as a draft: the text is the file, and behind it the new controls.
pub fn draft_of(file: &[u8], survey: &Survey) -> (Vec<u8>, Vec<u64>) {
    let mut sheet = Sheet { set: survey.set, text: file.to_vec(), draft: Vec::new() };
    sheet.keep(1, &survey.walked[0]);
    for judged in survey.kept_letters() {
        sheet.keep(10, &survey.walked[judged.letter.header]);
        for run in judged.sound_runs() {
            for record in &survey.walked[run.first..run.end] {
                sheet.keep(record.kind.expect("a record of a sound run is carried"), record);
            }
        }
        let old = judged.letter.control(&survey.walked).map(|at| survey.walked[at].body);
        sheet.make_new(90, old);
    }
    sheet.make_new(99, survey.control());
    (sheet.text, sheet.draft)
}

/// A draft in the making.
struct Sheet {
    set: Set,
    text: Vec<u8>,
    draft: Vec<u64>,
}

impl Sheet {
    /// A sound record as it stands in the file; a blank 70.4 stays blank.
    fn keep(&mut self, code: u8, record: &Walked) {
        self.draft.extend(row_of(self.set, code, record.offset as u64 + 4, record.body));
    }

    /// A control made new, with the free fields of the old one, if there is one.
    fn make_new(&mut self, code: u8, old: Option<&[u8]>) {
        let mut row = [0; ROW];
        row[0] = u64::from(code);
        row[1] = self.text.len() as u64;
        self.draft.extend(row);
        self.text.extend(new_control(self.set, code, old));
    }
}

/// The free fields of a 90 or 99 (reading 42).
pub const FREE: [u8; 2] = [6, 7];

/// The body of a new control in the file's set: each free field as in the old one where it lies within the record and keeps its rule, else
/// blank. What the writer works out is not looked at and stays blank too.
fn new_control(set: Set, code: u8, old: Option<&[u8]>) -> Vec<u8> {
    let mut body = vec![set.byte(b' '); layout(code).fixed];
    for number in FREE {
        if let Some(bytes) = free_field(set, code, number, old) {
            let field = layout(code).field(number);
            body[field.first - 1..field.last].copy_from_slice(bytes);
        }
    }
    body
}

/// A free field of an old control that is kept (reading 65).
pub fn free_field(set: Set, code: u8, number: u8, old: Option<&[u8]>) -> Option<&[u8]> {
    let field = layout(code).field(number);
    let bytes = old?.get(field.first - 1..field.last)?;
    field_in(set, field, bytes).then_some(bytes)
}
