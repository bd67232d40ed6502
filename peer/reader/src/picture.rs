//! The picture call: the Image Data part of one 52, judged alone, by the set of the file's first record (request 5).

use crate::charset::Set;
use crate::descent::{split_record, Number, LARGEST};
use crate::judge::{self, Flaw};
use crate::layout::{carried_in, layout};

/// What the picture call hands back: where the part stands in the file.
#[derive(Clone, Copy, Debug, PartialEq, Eq)]
pub struct Picture {
    pub number: Number,
    pub field: u64,
    pub start: u64,
    pub length: u64,
}

impl Picture {
    /// In the order of the C call.
    pub fn listed(&self) -> [u64; 4] {
        [self.number as u64, self.field, self.start, self.length]
    }

    fn refused(number: Number, field: u8) -> Picture {
        Picture { number, field: u64::from(field), start: 0, length: 0 }
    }
}

/// The Image Data part of the 52 whose length field stands at the offset, by the file's own set.
pub fn picture(file: &[u8], offset: u64) -> Picture {
    picture_in(Set::of(file), file, offset)
}

/// The same in a file of this set.
pub fn picture_in(set: Set, file: &[u8], offset: u64) -> Picture {
    let size = file.len() as u64;
    if size == 0 || size > LARGEST {
        return Picture::refused(Number::Size, 0);
    }
    if offset >= size {
        return Picture::refused(Number::Cut, 0);
    }
    let at = offset as usize;
    let Some(body) = split_record(&file[at..]) else {
        return Picture::refused(Number::Cut, 0);
    };
    if body.len() < 2 {
        return Picture::refused(Number::Length, 0);
    }
    if carried_in(set, &body[..2]) != Some(52) {
        return Picture::refused(Number::Type, 0);
    }
    let layout = layout(52);
    match judge::record_in(set, layout, body) {
        Err(Flaw::Length) => Picture::refused(Number::Length, 0),
        Err(Flaw::Field(field)) => Picture::refused(Number::Field, field),
        Ok(()) => {
            let image = layout.parts.iter().find(|part| part.number == 27).expect("field 27 of a 52");
            let start = at + 4 + judge::part_start_in(set, layout, body, image);
            let length = judge::part_length_in(set, layout, body, image);
            Picture { number: Number::Accepted, field: 0, start: start as u64, length }
        }
    }
}
