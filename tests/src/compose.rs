//! Sound records with chosen contents in one field or several.

use crate::generate::{all_digits, digits_of, sound_record, value_of};
use crate::judge::parts;
use crate::random::Random;
use crate::table::Kind;

/// A record taken apart into its fields.
#[derive(Clone)]
pub struct Fields<'k> {
    kind: &'k Kind,
    contents: Vec<Vec<u8>>,
}

impl<'k> Fields<'k> {
    /// Those of a sound record.
    pub fn sound(kind: &'k Kind, random: &mut Random) -> Fields<'k> {
        let body = sound_record(kind, random);
        let fixed = kind.fields.iter().filter(|field| field.stated_by.is_none()).map(|field| field.of(&body).to_vec());
        let parts = parts(kind, &body);
        let variable = parts.iter().map(|part| body[part.start..part.start + part.length].to_vec());
        Fields { kind, contents: fixed.chain(variable).collect() }
    }

    /// Gives a field these contents and makes what hangs on them agree: the stated length of a part, the part of a stated length, the
    /// clipping coordinates of an origin 0 (clause 22.9) and an origin for clipping coordinates.
    pub fn put(mut self, number: u64, contents: &[u8]) -> Fields<'k> {
        self = self.put_alone(number, contents);
        if let Some(sizing) = self.kind.field(number).stated_by {
            let size = self.kind.field(sizing).size;
            return self.put_alone(sizing, &digits_of(contents.len(), size));
        }
        let sized = self.kind.fields.iter().find(|field| field.stated_by == Some(number));
        match (sized, self.kind.code, number) {
            (Some(part), ..) if all_digits(contents) => self.put_alone(part.number, &vec![b'0'; value_of(contents)]),
            (_, "52", 9) => (10..=13).fold(self, |fields, coordinate| fields.put_alone(coordinate, b"0000")),
            (_, "52", 10..=13) => self.put_alone(9, b"4"),
            _ => self,
        }
    }

    /// Gives a field these contents and leaves all others as they are.
    pub fn put_alone(mut self, number: u64, contents: &[u8]) -> Fields<'k> {
        self.contents[number as usize - 1] = contents.to_vec();
        self
    }

    /// Gives every variable part so many bytes, which all data types take.
    pub fn with_parts_of(self, length: usize) -> Fields<'k> {
        let kind = self.kind;
        let parts = kind.fields.iter().filter(|field| field.stated_by.is_some());
        parts.fold(self, |fields, part| fields.put(part.number, &vec![b'0'; length]))
    }

    /// The contents of a field.
    pub fn of(&self, number: u64) -> &[u8] {
        &self.contents[number as usize - 1]
    }

    /// The record, without its length field.
    pub fn body(&self) -> Vec<u8> {
        self.contents.concat()
    }
}
