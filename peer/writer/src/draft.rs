//! A draft as it is lent (reading 41): a text of bytes, and rows of ten numbers, one for each record in the order of the file.

use peer_reader::charset::{Set, Text};
use peer_reader::descent::{read, Answer, Number, Reading};
use peer_reader::judge::{all_blank, part_length_in};
use peer_reader::layout::{layout, Field, Layout};

/// The numbers of a row: type, where the fixed part begins in the text, the flag, the sizes of up to seven parts.
pub const ROW: usize = 10;

/// The flag of a 70 that asks for a blank MICR total.
pub const BLANK_MICR: u64 = 1;

/// A lent draft. Numbers after the last whole row are not looked at.
#[derive(Clone, Copy)]
pub struct Draft<'a> {
    pub set: Set,
    text: &'a [u8],
    numbers: &'a [u64],
}

impl<'a> Draft<'a> {
    pub fn new(text: &'a [u8], numbers: &'a [u64]) -> Draft<'a> {
        Draft { set: set_of(text, numbers), text, numbers }
    }

    pub fn rows(&self) -> usize {
        self.numbers.len() / ROW
    }

    /// The type that a row names, whatever number it is.
    pub fn type_of(&self, index: usize) -> u64 {
        self.numbers[index * ROW]
    }

    /// A row whose type is this carried one.
    pub fn row(&self, index: usize, code: u8) -> Row<'a> {
        let numbers = &self.numbers[index * ROW..(index + 1) * ROW];
        Row { layout: layout(code), set: self.set, text: self.text, numbers }
    }

    /// How many addenda of its kind stand right behind an item (reading 43): 26 to 28 of a 25, 32 to 35 of a 31.
    pub fn addenda_behind(&self, index: usize) -> u64 {
        let of_kind = match self.type_of(index) {
            25 => 26..=28,
            _ => 32..=35,
        };
        let behind = (index + 1)..self.rows();
        behind.take_while(|index| of_kind.contains(&self.type_of(*index))).count() as u64
    }
}

/// The set of a text, told by the two bytes where the first row's fixed part begins; ASCII where they do not both lie in it (reading 46).
fn set_of(text: &[u8], numbers: &[u64]) -> Set {
    let begin = if numbers.len() < ROW { None } else { stretch(text, u128::from(numbers[1]), 2) };
    match begin {
        Some([0xF0, 0xF1]) => Set::Ebcdic,
        _ => Set::Ascii,
    }
}

/// The bytes of the text from here on, if that many lie in it; none at all lie anywhere. Places are whole numbers: a start near 2^64 leads
/// out of the text, never back to its beginning.
fn stretch(text: &[u8], from: u128, size: u128) -> Option<&[u8]> {
    if size == 0 {
        return Some(&[]);
    }
    let end = from + size;
    (end <= text.len() as u128).then(|| &text[from as usize..end as usize])
}

/// One row of a carried type, and the text behind it.
#[derive(Clone, Copy)]
pub struct Row<'a> {
    pub layout: &'static Layout,
    set: Set,
    text: &'a [u8],
    numbers: &'a [u64],
}

impl<'a> Row<'a> {
    fn begin(&self) -> u128 {
        u128::from(self.numbers[1])
    }

    /// The flag as it is lent.
    pub fn flag(&self) -> u64 {
        self.numbers[2]
    }

    /// Whether the record's first 255 positions pass 2^64.
    pub fn starts_near_the_end_of_64_bits(&self) -> bool {
        self.numbers[1] > u64::MAX - 255
    }

    /// Whether the first character of a field or part lies in the text.
    pub fn begins_in_text(&self, number: u8) -> bool {
        let before = match self.layout.parts.iter().position(|part| part.number == number) {
            Some(place) => self.part_place(place),
            None => self.begin() + self.layout.field(number).first as u128 - 1,
        };
        before < self.text.len() as u128
    }

    /// Looked at for a 70 only (reading 41).
    pub fn asks_for_blank_micr(&self) -> bool {
        self.layout.code == 70 && self.numbers[2] == BLANK_MICR
    }

    /// The size of the part at this place.
    pub fn size(&self, place: usize) -> u64 {
        self.numbers[3 + place]
    }

    /// The bytes of a fixed field, if they all lie in the text.
    pub fn field(&self, field: &Field) -> Option<&'a [u8]> {
        stretch(self.text, self.begin() + field.first as u128 - 1, field.size() as u128)
    }

    /// The bytes of the part at this place, if they all lie in the text.
    pub fn part(&self, place: usize) -> Option<&'a [u8]> {
        stretch(self.text, self.part_place(place), u128::from(self.size(place)))
    }

    /// Where a part begins: parts follow the fixed part and one another.
    fn part_place(&self, place: usize) -> u128 {
        let before: u128 = (0..place).map(|place| u128::from(self.size(place))).sum();
        self.begin() + self.layout.fixed as u128 + before
    }

    /// The length that the written record will have.
    pub fn length(&self) -> u128 {
        let parts = (0..self.layout.parts.len()).map(|place| u128::from(self.size(place)));
        self.layout.fixed as u128 + parts.sum::<u128>()
    }

    /// The bytes of a given field of a record that has passed FIELD.
    pub fn value(&self, number: u8) -> &'a [u8] {
        self.field(self.layout.field(number)).expect("a given field of a judged record lies in the text")
    }

    /// The same as characters.
    pub fn characters(&self, number: u8) -> Text<'a> {
        Text::new(self.set, self.value(number))
    }
}

/// The draft of a file, the file being its text (reading 45): the reader's own answer, and rows where it is accepted.
pub fn draft_of(file: &[u8], draft: &mut [u64]) -> Answer {
    draft_by(file, &read(file), draft)
}

/// The same of a file that has been read.
pub fn draft_by(file: &[u8], reading: &Reading, draft: &mut [u64]) -> Answer {
    let answer = reading.with_rows(draft.len() / ROW);
    if answer.number == Number::Accepted {
        let set = Set::of(file);
        for (place, row) in draft.chunks_exact_mut(ROW).zip(&reading.rows) {
            let begin = row[1] as usize + 4;
            let body = &file[begin..begin + row[2] as usize];
            place.copy_from_slice(&row_of(set, row[0] as u8, begin as u64, body));
        }
    }
    answer
}

/// The row of a sound record. Numbers that the writer does not look at are 0.
pub fn row_of(set: Set, code: u8, begin: u64, body: &[u8]) -> [u64; ROW] {
    let layout = layout(code);
    let mut row = [0; ROW];
    row[0] = u64::from(code);
    row[1] = begin;
    if code == 70 && all_blank(Text::new(set, layout.field(4).of(body))) {
        row[2] = BLANK_MICR;
    }
    for (place, part) in layout.parts.iter().enumerate() {
        row[3 + place] = part_length_in(set, layout, body, part);
    }
    row
}
