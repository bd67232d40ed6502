//! A draft in the making: lines with their own bytes, laid out in a text in one manner or another.

use std::collections::BTreeMap;
use std::path::Path;

use peer_reader::charset::{Set, Text};
use peer_reader::copy::{ebcdic_bytes, translate_record};
use peer_reader::descent::split_record;
use peer_reader::judge::{all_blank, all_digits_in, number_in};
use peer_reader::layout::{layout, Layout, CARRIED};
use peer_reader::make::Rec;
use peer_reader::random::Random;

use crate::draft::{BLANK_MICR, ROW};
use crate::source::{source, Source};

/// One record: the numbers of its row but for the start, and the bytes that are to stand there.
#[derive(Clone, Debug)]
pub struct Line {
    pub code: u64,
    pub body: Vec<u8>,
    pub flag: u64,
    pub sizes: [u64; 7],
}

/// A draft, and how it was made.
#[derive(Clone, Debug)]
pub struct Made {
    pub shape: &'static str,
    pub text: Vec<u8>,
    pub numbers: Vec<u64>,
}

impl Made {
    /// Saves the text as it is, and the numbers one row a line.
    pub fn save(&self, folder: &Path, name: &str) -> std::io::Result<()> {
        let line = |row: &[u64]| row.iter().map(u64::to_string).collect::<Vec<_>>().join(" ") + "\n";
        let lines: String = self.numbers.chunks(ROW).map(line).collect();
        std::fs::create_dir_all(folder)?;
        std::fs::write(folder.join(format!("{name}.text")), &self.text)?;
        std::fs::write(folder.join(format!("{name}.draft")), lines)
    }
}

impl Line {
    /// The line of a record's bytes, the sizes as they are stated there.
    pub fn of_body(set: Set, body: &[u8]) -> Line {
        let text = Text::new(set, body);
        let named = body.len() >= 2 && all_digits_in(text.part(0, 2));
        let code = if named { number_in(text.part(0, 2)) } else { 256 + body.len() as u64 };
        let mut line = Line { code, body: body.to_vec(), flag: 0, sizes: [0; 7] };
        let Some(layout) = line.layout().filter(|layout| body.len() >= layout.fixed) else {
            return line;
        };
        line.flag = u64::from(code == 70 && all_blank(Text::new(set, layout.field(4).of(body)))) * BLANK_MICR;
        for (place, part) in layout.parts.iter().enumerate() {
            let stated = Text::new(set, layout.field(part.sized_by).of(body));
            line.sizes[place] = if all_digits_in(stated) { number_in(stated) } else { 0 };
        }
        line
    }

    pub fn of(record: &Rec) -> Line {
        Line { code: u64::from(record.code), ..Line::of_body(Set::Ascii, &record.body) }
    }

    pub fn layout(&self) -> Option<&'static Layout> {
        CARRIED.into_iter().find(|code| u64::from(*code) == self.code).map(layout)
    }

    /// The line with its characters in EBCDIC; its lengths are still those of a sound record.
    pub fn to_ebcdic(&mut self) {
        let bytes = ebcdic_bytes();
        translate_record(Set::Ascii, &mut self.body, |byte| bytes[usize::from(byte)]);
    }

    /// Junk in some or all of the places that are worked out. In the first line of an ASCII draft it does not tell EBCDIC.
    pub fn junk(&mut self, random: &mut Random, set: Set, first: bool) {
        let Some(layout) = self.layout().filter(|layout| self.body.len() >= layout.fixed) else {
            return;
        };
        let often = random.pick(&[30, 100]);
        for field in layout.fields.iter().filter(|field| source(layout, field.number) != Source::Given) {
            if random.percent(often) {
                let style = random.below(5);
                let place = &mut self.body[field.first - 1..field.last];
                place.iter_mut().for_each(|byte| *byte = junk_byte(random, set, style));
            }
        }
        if first && set == Set::Ascii && self.body[..2] == [0xF0, 0xF1] {
            self.body[0] = b'0';
        }
    }
}

fn junk_byte(random: &mut Random, set: Set, style: usize) -> u8 {
    match style {
        0 => random.byte(),
        1 => set.byte(random.digit()),
        2 => set.byte(b' '),
        3 => set.other().byte(random.digit()),
        _ => random.pick(&[0x00, 0xFF, set.byte(b'-'), set.byte(b'9')]),
    }
}

/// The lines of some records.
pub fn lines_of(records: &[Rec]) -> Vec<Line> {
    records.iter().map(Line::of).collect()
}

/// The lines of a file as its lengths frame it, sound or not.
pub fn lines_of_file(file: &[u8]) -> Vec<Line> {
    let mut lines = Vec::new();
    let mut left = file;
    while let Some(body) = split_record(left) {
        lines.push(Line::of_body(Set::of(file), body));
        left = &left[4 + body.len()..];
    }
    lines
}

/// How lines are laid out in a text.
#[derive(Clone, Copy, Debug, PartialEq, Eq)]
pub enum Manner {
    /// In order, with four bytes before each: as a file has them.
    AsFile,
    Packed,
    /// In any order with gaps of any bytes.
    Scattered,
    /// Lines of the same bytes stand once.
    Shared,
}

pub const MANNERS: [Manner; 4] = [Manner::AsFile, Manner::Packed, Manner::Scattered, Manner::Shared];

/// Lays lines out; one of them may be asked to end the text.
pub fn lay(random: &mut Random, lines: &[Line], manner: Manner, last: Option<usize>) -> (Vec<u8>, Vec<u64>) {
    let mut text = Vec::new();
    let mut starts = vec![0; lines.len()];
    let mut seen: BTreeMap<&[u8], usize> = BTreeMap::new();
    for index in order(random, lines.len(), manner, last) {
        let body = lines[index].body.as_slice();
        let gap = match manner {
            Manner::AsFile => 4,
            Manner::Scattered => random.pick(&[0, 0, 1, 7, 90]),
            Manner::Packed | Manner::Shared => 0,
        };
        text.extend((0..gap).map(|_| random.byte()));
        starts[index] = match seen.get(body) {
            Some(start) if manner == Manner::Shared && last != Some(index) => *start,
            _ => text.len(),
        };
        if starts[index] == text.len() {
            text.extend(body);
            seen.insert(body, starts[index]);
        }
    }
    if last.is_none() && random.percent(30) {
        text.extend((0..random.between(1, 200)).map(|_| b' '));
    }
    let row = |(line, start): (&Line, &usize)| row_of(line, *start as u64);
    (text, lines.iter().zip(&starts).flat_map(row).collect())
}

fn row_of(line: &Line, start: u64) -> [u64; ROW] {
    let mut row = [0; ROW];
    row[..3].copy_from_slice(&[line.code, start, line.flag]);
    row[3..].copy_from_slice(&line.sizes);
    row
}

fn order(random: &mut Random, count: usize, manner: Manner, last: Option<usize>) -> Vec<usize> {
    let mut order: Vec<usize> = (0..count).collect();
    if manner == Manner::Scattered {
        (1..count).for_each(|at| order.swap(at, random.below(at + 1)));
    }
    if let Some(last) = last {
        order.retain(|index| *index != last);
        order.push(last);
    }
    order
}

/// Puts anything into the numbers that the writer does not look at (reading 41): flags of other records than 70s, a 70's flag that asks for
/// nothing, sizes that no part has.
pub fn noise_in_numbers(random: &mut Random, numbers: &mut [u64]) {
    for row in numbers.chunks_exact_mut(ROW) {
        let parts = match row[0] {
            27 | 34 => 6,
            52 => 7,
            _ => 0,
        };
        if row[0] != 70 {
            row[2] = random.pick(&[0, 1, 2, u64::MAX]);
        } else if row[2] != BLANK_MICR {
            row[2] = random.pick(&[0, 2, 10, 257, 1 << 32, (1 << 32) + 1, u64::MAX]);
        }
        row[3 + parts..].iter_mut().for_each(|size| *size = random.pick(&[0, 1, 1 << 63, u64::MAX]));
    }
}
