//! Files of request 5: every shape of the stream in EBCDIC, and what only two sets bring about. They are put to the proved library once it
//! carries EBCDIC (`charset::EBCDIC_CARRIED`).

use crate::charset::Set;
use crate::copy::{copy, to_ebcdic, translate_record};
use crate::harm::{self, field_targets};
use crate::layout::{Type, CARRIED, LAYOUTS};
use crate::make::{encode, record, sound, Rec, Wish};
use crate::random::Random;
use crate::stream::{self, put_image, Made};

/// The shapes that `make_file --kind` takes besides those of the stream; a version is a file of the stream in EBCDIC.
pub const SHAPES: [&str; 7] = ["version", "stray", "other record", "other field", "five", "first", "image"];

/// The shapes of a round behind its versions, one of each file of the stream's round.
const TURNS: [&str; 16] = [
    "stray",
    "stray",
    "stray",
    "stray",
    "stray",
    "other record",
    "other record",
    "other field",
    "other field",
    "other field",
    "other field",
    "five",
    "five",
    "first",
    "image",
    "image",
];

/// One in so many files is a large one: half a whole run of the stream, 50,000 files, holds each of the 14 sorts.
const RARE: u64 = 3_500;

/// The file of this index in the run of this seed.
pub fn file(seed: u64, index: u64) -> Made {
    let mut random = Random::for_file(seed ^ 0x0370_0370_0370_0370, index);
    if index % RARE == RARE / 2 {
        return version(stream::rare(&mut random, (index / RARE) as usize));
    }
    let round = stream::ROUND + TURNS.len();
    let (turn, place) = ((index / round as u64) as usize, (index % round as u64) as usize);
    if place < stream::ROUND {
        return version(stream::in_round(&mut random, turn, place));
    }
    let place = place - stream::ROUND;
    let alike = |turns: &[&str]| turns.iter().filter(|shape| **shape == TURNS[place]).count();
    shaped(&mut random, TURNS[place], turn * alike(&TURNS) + alike(&TURNS[..place]))
}

/// A file of this shape; the turn chooses the target where a shape has many.
pub fn shaped(random: &mut Random, shape: &str, turn: usize) -> Made {
    match shape {
        "stray" => made("stray", stray(random, turn)),
        "other record" => made("other record", other_record(random, turn)),
        "other field" => made("other field", other_field(random, turn)),
        "five" => made("five", five(random, turn)),
        "first" => made("first", first(random, turn)),
        "image" => made("image", image(random, turn)),
        _ => version(stream::in_round(random, turn / stream::ROUND, turn % stream::ROUND)),
    }
}

fn made(shape: &'static str, bytes: Vec<u8>) -> Made {
    Made { shape, bytes }
}

fn version(ascii: Made) -> Made {
    Made { bytes: to_ebcdic(&ascii.bytes), ..ascii }
}

fn at<T: Copy>(targets: &[T], turn: usize) -> T {
    targets[turn % targets.len()]
}

/// An ASCII file in this set.
pub fn in_set(set: Set, ascii: Vec<u8>) -> Vec<u8> {
    match set {
        Set::Ascii => ascii,
        Set::Ebcdic => to_ebcdic(&ascii),
    }
}

/// A file of this set that is sound in itself, with one record of a type, and where a field of that record stands in the file.
struct Placed {
    bytes: Vec<u8>,
    start: usize,
    size: usize,
}

/// Such a file; a variable part has a length.
fn placed(random: &mut Random, set: Set, code: u8, number: u8) -> Placed {
    let (mut records, index) = harm::holding(random, &Wish::holding(code), code);
    let (first, size) = match records[index].layout().fields.iter().find(|field| field.number == number) {
        Some(field) => (field.first - 1, field.size()),
        None => harm::filled_part(random, &mut records[index], number),
    };
    let start = encode(&records[..index]).len() + 4 + first;
    Placed { bytes: in_set(set, encode(&records)), start, size }
}

impl Placed {
    fn field(&self) -> &[u8] {
        &self.bytes[self.start..self.start + self.size]
    }

    fn set_field(&mut self, bytes: &[u8]) {
        self.bytes[self.start..self.start + self.size].copy_from_slice(bytes);
    }
}

/// Every field of characters, the record types too.
fn stray_targets() -> Vec<(u8, u8)> {
    CARRIED.into_iter().map(|code| (code, 1)).chain(field_targets()).collect()
}

/// A byte without a counterpart in one field, or nothing else in it.
fn stray(random: &mut Random, turn: usize) -> Vec<u8> {
    let (code, number) = at(&stray_targets(), turn);
    let mut file = placed(random, Set::Ebcdic, code, number);
    let strangers = Set::Ebcdic.strangers();
    // ASCII characters, the bytes that Table 1 prints, and those beside the runs of code page 037.
    let likely = [
        0x20, 0x30, 0x39, 0x41, 0x4A, 0x5F, 0x6A, 0x80, 0x8A, 0x90, 0x9A, 0xA0, 0xAA, 0xB9, 0xCA, 0xDA, 0xE1, 0xEA,
        0xFA,
    ];
    let mut bytes = file.field().to_vec();
    for _ in 0..random.pick(&[1, 1, 1, 2]) {
        let place = random.below(bytes.len());
        bytes[place] = if random.percent(50) { random.pick(&likely) } else { random.pick(&strangers) };
    }
    if random.percent(10) {
        bytes.fill(random.pick(&strangers));
    }
    file.set_field(&bytes);
    file.bytes
}

/// A record's body in the other set than its file's.
fn turned_over(set: Set, body: &[u8]) -> Vec<u8> {
    let mut turned = body.to_vec();
    match set {
        Set::Ascii => {
            let bytes = crate::copy::ebcdic_bytes();
            translate_record(Set::Ascii, &mut turned, |byte| bytes[usize::from(byte)]);
        }
        Set::Ebcdic => translate_record(Set::Ebcdic, &mut turned, |byte| Set::Ebcdic.character(byte)),
    }
    turned
}

/// One record of the other set: in the place of one of its type, or before one, and never the first.
fn other_record(random: &mut Random, turn: usize) -> Vec<u8> {
    let code = at(&CARRIED, turn);
    let set = at(&[Set::Ascii, Set::Ebcdic], turn / CARRIED.len());
    let (mut records, index) = harm::holding(random, &Wish::holding(code), code);
    let place = if index == 0 { random.between(1, records.len() - 1) } else { index };
    if index == 0 || random.percent(40) {
        let twin = records[index].clone();
        records.insert(place, twin);
    }
    let file = in_set(set, encode(&records));
    let start = encode(&records[..place]).len() + 4;
    let end = start + records[place].body.len();
    [&file[..start], &turned_over(set, &file[start..end]), &file[end..]].concat()
}

/// Every field of characters in a file of each set.
pub fn other_field_targets() -> Vec<(Set, u8, u8)> {
    let of = |set: Set| field_targets().into_iter().map(move |(code, number)| (set, code, number));
    of(Set::Ascii).chain(of(Set::Ebcdic)).collect()
}

/// One field in the other set, and sound there; or, now and then in an ANS field, bytes that are characters of both sets.
fn other_field(random: &mut Random, turn: usize) -> Vec<u8> {
    let (set, code, number) = at(&other_field_targets(), turn);
    let mut file = placed(random, set, code, number);
    if random.percent(10) && ans_targets().contains(&(code, number)) {
        let both = |byte: &u8| Set::Ascii.is_character(*byte) && Set::Ebcdic.is_character(*byte);
        let both: Vec<u8> = (0..=255).filter(both).collect();
        let bytes: Vec<u8> = (0..file.size).map(|_| random.pick(&both)).collect();
        file.set_field(&bytes);
        return file.bytes;
    }
    let turned =
        |file: &Placed| -> Vec<u8> { file.field().iter().map(|byte| set.other().byte(set.character(*byte))).collect() };
    // A blank ANS field of an ASCII file becomes 40s, which are at signs there and pass.
    let ans = ans_targets().contains(&(code, number));
    while ans && turned(&file).iter().all(|byte| set.is_character(*byte)) {
        file = placed(random, set, code, number);
    }
    file.set_field(&turned(&file));
    file.bytes
}

/// The bytes of [ ] ^ ` | by the code page, and those that Table 1 prints and the code page does not have (reading 35).
pub const OF_THE_PAGE: [u8; 5] = [0xBA, 0xBB, 0xB0, 0x79, 0x4F];
pub const OF_TABLE_1: [u8; 4] = [0x4A, 0x5F, 0xB9, 0x6A];

/// The fields and variable parts of type ANS.
fn ans_targets() -> Vec<(u8, u8)> {
    let mut targets = Vec::new();
    for layout in &LAYOUTS {
        let fields = layout.fields.iter().filter(|field| field.kind == Type::AlphanumericSpecial);
        targets.extend(fields.map(|field| (layout.code, field.number)));
        let parts = layout.parts.iter().filter(|part| part.kind == Type::AlphanumericSpecial);
        targets.extend(parts.map(|part| (layout.code, part.number)));
    }
    targets
}

/// One of these bytes in an ANS field.
fn five(random: &mut Random, turn: usize) -> Vec<u8> {
    let bytes = [&OF_THE_PAGE[..], &OF_TABLE_1].concat();
    let (code, number) = at(&ans_targets(), turn / bytes.len());
    let mut file = placed(random, Set::Ebcdic, code, number);
    let place = file.start + random.below(file.size);
    file.bytes[place] = at(&bytes, turn);
    file.bytes
}

/// The first bytes of a file: a wrong first length before F0 F1, fewer bytes than six and no more than those, bytes 5 and 6 of the other
/// set or of both.
fn first(random: &mut Random, turn: usize) -> Vec<u8> {
    let ascii = encode(&sound(random, &Wish::any()));
    let mut file = to_ebcdic(&ascii);
    match turn % 4 {
        0 => {
            let size = file.len() as u32;
            let near = [0, 1, 2, 3, 5, 6, 79, 81, 84, 164, size - 5, size - 4, size - 3, size, u32::MAX, 0x5000_0000];
            let length = if random.percent(90) { at(&near, turn / 4) } else { harm::hostile(random) };
            file[..4].copy_from_slice(&length.to_be_bytes());
        }
        1 => {
            let length = at(&[0, 1, 2, 3, 80, 0xF0F1_F0F1], turn / 4 / 6);
            file[..4].copy_from_slice(&u32::to_be_bytes(length));
            file.truncate(1 + turn / 4 % 6);
        }
        2 => {
            let pairs =
                [[0xF0, b'1'], [b'0', 0xF1], [0xF0, 0xF0], [0xF1, 0xF1], [0xF1, 0xF0], [b'0', b'1'], [0xF0, 0xF2]];
            file[4..6].copy_from_slice(&at(&pairs, turn / 4));
        }
        _ => {
            file = ascii;
            let pairs = [[0xF0, 0xF1], [0xF0, b'1'], [b'0', 0xF1], [0xF9, 0xF9], [0xF1, 0xF0]];
            file[4..6].copy_from_slice(&at(&pairs, turn / 4));
        }
    }
    file
}

/// A 52 whose image holds whole records of either set, often a 52, with their lengths before them.
fn image(random: &mut Random, turn: usize) -> Vec<u8> {
    let (file_set, image_set) = at(
        &[(Set::Ebcdic, Set::Ebcdic), (Set::Ebcdic, Set::Ascii), (Set::Ascii, Set::Ebcdic), (Set::Ascii, Set::Ascii)],
        turn,
    );
    let (mut records, index) = harm::holding(random, &Wish::holding(52), 52);
    let mut held = vec![random.byte(); random.below(5)];
    for _ in 0..random.between(1, 3) {
        let code = if random.percent(60) { 52 } else { random.pick(&CARRIED) };
        held.extend(framed_in(image_set, record(random, code, 12)));
    }
    held.extend(vec![random.byte(); random.below(5)]);
    put_image(&mut records[index], &held);
    if random.percent(20) {
        harm::anything(random, &mut records);
    }
    in_set(file_set, encode(&records))
}

/// A record of this set with its length.
fn framed_in(set: Set, record: Rec) -> Vec<u8> {
    let body = match set {
        Set::Ascii => record.body,
        Set::Ebcdic => turned_over(Set::Ascii, &record.body),
    };
    [&(body.len() as u32).to_be_bytes()[..], &body].concat()
}

/// The file in the other set, where that is told by its bytes 5 and 6.
pub fn in_other_set(file: &[u8]) -> Option<Vec<u8>> {
    let made = match Set::of(file) {
        Set::Ascii => to_ebcdic(file),
        Set::Ebcdic => copy(file).into_owned(),
    };
    (Set::of(&made) != Set::of(file)).then_some(made)
}
