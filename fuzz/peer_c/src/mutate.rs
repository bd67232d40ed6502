//! The mutator: changes by record and by field, with the four-byte lengths (and often the sums) made right again.
//! An input is sixteen control bytes and a file.

use std::panic::{self, AssertUnwindSafe};
use std::slice::{from_raw_parts, from_raw_parts_mut};
use std::sync::atomic::{AtomicBool, Ordering};

use peer_reader::charset::{Set, EBCDIC_CARRIED};
use peer_reader::copy::{copy, to_ebcdic};
use peer_reader::descent::{split_record, Inside};
use peer_reader::ebcdic;
use peer_reader::harm;
use peer_reader::layout::{carried, CARRIED};
use peer_reader::make::{self, encode, Rec, Wish};
use peer_reader::random::Random;
use peer_reader::stream::{shaped, SHAPES};

use crate::repair::{repair, straighten, whole};

pub const CONTROL: usize = 16;

/// The generator's functions may panic on records they were not made for: such a change is dropped without a word.
static CHANGING: AtomicBool = AtomicBool::new(false);

/// Called once before the first input.
#[no_mangle]
pub extern "C" fn peer_setup() {
    let usual = panic::take_hook();
    panic::set_hook(Box::new(move |what| {
        if !CHANGING.load(Ordering::Relaxed) {
            usual(what);
        }
    }));
}

pub fn tried<T>(change: impl FnOnce() -> T) -> Option<T> {
    CHANGING.store(true, Ordering::Relaxed);
    let made = panic::catch_unwind(AssertUnwindSafe(change));
    CHANGING.store(false, Ordering::Relaxed);
    made.ok()
}

/// The fuzzer's own byte mutations.
pub type Bytewise = unsafe extern "C" fn(*mut u8, usize, usize) -> usize;

/// A file taken apart: records of carried types, and whatever is not one.
#[derive(Clone)]
enum Piece {
    Known(Rec),
    Strange(Vec<u8>),
}

/// The pieces that the lengths lead to, and the bytes left over.
fn taken_apart(file: &[u8]) -> (Vec<Piece>, Vec<u8>) {
    let mut pieces = Vec::new();
    let mut at = 0;
    while let Some(body) = split_record(&file[at..]) {
        let code = body.get(..2).and_then(carried);
        pieces.push(match code {
            Some(code) => Piece::Known(Rec { code, body: body.to_vec(), told: None }),
            None => Piece::Strange(body.to_vec()),
        });
        at += 4 + body.len();
    }
    (pieces, file[at..].to_vec())
}

fn put_together(pieces: &[Piece], rest: &[u8]) -> Vec<u8> {
    let mut file = Vec::new();
    for piece in pieces {
        match piece {
            Piece::Known(record) => file.extend(encode(std::slice::from_ref(record))),
            Piece::Strange(body) => {
                file.extend((body.len() as u32).to_be_bytes());
                file.extend(body);
            }
        }
    }
    file.extend(rest);
    file
}

/// # Safety
/// `data` points to `max` bytes of which `size` are given.
#[no_mangle]
pub unsafe extern "C" fn peer_mutate(data: *mut u8, size: usize, max: usize, seed: u32, bytewise: Bytewise) -> usize {
    let given = from_raw_parts(data, size).to_vec();
    let mut random = Random::for_file(u64::from(seed), size as u64);
    let made = tried(|| mutated(&given, max, &mut random, bytewise));
    match made {
        Some(made) if made.len() <= max && made != given => {
            from_raw_parts_mut(data, made.len()).copy_from_slice(&made);
            made.len()
        }
        _ => bytewise(data, size, max),
    }
}

/// # Safety
/// The pointers go with their lengths.
#[no_mangle]
pub unsafe extern "C" fn peer_cross(
    one: *const u8,
    one_size: usize,
    two: *const u8,
    two_size: usize,
    out: *mut u8,
    max: usize,
    seed: u32,
) -> usize {
    let (one, two) = (from_raw_parts(one, one_size).to_vec(), from_raw_parts(two, two_size).to_vec());
    let mut random = Random::for_file(u64::from(seed), one_size as u64);
    let made = tried(|| crossed(&one, &two, &mut random)).unwrap_or(one);
    let length = made.len().min(max);
    from_raw_parts_mut(out, length).copy_from_slice(&made[..length]);
    length
}

/// The long tail (first control byte 5 modulo 64) is slow to read: most inputs lose it again.
fn spared(mut control: [u8; CONTROL], random: &mut Random) -> [u8; CONTROL] {
    if control[0] % 64 == 5 && random.percent(85) {
        control[0] = random.byte();
    }
    control
}

fn parts(input: &[u8]) -> ([u8; CONTROL], &[u8]) {
    let mut control = [0; CONTROL];
    let held = input.len().min(CONTROL);
    control[..held].copy_from_slice(&input[..held]);
    (control, &input[held..])
}

/// A record's type; 0 for a strange one.
fn code_of(piece: &Piece) -> u8 {
    match piece {
        Piece::Known(record) => record.code,
        Piece::Strange(_) => 0,
    }
}

/// What the record at this place belongs to, as far as the types before it say.
fn inside_of(pieces: &[Piece], at: usize) -> Inside {
    harm::insides(pieces[..=at].iter().map(code_of)).pop().unwrap_or(Inside::File)
}

/// An EBCDIC file is changed and repaired as its ASCII copy, and translated again afterwards.
fn as_ascii(file: &[u8]) -> Vec<u8> {
    match Set::by_library(file) {
        Set::Ascii => file.to_vec(),
        Set::Ebcdic => copy(file).into_owned(),
    }
}

/// The changed copy of a file: most often in the set of the file, now and then in the other, and now and then with a byte without a
/// counterpart or other bytes 5 and 6.
fn in_a_set(was: Set, changed: Vec<u8>, random: &mut Random) -> Vec<u8> {
    if !EBCDIC_CARRIED {
        return changed;
    }
    let stays = random.percent(90);
    let mut file = match (was, stays) {
        (Set::Ebcdic, true) | (Set::Ascii, false) => to_ebcdic(&changed),
        _ => changed,
    };
    match random.below(100) {
        0..=9 if !file.is_empty() => {
            let place = random.below(file.len());
            file[place] = random.pick(&Set::of(&file).strangers());
        }
        10..=13 if file.len() >= 6 => {
            let pairs = [[0xF0, 0xF1], [b'0', b'1'], [0xF0, b'1'], [b'0', 0xF1], [0xF1, 0xF0]];
            file[4..6].copy_from_slice(&random.pick(&pairs));
        }
        _ => {}
    }
    file
}

/// One file with records of another: one record for one of its type, or the other file's end behind a place it may follow.
fn crossed(one: &[u8], two: &[u8], random: &mut Random) -> Vec<u8> {
    let (control, first) = parts(one);
    let (_, second) = parts(two);
    let set = Set::by_library(first);
    let (mut pieces, _) = taken_apart(&as_ascii(first));
    let (second, rest) = taken_apart(&as_ascii(second));
    if random.percent(50) && !pieces.is_empty() {
        for _ in 0..random.between(1, 3) {
            let at = random.below(pieces.len());
            let alike: Vec<&Piece> = second.iter().filter(|piece| code_of(piece) == code_of(&pieces[at])).collect();
            if !alike.is_empty() {
                pieces[at] = random.pick(&alike).clone();
            }
        }
    } else {
        pieces.truncate(random.below(pieces.len() + 1));
        let last = pieces.last().map_or(0, code_of);
        let inside = pieces.len().checked_sub(1).map_or(Inside::File, |at| inside_of(&pieces, at));
        let fits = |place: &usize| harm::followers(inside, last).contains(&code_of(&second[*place]));
        let places: Vec<usize> = (0..second.len()).filter(fits).collect();
        let skip = if places.is_empty() { random.below(second.len() + 1) } else { random.pick(&places) };
        pieces.extend_from_slice(&second[skip..]);
    }
    mend(&mut pieces, random);
    let mut made = spared(control, random).to_vec();
    made.extend(in_a_set(set, put_together(&pieces, &rest), random));
    made
}

/// In most cases, makes the records consistent; strange ones stay where they are, or go where the order is straightened.
fn mend(pieces: &mut Vec<Piece>, random: &mut Random) -> bool {
    let held = |piece: &Piece| match piece {
        Piece::Known(record) => Some(record.clone()),
        Piece::Strange(_) => None,
    };
    let mut records: Vec<Rec> = pieces.iter().filter_map(held).collect();
    match random.below(100) {
        0..=49 => {
            straighten(random, &mut records);
            repair(&mut records);
            *pieces = records.into_iter().map(Piece::Known).collect();
            true
        }
        50..=79 => {
            repair(&mut records);
            let mut records = records.into_iter();
            for piece in pieces.iter_mut() {
                if let Piece::Known(record) = piece {
                    *record = records.next().expect("as many as were taken");
                }
            }
            true
        }
        _ => false,
    }
}

pub fn mutated(given: &[u8], max: usize, random: &mut Random, bytewise: Bytewise) -> Vec<u8> {
    let (mut control, file) = parts(given);
    if random.percent(25) {
        for _ in 0..random.between(1, 4) {
            control[random.below(CONTROL)] = random.byte();
        }
    }
    let mut file = match random.below(100) {
        0..=11 => bytes(bytewise, file, max - CONTROL.min(max)),
        12..=14 => fresh(random, max),
        _ => by_record(file, random, bytewise),
    };
    if random.percent(4) {
        file.truncate(random.below(file.len() + 1));
    }
    let mut made = spared(control, random).to_vec();
    made.extend(file);
    made
}

/// The fuzzer's byte mutations on a copy.
pub fn bytes(bytewise: Bytewise, given: &[u8], most: usize) -> Vec<u8> {
    let most = most.max(given.len()).max(1);
    let mut room = given.to_vec();
    room.resize(most, 0);
    // SAFETY: the room holds `most` bytes, of which the first are the given ones.
    let length = unsafe { bytewise(room.as_mut_ptr(), given.len(), most) };
    room.truncate(length);
    room
}

/// A file from the generator.
fn fresh(random: &mut Random, max: usize) -> Vec<u8> {
    let of_two_sets = EBCDIC_CARRIED && random.percent(50);
    let shape = if of_two_sets { random.pick(&ebcdic::SHAPES) } else { random.pick(&SHAPES) };
    let turn = random.below(1_000_000);
    let make = if of_two_sets { ebcdic::shaped } else { shaped };
    let mut file = make(random, shape, turn).bytes;
    file.truncate(max.saturating_sub(CONTROL));
    file
}

pub fn by_record(file: &[u8], random: &mut Random, bytewise: Bytewise) -> Vec<u8> {
    let (mut pieces, mut rest) = taken_apart(&as_ascii(file));
    if random.percent(30) {
        rest.clear();
    }
    let changes = random.pick(&[1, 1, 1, 2, 3]);
    for _ in 0..changes {
        one_change(&mut pieces, random, bytewise);
    }
    if mend(&mut pieces, random) && random.percent(40) {
        one_change(&mut pieces, random, bytewise);
    }
    in_a_set(Set::by_library(file), put_together(&pieces, &rest), random)
}

fn one_change(pieces: &mut Vec<Piece>, random: &mut Random, bytewise: Bytewise) {
    if pieces.is_empty() {
        pieces.extend(make::sound(random, &Wish::any()).into_iter().map(Piece::Known));
        return;
    }
    let at = random.below(pieces.len());
    match random.below(24) {
        0 => {
            pieces.remove(at);
        }
        1 => {
            let copy = pieces[at].clone();
            let to = random.below(pieces.len() + 1);
            pieces.insert(to, copy);
        }
        2 => {
            let other = random.below(pieces.len());
            pieces.swap(at, other);
        }
        3 => insert_lawful(pieces, at, random),
        4 => {
            let code = random.pick(&CARRIED);
            pieces.insert(at, Piece::Known(make::record(random, code, 40)));
        }
        5 => repeat_run(pieces, at, random),
        _ => change_piece(&mut pieces[at], random, bytewise),
    }
}

/// A record that may follow the one here.
fn insert_lawful(pieces: &mut Vec<Piece>, at: usize, random: &mut Random) {
    let next = harm::followers(inside_of(pieces, at), code_of(&pieces[at]));
    if !next.is_empty() {
        let code = random.pick(next);
        pieces.insert(at + 1, Piece::Known(make::record(random, code, 40)));
    }
}

/// A run of records (an item, a view, a bundle, a cash letter) once more behind itself.
fn repeat_run(pieces: &mut Vec<Piece>, at: usize, random: &mut Random) {
    let count = random.between(1, 12).min(pieces.len() - at);
    let run = pieces[at..at + count].to_vec();
    let times = if random.percent(10) { random.between(2, 12) } else { 1 };
    for _ in 0..times {
        pieces.splice(at + count..at + count, run.iter().cloned());
    }
}

fn change_piece(piece: &mut Piece, random: &mut Random, bytewise: Bytewise) {
    match piece {
        Piece::Strange(body) => {
            let longest = body.len() + 16;
            *body = bytes(bytewise, body, longest);
        }
        Piece::Known(record) if !whole(record) || random.percent(8) => {
            let longest = record.body.len() + 16;
            let body = bytes(bytewise, &record.body, longest);
            *piece = match body.get(..2).and_then(carried) {
                Some(code) => Piece::Known(Rec { code, body, told: None }),
                None => Piece::Strange(body),
            };
        }
        Piece::Known(record) => change_record(record, random, bytewise),
    }
}

/// A change within the fixed part, the variable part or the length field.
fn change_record(record: &mut Rec, random: &mut Random, bytewise: Bytewise) {
    let layout = record.layout();
    // Field 1 is the type: a change there is left to the byte mutations.
    let field = &layout.fields[random.between(1, layout.fields.len() - 1)];
    match random.below(12) {
        0..=2 => {
            let value = make::value(random, field);
            record.set(field.number, &value);
        }
        3..=5 => {
            let mut changed = bytes(bytewise, field.of(&record.body), field.size());
            changed.resize(field.size(), b' ');
            record.set(field.number, &changed);
        }
        6 => {
            let place = field.first - 1 + random.below(field.size());
            record.body[place] = random.pick(b"0123456789 *-?/$#AaZz@[`{~\x7F\x80\xFF\0\x1F!");
        }
        7 => {
            let fill = random.pick(b" 09*?-");
            record.set(field.number, &vec![fill; field.size()]);
        }
        8 => harm::harm_field(random, record, field.number),
        9 => {
            let sort = random.below(harm::LENGTH_SORTS);
            harm::harm_length(random, record, sort);
            if random.percent(70) {
                record.told = None;
            }
        }
        10 if !layout.parts.is_empty() => resize_part(record, random),
        10 => record.told = Some(harm::hostile(random)),
        _ => *record = make::record(random, record.code, 40),
    }
}

/// Gives one variable part another length, in its sizing field and in the bytes.
fn resize_part(record: &mut Rec, random: &mut Random) {
    let layout = record.layout();
    let part = &layout.parts[random.below(layout.parts.len())];
    let sized = layout.parts.iter().all(|part| {
        let digits = record.get(part.sized_by);
        digits.iter().all(|byte| byte.is_ascii_digit())
    });
    if !sized {
        return;
    }
    let start = peer_reader::judge::part_start(layout, &record.body, part);
    let old = peer_reader::judge::part_length(layout, &record.body, part) as usize;
    if start + old > record.body.len() {
        return;
    }
    let new = random.below(24);
    let part_bytes = make::characters(random, part.kind, new);
    record.body.splice(start..start + old, part_bytes);
    record.set_number(part.sized_by, new as u64);
}
