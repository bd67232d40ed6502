//! The stream of torn files: sound files torn in every way that the request and its readings speak of, and files put together of pieces, sound
//! and not. A seed and an index give the file again.

use peer_reader::copy::to_ebcdic;
use peer_reader::layout::{layout, name_of, CARRIED, NOT_CARRIED};
use peer_reader::make::{encode, record, sound, Rec, Wish};
use peer_reader::random::Random;
use peer_reader::{brim, ebcdic, harm, stream};

use crate::pieces;

/// A file and how it came about.
#[derive(Clone, Debug)]
pub struct Made {
    pub shape: &'static str,
    pub bytes: Vec<u8>,
}

/// So many files of a run meet every point of the coverage.
pub const WHOLE_RUN: u64 = 20_000;

/// The shapes of a round.
const TURNS: [&str; 37] = [
    "sound",
    "stream",
    "stream",
    "stream in EBCDIC",
    "stream in EBCDIC",
    "beginning",
    "beginning",
    "bytes changed",
    "bytes changed",
    "bytes lost",
    "bytes lost",
    "bytes added",
    "records",
    "records",
    "headers",
    "controls",
    "controls",
    "credits everywhere",
    "credits everywhere",
    "strangers",
    "put together",
    "put together",
    "put together",
    "put together",
    "put together",
    "put together",
    "put together",
    "put together",
    "put together",
    "one letter",
    "against a rule",
    "against a rule",
    "61 against a rule",
    "addenda beyond the count",
    "behind a stray",
    "brim",
    "hardly a file",
];

/// The file of this index in the run of this seed.
pub fn file(seed: u64, index: u64) -> Made {
    let mut random = Random::for_file(seed ^ 0x7012_0011_7012_0011, index);
    let (turn, place) = (index / TURNS.len() as u64, (index % TURNS.len() as u64) as usize);
    let alike = |turns: &[&str]| turns.iter().filter(|shape| **shape == TURNS[place]).count() as u64;
    shaped(&mut random, TURNS[place], turn * alike(&TURNS) + alike(&TURNS[..place]), seed)
}

fn shaped(random: &mut Random, shape: &'static str, turn: u64, seed: u64) -> Made {
    let bytes = match shape {
        "sound" => base_bytes(random),
        "stream" => stream::file(seed, small(turn, 5_000)).bytes,
        "stream in EBCDIC" => ebcdic::file(seed, small(turn, 3_500)).bytes,
        "beginning" => beginning(random),
        "bytes changed" => bytes_changed(random),
        "bytes lost" => bytes_lost(random),
        "bytes added" => bytes_added(random),
        "records" => of_records(random, records_torn),
        "headers" => of_records(random, headers_spoiled),
        "controls" => of_records(random, controls_spoiled),
        "credits everywhere" => of_records(random, credits_everywhere),
        "strangers" => of_records(random, strangers),
        "one letter" => put_together(random, 1),
        "against a rule" => against_a_rule(random, turn as usize),
        "61 against a rule" => credit_against_a_rule(random, turn as usize),
        "addenda beyond the count" => beyond_the_count(random, turn as usize),
        "behind a stray" => behind_a_stray(random, turn as usize),
        "brim" => brimming(random, turn as usize),
        "hardly a file" => hardly(random),
        _ => {
            let letters = random.between(1, 4);
            put_together(random, letters)
        }
    };
    Made { shape, bytes }
}

/// The streams of the reader have a large file in the middle of each so many: those are left out.
fn small(turn: u64, rare: u64) -> u64 {
    turn + u64::from(turn % rare == rare / 2)
}

/// A sound file of some letters.
pub fn base(random: &mut Random) -> Vec<Rec> {
    let mut wish = Wish { letters: (1, 4), bundles: (1, 3), items: (1, 2), views: (1, 1), image: 20, ..Wish::any() };
    (wish.addenda, wish.extras, wish.contents) = ((0, 1), 25, b"NEIF");
    match random.below(6) {
        0 => wish.credits = 100,
        1 => (wish.credits, wish.credit_views) = (100, 80),
        2 => (wish.letters, wish.bundles) = ((1, 1), (1, 4)),
        3 => (wish.letters, wish.bundles, wish.items) = ((2, 3), (1, 1), (1, 1)),
        _ => {}
    }
    sound(random, &wish)
}

/// The bytes as they are, or in EBCDIC.
pub fn any_set(random: &mut Random, ascii: Vec<u8>) -> Vec<u8> {
    match random.percent(45) {
        true => to_ebcdic(&ascii),
        false => ascii,
    }
}

/// A sound file in either set.
fn base_bytes(random: &mut Random) -> Vec<u8> {
    let ascii = encode(&base(random));
    any_set(random, ascii)
}

/// A sound file whose records are torn once or a few times.
fn of_records(random: &mut Random, tear: impl Fn(&mut Random, &mut Vec<Rec>)) -> Vec<u8> {
    let mut records = base(random);
    for _ in 0..random.pick(&[1, 1, 1, 2, 3]) {
        tear(random, &mut records);
    }
    let bytes = encode(&records);
    any_set(random, bytes)
}

/// Cut off at any byte, behind any record, or within a length.
fn beginning(random: &mut Random) -> Vec<u8> {
    let records = match random.percent(70) {
        true => base(random),
        false => pieces::assembled(random, 2),
    };
    let whole = encode(&records);
    let keep = match random.below(3) {
        0 => random.below(whole.len() + 1),
        1 => encode(&records[..random.below(records.len() + 1)]).len(),
        _ => encode(&records[..random.below(records.len())]).len() + random.between(1, 5),
    };
    let mut bytes = any_set(random, whole);
    bytes.truncate(keep);
    bytes
}

/// A few bytes changed, anywhere or in a length field.
fn bytes_changed(random: &mut Random) -> Vec<u8> {
    let records = base(random);
    let starts: Vec<usize> = (0..records.len()).map(|at| encode(&records[..at]).len()).collect();
    let mut bytes = any_set(random, encode(&records));
    for _ in 0..random.pick(&[1, 1, 2, 3, 6]) {
        let place = match random.percent(15) {
            true => random.pick(&starts) + random.pick(&[2, 3, 3]),
            false => random.below(bytes.len()),
        };
        bytes[place] = match random.below(5) {
            0 => random.byte(),
            1 => random.digit(),
            2 => random.pick(&[0x00, 0x01, 0x20, 0x40, 0xF0, 0xF9]),
            _ => bytes[place] ^ (1 << random.below(8)),
        };
    }
    bytes
}

/// A run of bytes lost: within a record, from one record into another, or of whole records.
fn bytes_lost(random: &mut Random) -> Vec<u8> {
    let mut bytes = base_bytes(random);
    for _ in 0..random.pick(&[1, 1, 2]) {
        let from = random.below(bytes.len());
        let most = random.pick(&[1, 2, 4, 80, 84, 300, 2_000]).min(bytes.len() - from);
        let count = random.between(1, most.max(1)).min(bytes.len() - from);
        bytes.drain(from..from + count);
        if bytes.is_empty() {
            break;
        }
    }
    bytes
}

/// Bytes that came twice, or from elsewhere.
fn bytes_added(random: &mut Random) -> Vec<u8> {
    let mut bytes = base_bytes(random);
    let at = random.below(bytes.len() + 1);
    let more: Vec<u8> = match random.below(4) {
        0 => (0..random.between(1, 6)).map(|_| random.byte()).collect(),
        1 => bytes[at..(at + random.between(1, 400)).min(bytes.len())].to_vec(),
        2 => vec![0; random.between(1, 90)],
        _ => base_bytes(random),
    };
    bytes.splice(at..at, more);
    bytes
}

/// A record lost, doubled, swapped with another or moved; runs of records lost; a record damaged.
pub fn records_torn(random: &mut Random, records: &mut Vec<Rec>) {
    if records.len() < 2 {
        return;
    }
    let at = random.below(records.len());
    let other = random.below(records.len());
    match random.below(8) {
        0 | 1 => drop(records.remove(at)),
        2 => records.insert(at, records[at].clone()),
        3 => records.swap(at, other),
        4 => {
            let moved = records.remove(at);
            records.insert(other.min(records.len()), moved);
        }
        5 => drop(records.drain(at..(at + random.between(1, 6)).min(records.len()))),
        6 => records.insert(at, records[other].clone()),
        _ => harm::one_record(random, records, at),
    }
}

/// A 01, a 10 or a 20 against its rules.
fn headers_spoiled(random: &mut Random, records: &mut Vec<Rec>) {
    let code = random.pick(&[10, 10, 10, 20, 20, 1]);
    if code == 1 && random.percent(50) {
        return; // without its 01 nothing is left: so often is enough
    }
    if let Some(at) = harm::some(random, records, code) {
        pieces::spoil(random, &mut records[at]);
    }
}

/// A 70, 90 or 99 against its rules, lost, or doubled.
fn controls_spoiled(random: &mut Random, records: &mut Vec<Rec>) {
    let code = random.pick(&[70, 70, 90, 90, 90, 99, 99]);
    let Some(at) = harm::some(random, records, code) else { return };
    match random.below(6) {
        0 => drop(records.remove(at)),
        1 => records.insert(at, records[at].clone()),
        2 if code != 70 => pieces::spoil_free(random, &mut records[at]),
        3 => {
            let targets: Vec<u8> =
                harm::total_targets().into_iter().filter(|(of, _)| *of == code).map(|(_, field)| field).collect();
            let field = random.pick(&targets);
            if records[at].body.len() == records[at].layout().fixed {
                harm::harm_total(random, &mut records[at], field);
            }
        }
        _ => pieces::spoil(random, &mut records[at]),
    }
}

/// 61s with and without views at any places.
fn credits_everywhere(random: &mut Random, records: &mut Vec<Rec>) {
    for _ in 0..random.between(1, 3) {
        let at = random.between(1, records.len());
        let header = records[..at].iter().rev().find(|record| record.code == 10).cloned();
        let header = header.unwrap_or_else(|| record(random, 10, 0));
        let credit = pieces::any_credit(random, &header);
        records.splice(at..at, credit);
    }
}

/// A second 01, types that are not carried, and what is no type.
fn strangers(random: &mut Random, records: &mut Vec<Rec>) {
    let least = if random.percent(5) { 0 } else { 1 };
    let at = random.between(least, records.len());
    let stranger = pieces::stranger(random);
    records.insert(at, stranger);
}

/// Of pieces, and then perhaps torn by bytes.
fn put_together(random: &mut Random, letters: usize) -> Vec<u8> {
    let records = pieces::assembled(random, letters);
    let mut bytes = any_set(random, encode(&records));
    match random.below(12) {
        0 => bytes.truncate(random.below(bytes.len() + 1)),
        1 => {
            let place = random.below(bytes.len());
            bytes[place] = random.byte();
        }
        2 => {
            let at = encode(&records[..random.below(records.len())]).len();
            let length = random.pick(&[0, 0, 1, 1, 0xFFFF_FFFF, 0x8000_0000, 79u32]);
            bytes[at..at + 4].copy_from_slice(&length.to_be_bytes());
        }
        3 => {
            let behind = random.between(1, 90);
            bytes.extend((0..behind).map(|_| random.pick(&[0, 0, b'9', b' ', 0xF9])));
        }
        _ => {}
    }
    bytes
}

/// A record of each type by turns, of a wrong length or with a field against its rule, and each broken link by turns.
fn against_a_rule(random: &mut Random, turn: usize) -> Vec<u8> {
    // In a bundle there are no headers and controls of letters and files; in their places are types that come seldom.
    let codes = CARRIED.map(|code| match code {
        1 => 54,
        10 => 27,
        90 => 34,
        99 => 35,
        _ => code,
    });
    let code = codes[turn / 3 % codes.len()];
    let records = match turn % 3 {
        0 => {
            let (mut records, at) = harm::holding(random, &Wish::holding(code), code);
            pieces::spoil_length(random, &mut records[at]);
            records
        }
        1 => {
            let field = random.between(2, layout(code).fields.len()) as u8;
            harm::field_file(random, (code, field))
        }
        _ => {
            let links = harm::link_targets();
            harm::link_file(random, links[turn / 3 % links.len()])
        }
    };
    let bytes = encode(&records);
    any_set(random, bytes)
}

/// Items that state an addendum less than they have, the last of them a 27, a 34, a 33, or another.
fn beyond_the_count(random: &mut Random, turn: usize) -> Vec<u8> {
    let checks: &'static [u8] = &[25];
    let returns: &'static [u8] = &[31];
    let (kinds, extras, addenda) = match turn % 5 {
        0 => (checks, 100, (0, 0)),
        1 => (returns, 100, (0, 0)),
        2 => (returns, 0, (0, 0)),
        3 => (checks, 0, (0, 1)),
        _ => (returns, 0, (0, 1)),
    };
    let wish = Wish { kinds, extras, addenda, letters: (1, 2), bundles: (1, 3), items: (1, 1), ..Wish::any() };
    let (mut records, at) = harm::holding(random, &Wish { contents: b"EIF", image: 10, ..wish }, kinds[0]);
    pieces::another_count(&mut records[at], true);
    let bytes = encode(&records);
    any_set(random, bytes)
}

/// A 61 directly under a 10 with a view and its 54, one of the four spoiled by turns, among others.
fn credit_against_a_rule(random: &mut Random, turn: usize) -> Vec<u8> {
    let mut header = record(random, 10, 0);
    header.set(8, &[random.pick(b"Nn")]);
    let mut records = vec![record(random, 1, 0), header.clone()];
    records.extend(pieces::any_credit(random, &header));
    let mut credit = pieces::credit_with_analysis(random, &header);
    pieces::spoil(random, &mut credit[turn % 4]);
    records.extend(credit);
    records.extend(pieces::any_credit(random, &header));
    records.push(pieces::control(random, 90));
    let bytes = encode(&records);
    any_set(random, bytes)
}

/// A record of each type by turns where none belongs, and a 61 right behind it.
fn behind_a_stray(random: &mut Random, turn: usize) -> Vec<u8> {
    let mut header = record(random, 10, 0);
    header.set(8, &[random.pick(b"Nn")]);
    let mut records = vec![record(random, 1, 0), header.clone()];
    let codes: Vec<u8> = CARRIED.into_iter().filter(|code| !matches!(code, 10 | 20 | 61 | 90 | 99)).collect();
    let place = turn % (codes.len() + NOT_CARRIED.len() + 1);
    let no_type = random.pick(&pieces::NO_TYPES);
    let stray = match codes.get(place) {
        Some(code) => record(random, *code, 5),
        None => match NOT_CARRIED.get(place - codes.len()) {
            Some(code) => pieces::named(random, name_of(*code)),
            None => pieces::named(random, no_type),
        },
    };
    records.push(stray);
    records.extend(pieces::any_credit(random, &header));
    records.push(pieces::control(random, [90, 99][turn / 40 % 2]));
    let bytes = encode(&records);
    any_set(random, bytes)
}

/// Sums that a control can just state, and sums that none can; some without their controls.
fn brimming(random: &mut Random, turn: usize) -> Vec<u8> {
    let whole = brim::small(random, turn % brim::SMALL_SORTS);
    let mut bytes = match random.percent(40) {
        true => to_ebcdic(&whole),
        false => whole,
    };
    match random.below(3) {
        0 => bytes.truncate(bytes.len() - 84), // without the 99
        1 => bytes.truncate(bytes.len() - random.between(1, 200)),
        _ => {}
    }
    bytes
}

/// Bytes that hardly frame a record.
fn hardly(random: &mut Random) -> Vec<u8> {
    let header = encode(&[record(random, 1, 0)]);
    let mut bytes = any_set(random, header);
    match random.below(6) {
        0 => bytes.truncate(random.below(8)),
        1 => bytes.truncate(random.below(bytes.len())),
        2 => bytes[3] = random.pick(&[0, 1, 2, 79, 81]),
        3 => bytes[4..6].copy_from_slice(&random.pick(&[[b'1', b'0'], [0xF1, 0xF0], [0xF0, b'1'], [b'0', b' ']])),
        4 => bytes = (0..random.below(200)).map(|_| random.pick(&[0, 0, 0, 2, 80, b'0', b'1', 0xF0, 0xF1])).collect(),
        _ => {
            let place = random.between(6, bytes.len() - 1);
            bytes[place] = random.byte();
        }
    }
    if random.percent(50) {
        bytes.extend(base_bytes(random));
    }
    bytes
}

/// A small file for the sweep over every beginning: one or two letters put together, or a sound file.
pub fn to_be_cut(seed: u64, turn: u64) -> Vec<u8> {
    let mut random = Random::for_file(seed ^ 0x0C07_0C07_0C07_0C07, turn);
    let records = match random.percent(50) {
        true => pieces::assembled(&mut random, 1),
        false => {
            let wish = Wish { letters: (1, 2), bundles: (1, 2), items: (1, 1), image: 5, credits: 60, ..Wish::any() };
            sound(&mut random, &Wish { addenda: (0, 1), extras: 10, views: (1, 1), ..wish })
        }
    };
    let bytes = encode(&records);
    any_set(&mut random, bytes)
}
