//! The independent salvage behind C calls, and the mutator of torn files. An input is sixteen control bytes and a file, as of the target `read`.

use std::slice::{from_raw_parts, from_raw_parts_mut};

use peer_reader::charset::Set;
use peer_reader::copy::{copy, to_ebcdic};
use peer_reader::descent::split_record;
use peer_reader::random::Random;
use peer_salvage::generate;
use peer_salvage::opinion::opinion;
use peer_salvage::promises;
use peer_salvage::salvage::{outcome, Outcome};

use crate::mutate::{mutated, tried, Bytewise, CONTROL};
use crate::writing::lent;

/// Salvages a file once; the outcome is then asked for any number of buffers and lists.
///
/// # Safety
/// `file` points to `len` bytes.
#[no_mangle]
pub unsafe extern "C" fn peer_torn_open(file: *const u8, len: usize) -> *mut Outcome {
    Box::into_raw(Box::new(outcome(lent(file, len))))
}

/// # Safety
/// `found` came from `peer_torn_open` and is not used again.
#[no_mangle]
pub unsafe extern "C" fn peer_torn_close(found: *mut Outcome) {
    drop(Box::from_raw(found));
}

/// The answer for what is lent, and buffer and list as they are to be left.
///
/// # Safety
/// `found` came from `peer_torn_open`; `out` points to `out_len` bytes, `list` to `list_len` numbers, `answer` to twelve.
#[no_mangle]
pub unsafe extern "C" fn peer_torn_fill(
    found: *const Outcome,
    out: *mut u8,
    out_len: usize,
    list: *mut u64,
    list_len: usize,
    answer: *mut u64,
) -> u64 {
    let given = (*found).fill(from_raw_parts_mut(out, out_len), from_raw_parts_mut(list, list_len));
    from_raw_parts_mut(answer, given.len()).copy_from_slice(&given);
    given[0]
}

/// Whether the second opinion on a file is the same, and the promises of reading 67 hold of the outcome that both sides have. What does not hold is told on
/// standard error.
///
/// # Safety
/// `file` points to `len` bytes.
#[no_mangle]
pub unsafe extern "C" fn peer_torn_keeps_promises(file: *const u8, len: usize) -> i32 {
    let file = lent(file, len);
    let found = outcome(file);
    let kept = match opinion(file) == found {
        true => promises::keep(file, &found, |file| Ok(outcome(file))),
        false => Err("the second opinion is another".to_string()),
    };
    if let Err(words) = &kept {
        eprintln!("  {words}");
    }
    i32::from(kept.is_ok())
}

/// # Safety
/// `data` points to `max` bytes of which `size` are given.
#[no_mangle]
pub unsafe extern "C" fn peer_mutate_torn(
    data: *mut u8,
    size: usize,
    max: usize,
    seed: u32,
    bytewise: Bytewise,
) -> usize {
    let given = from_raw_parts(data, size).to_vec();
    let mut random = Random::for_file(u64::from(seed), size as u64);
    match tried(|| torn(&given, max, &mut random, bytewise)) {
        Some(made) if made.len() <= max && made != given => {
            from_raw_parts_mut(data, made.len()).copy_from_slice(&made);
            made.len()
        }
        _ => bytewise(data, size, max),
    }
}

/// Half of the changes are those of the target `read`; the others tear, or take a file of the generator.
fn torn(given: &[u8], max: usize, random: &mut Random, bytewise: Bytewise) -> Vec<u8> {
    if random.percent(50) {
        return mutated(given, max, random, bytewise);
    }
    let (control, file) = given.split_at(given.len().min(CONTROL));
    let mut made = control.to_vec();
    made.resize(CONTROL, 0);
    if random.percent(30) {
        made[random.below(CONTROL)] = random.byte();
    }
    let mut file = match random.below(100) {
        0..=14 => generate::file(u64::from(random.byte()), random.below(100_000) as u64).bytes,
        _ => by_records(file, random),
    };
    if random.percent(15) {
        file.truncate(random.below(file.len() + 1));
    }
    file.truncate(max.saturating_sub(CONTROL));
    made.extend(file);
    made
}

/// The records that the lengths frame, with their lengths, and the bytes behind them.
fn framed(file: &[u8]) -> (Vec<Vec<u8>>, Vec<u8>) {
    let mut records = Vec::new();
    let mut at = 0;
    while let Some(body) = split_record(&file[at..]) {
        records.push(file[at..at + 4 + body.len()].to_vec());
        at += 4 + body.len();
    }
    (records, file[at..].to_vec())
}

/// Records lost, doubled, swapped and moved, runs of them lost or brought elsewhere; lengths that end the walk; characters of a type changed.
fn by_records(file: &[u8], random: &mut Random) -> Vec<u8> {
    let set = Set::of(file);
    let (mut records, mut rest) = framed(&copy(file));
    for _ in 0..random.pick(&[1, 1, 1, 2, 3]) {
        if records.is_empty() {
            break;
        }
        let (at, other) = (random.below(records.len()), random.below(records.len()));
        let run = at..(at + random.between(1, 12)).min(records.len());
        match random.below(10) {
            0 | 1 => drop(records.remove(at)),
            2 => records.insert(at, records[other].clone()),
            3 => records.swap(at, other),
            4 => drop(records.drain(run)),
            5 => {
                let moved: Vec<Vec<u8>> = records.drain(run).collect();
                let place = random.below(records.len() + 1);
                records.splice(place..place, moved);
            }
            6 => {
                let doubled = records[run].to_vec();
                records.splice(other..other, doubled);
            }
            7 => {
                let length = random.pick(&[0, 1, 2, 79, 80, 81, 0x7FFF_FFFF, 0xFFFF_FFFFu32]);
                records[at][..4].copy_from_slice(&length.to_be_bytes());
            }
            8 if records[at].len() >= 6 => {
                let two = random
                    .pick(&[*b"01", *b"10", *b"20", *b"25", *b"50", *b"61", *b"70", *b"90", *b"99", *b"68", *b"??"]);
                records[at][4..6].copy_from_slice(&two);
            }
            _ => rest = if random.percent(50) { Vec::new() } else { records[other].clone() },
        }
    }
    let torn = [records.concat(), rest].concat();
    match set {
        Set::Ebcdic if random.percent(90) => to_ebcdic(&torn),
        Set::Ascii if random.percent(5) => to_ebcdic(&torn),
        _ => torn,
    }
}
