//! Inputs of the target `write`, and their mutator: by number, by row, and by record of the file that the draft makes.
//! An input is sixteen control bytes, of which the second and third say how many numbers there are, the numbers, and the text.

use std::slice::{from_raw_parts, from_raw_parts_mut};

use peer_reader::charset::Set;
use peer_reader::copy::copy;
use peer_reader::layout::CARRIED;
use peer_reader::random::Random;
use peer_writer::complete::complete;
use peer_writer::draft::{Draft, ROW};
use peer_writer::generate::{finish, shaped, SHAPES, STRANGE};
use peer_writer::order::Order;
use peer_writer::outgrow::large_size;
use peer_writer::sheet::lines_of_file;

use crate::mutate::{by_record, bytes, tried, Bytewise, CONTROL};

/// A draft with its control bytes.
#[derive(Clone)]
pub struct Input {
    pub control: [u8; CONTROL],
    pub numbers: Vec<u64>,
    pub text: Vec<u8>,
}

impl Input {
    /// As the target takes an input apart.
    pub fn taken_apart(given: &[u8]) -> Input {
        let mut control = [0; CONTROL];
        let held = given.len().min(CONTROL);
        control[..held].copy_from_slice(&given[..held]);
        let rest = &given[held..];
        let count = usize::from(u16::from_le_bytes([control[1], control[2]])).min(rest.len() / 8);
        let (numbers, text) = rest.split_at(8 * count);
        Input { control, numbers: numbers_of(numbers), text: text.to_vec() }
    }

    /// The bytes of the input.
    pub fn put_together(&self) -> Vec<u8> {
        let count = u16::try_from(self.numbers.len()).unwrap_or(u16::MAX);
        let mut made = self.control.to_vec();
        made[1..3].copy_from_slice(&count.to_le_bytes());
        made.extend(self.numbers[..usize::from(count)].iter().flat_map(|number| number.to_le_bytes()));
        made.extend(&self.text);
        made
    }

    fn rows(&self) -> usize {
        self.numbers.len() / ROW
    }

    fn type_of(&self, row: usize) -> u64 {
        self.numbers[row * ROW]
    }
}

fn numbers_of(bytes: &[u8]) -> Vec<u64> {
    bytes.chunks_exact(8).map(|number| u64::from_le_bytes(number.try_into().expect("eight bytes"))).collect()
}

/// # Safety
/// `data` points to `max` bytes of which `size` are given.
#[no_mangle]
pub unsafe extern "C" fn peer_mutate_draft(
    data: *mut u8,
    size: usize,
    max: usize,
    seed: u32,
    bytewise: Bytewise,
) -> usize {
    let given = from_raw_parts(data, size).to_vec();
    let mut random = Random::for_file(u64::from(seed), size as u64);
    let made = tried(|| mutated(&given, &mut random, bytewise).put_together());
    match made {
        Some(made) if made.len() <= max && made != given => {
            from_raw_parts_mut(data, made.len()).copy_from_slice(&made);
            made.len()
        }
        _ => bytewise(data, size, max),
    }
}

/// # Safety
/// The pointers go with their lengths.
#[no_mangle]
pub unsafe extern "C" fn peer_cross_drafts(
    one: *const u8,
    one_size: usize,
    two: *const u8,
    two_size: usize,
    out: *mut u8,
    max: usize,
    seed: u32,
) -> usize {
    let (one, two) = (from_raw_parts(one, one_size).to_vec(), from_raw_parts(two, two_size).to_vec());
    let mut random = Random::for_file(u64::from(seed), one_size as u64);
    let joined = tried(|| crossed(Input::taken_apart(&one), Input::taken_apart(&two), &mut random).put_together());
    let made = joined.unwrap_or(one);
    let length = made.len().min(max);
    from_raw_parts_mut(out, length).copy_from_slice(&made[..length]);
    length
}

fn mutated(given: &[u8], random: &mut Random, bytewise: Bytewise) -> Input {
    let mut input = Input::taken_apart(given);
    if random.percent(25) {
        for _ in 0..random.between(1, 4) {
            input.control[random.below(CONTROL)] = random.byte();
        }
    }
    let times = random.pick(&[1, 1, 1, 2, 3]);
    match random.below(100) {
        0..=7 => input.text = bytes(bytewise, &input.text, input.text.len() + 64),
        8..=11 => {
            let flat: Vec<u8> = input.numbers.iter().flat_map(|number| number.to_le_bytes()).collect();
            input.numbers = numbers_of(&bytes(bytewise, &flat, flat.len() + 80));
        }
        12..=16 => fresh(&mut input, random),
        17..=33 => (0..times).for_each(|_| change_number(&mut input, random)),
        34..=45 => (0..times).for_each(|_| change_rows(&mut input, random)),
        _ => by_file(&mut input, random, bytewise),
    }
    if random.percent(4) {
        input.text.truncate(random.below(input.text.len() + 1));
    }
    if random.percent(3) {
        input.numbers.truncate(random.below(input.numbers.len() + 1));
    }
    input
}

/// A draft from the generator.
fn fresh(input: &mut Input, random: &mut Random) {
    let shape = random.pick(&SHAPES);
    let turn = random.below(1_000_000);
    let made = shaped(random, shape, turn);
    (input.text, input.numbers) = (made.text, made.numbers);
}

/// One number of one row: an edge of what it may be, or something near.
fn change_number(input: &mut Input, random: &mut Random) {
    if input.rows() == 0 {
        return fresh(input, random);
    }
    let (row, other) = (random.below(input.rows()), random.below(input.rows()));
    let start_of_other = input.numbers[other * ROW + 1];
    let end = input.text.len() as u64;
    let numbers = &mut input.numbers[row * ROW..(row + 1) * ROW];
    let (one, two) = (3 + random.below(7), 3 + random.below(7));
    let little = random.draw() % 150;
    match random.below(14) {
        0 => numbers[0] = u64::from(random.pick(&CARRIED)),
        1 => numbers[0] = random.pick(&STRANGE),
        2 => numbers[1] = numbers[1].wrapping_add(little % 5).wrapping_sub(2),
        3 => numbers[1] = start_of_other,
        4 => numbers[1] = end.wrapping_sub(little),
        5 => numbers[1] = random.pick(&[u64::MAX - little, 1 << 63, (1 << 32) + numbers[1], end, end + 1]),
        6 => numbers[2] = random.pick(&[0, 1, 2, 257, (1 << 32) + 1, u64::MAX]),
        7 | 8 => numbers[one] = numbers[one].wrapping_add(little % 5).wrapping_sub(2),
        9 => numbers[one] = random.pick(&[0, 1, 99, 100, 999, 9_999, 10_000, 99_999, 100_000]),
        10 => numbers[one] = large_size(random),
        11 => {
            // The whole stays as long as it was.
            let moved = little.min(numbers[one]);
            numbers[one] -= moved;
            numbers[two] = numbers[two].wrapping_add(moved);
        }
        12 => {
            numbers[one] = numbers[one].wrapping_add(1 << 63);
            numbers[two] = numbers[two].wrapping_add(1 << 63);
        }
        _ => numbers[random.below(ROW)] = random.draw() >> random.below(64),
    }
}

/// Rows dropped, doubled, swapped, moved, or a run of them once more behind itself. The text stays.
fn change_rows(input: &mut Input, random: &mut Random) {
    if input.rows() == 0 {
        return fresh(input, random);
    }
    let mut rows: Vec<Vec<u64>> = input.numbers.chunks_exact(ROW).map(<[u64]>::to_vec).collect();
    let rest = input.numbers[rows.len() * ROW..].to_vec();
    let (at, other) = (random.below(rows.len()), random.below(rows.len()));
    match random.below(6) {
        0 => {
            rows.remove(at);
        }
        1 => rows.insert(other, rows[at].clone()),
        2 => rows.swap(at, other),
        3 => {
            let moved = rows.remove(at);
            rows.insert(random.below(rows.len() + 1), moved);
        }
        _ => {
            let count = random.between(1, 12).min(rows.len() - at);
            let times = if random.percent(15) { random.between(2, 12) } else { 1 };
            let run = rows[at..at + count].to_vec();
            (0..times).for_each(|_| drop(rows.splice(at + count..at + count, run.iter().cloned())));
        }
    }
    input.numbers = rows.concat();
    input.numbers.extend(rest);
}

/// The records that the draft makes, changed and most often made consistent again as in the target `read`, and laid out anew.
fn by_file(input: &mut Input, random: &mut Random, bytewise: Bytewise) {
    let set = Draft::new(&input.text, &input.numbers).set;
    let file = by_record(&complete(&input.text, &input.numbers).file, random, bytewise);
    let lines = lines_of_file(&copy(&file));
    let set = match (set, random.percent(90)) {
        (Set::Ascii, true) | (Set::Ebcdic, false) => Set::Ascii,
        _ => Set::Ebcdic,
    };
    (input.text, input.numbers) = finish(random, set, lines);
}

/// One draft with rows of another, whose text comes behind its own: one row for one of its type, or the other draft's end where it may follow.
fn crossed(mut one: Input, two: Input, random: &mut Random) -> Input {
    let behind = one.text.len() as u64;
    one.text.extend(&two.text);
    let shifted = |row: usize| {
        let mut numbers = two.numbers[row * ROW..(row + 1) * ROW].to_vec();
        numbers[1] = numbers[1].wrapping_add(behind);
        numbers
    };
    if one.rows() > 0 && random.percent(50) {
        for _ in 0..random.between(1, 3) {
            let at = random.below(one.rows());
            let alike: Vec<usize> = (0..two.rows()).filter(|row| two.type_of(*row) == one.type_of(at)).collect();
            if !alike.is_empty() {
                let numbers = shifted(random.pick(&alike));
                one.numbers[at * ROW..(at + 1) * ROW].copy_from_slice(&numbers);
            }
        }
        return one;
    }
    let keep = random.below(one.rows() + 1);
    one.numbers.truncate(keep * ROW);
    let mut order = Order::default();
    (0..keep).for_each(|row| order.go_on(one.type_of(row)));
    let fits: Vec<usize> = (0..two.rows()).filter(|row| order.admits(two.type_of(*row))).collect();
    let from = if fits.is_empty() { random.below(two.rows() + 1) } else { random.pick(&fits) };
    (from..two.rows()).for_each(|row| one.numbers.extend(shifted(row)));
    one
}
