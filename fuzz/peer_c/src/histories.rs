//! Inputs of the target `book`, and their mutator: by number of the book and of the list, by call, and by file. An input is sixteen control bytes, the
//! numbers of the book, those of the list of file numbers taken, the calls, the lengths of the files but the last, and the files.

use std::slice::{from_raw_parts, from_raw_parts_mut};

use peer_book::call::{Call, History};
use peer_book::files::{any_paper, sound_paper};
use peer_book::generate::{history, ROUND};
use peer_book::layout::{
    is_owner, last, list_of, net_of, place_start, places_claimed, places_there, row_start, rows_there, total, BOUND,
    CLAIMED, CREDIT_CENTS, DEBIT_CENTS, FIGURES, HEAD, NUMBER, OWNER, OWNERS, PLACE, SIX, WIDTH,
};
use peer_book::paper::Paper;
use peer_book::sheet::{another, caller, junk, other_cents};
use peer_reader::random::Random;

use crate::mutate::{by_record, bytes, tried, Bytewise, CONTROL};

/// The most that the target looks at.
const FILES: usize = 10;
const CALLS: usize = 128;

/// The bytes of a call.
const CALL: usize = 16;

/// A call as the input has it.
#[derive(Clone, Copy)]
pub struct Step {
    pub kind: u8,
    pub file: u8,
    /// How the length of the row table is taken, and a length.
    pub room: (u8, u16),
    /// How the number is taken, and a number.
    pub number: (u8, u64),
    /// By its byte (`byte_of`).
    pub owner: u8,
}

pub const ENTER: u8 = 0;
pub const FIND: u8 = 1;
pub const SUM_UP: u8 = 2;
pub const WITHDRAW: u8 = 3;
pub const TIDY: u8 = 4;
const KINDS: usize = 5;

/// How the length of a row table and a number are taken.
const AS_TOLD: u8 = 0;
const AMPLE: u8 = 1;
const HOWS: usize = 4;

/// The byte that tells the target an owner: a small number itself, an owner but for one high bit, or the largest number. Any other number that is no
/// owner is told as a small one.
fn byte_of(owner: u64) -> u8 {
    let (low, high) = (owner as u32, (owner >> 32) as u32);
    match owner {
        0..=127 => owner as u8,
        u64::MAX => u8::MAX,
        _ if is_owner(u64::from(low)) && high.is_power_of_two() => {
            1 << 7 | (high.trailing_zeros() as u8) << 1 | (low - 1) as u8
        }
        _ => 127,
    }
}

impl Step {
    fn of(laid: &[u8]) -> Step {
        let number = laid[8..CALL].try_into().expect("eight bytes");
        Step {
            kind: laid[0],
            file: laid[1],
            room: (laid[2], u16::from_le_bytes([laid[4], laid[5]])),
            number: (laid[3], u64::from_le_bytes(number)),
            owner: laid[6],
        }
    }

    fn laid(&self) -> Vec<u8> {
        let mut laid = vec![self.kind, self.file, self.room.0, self.number.0];
        laid.extend(self.room.1.to_le_bytes());
        laid.extend([self.owner, 0]);
        laid.extend(self.number.1.to_le_bytes());
        laid
    }

    /// A file entered for an owner under a number with an ample row table.
    pub fn enter(owner: u64, file: usize, number: u64) -> Step {
        Step { kind: ENTER, file: file as u8, room: (AMPLE, 0), number: (AS_TOLD, number), owner: byte_of(owner) }
    }

    pub fn find(owner: u64, number: u64) -> Step {
        Step { kind: FIND, room: (AS_TOLD, 0), ..Step::enter(owner, 0, number) }
    }

    pub fn sum_up(owner: u64) -> Step {
        Step { kind: SUM_UP, ..Step::find(owner, 0) }
    }

    pub fn withdraw(owner: u64, number: u64) -> Step {
        Step { kind: WITHDRAW, ..Step::find(owner, number) }
    }

    pub fn tidy() -> Step {
        Step { kind: TIDY, ..Step::find(0, 0) }
    }

    /// A call of a history. A row table that is longer than two bytes tell is ample.
    fn of_call(call: &Call) -> Step {
        match *call {
            Call::Enter { paper, file_number, owner, rows } => {
                let told = u16::try_from(rows).map_or((AMPLE, 0), |rows| (AS_TOLD, rows));
                Step { room: told, ..Step::enter(owner, paper, file_number) }
            }
            Call::Find { owner, entry_number } => Step::find(owner, entry_number),
            Call::Totals { owner } => Step::sum_up(owner),
            Call::Withdraw { owner, entry_number } => Step::withdraw(owner, entry_number),
            Call::Tidy => Step::tidy(),
        }
    }
}

/// A history with its control bytes.
#[derive(Clone)]
pub struct Input {
    pub control: [u8; CONTROL],
    pub book: Vec<u64>,
    /// So many zeros follow in the book.
    pub zeros: u16,
    /// The list of file numbers taken, and so many zeros that follow in it.
    pub taken: Vec<u64>,
    pub free: u16,
    pub steps: Vec<Step>,
    pub files: Vec<Vec<u8>>,
}

/// Takes so many bytes from the front, or all that are there.
fn take<'a>(from: &mut &'a [u8], count: usize) -> &'a [u8] {
    let (taken, left) = from.split_at(count.min(from.len()));
    *from = left;
    taken
}

/// Numbers whose zeros at the end are told, not set down: the others, and how many zeros follow.
fn told(numbers: &[u64]) -> (Vec<u64>, usize) {
    let end = numbers.iter().rposition(|number| *number != 0).map_or(0, |last| last + 1);
    (numbers[..end].to_vec(), numbers.len() - end)
}

/// So many numbers from the front, or all that are there.
fn take_numbers(from: &mut &[u8], count: usize) -> Vec<u64> {
    let count = count.min(from.len() / 8);
    let numbers = take(from, 8 * count).chunks_exact(8);
    numbers.map(|number| u64::from_le_bytes(number.try_into().expect("eight bytes"))).collect()
}

fn two(laid: &[u8]) -> usize {
    laid.iter().rev().fold(0, |so_far, byte| so_far << 8 | usize::from(*byte))
}

impl Input {
    /// As the target takes an input apart.
    pub fn taken_apart(given: &[u8]) -> Input {
        let mut left = given;
        let mut control = [0; CONTROL];
        let held = take(&mut left, CONTROL);
        control[..held.len()].copy_from_slice(held);
        let book = take_numbers(&mut left, two(&control[1..3]));
        let taken = take_numbers(&mut left, two(&control[8..10]));
        let calls = usize::from(control[6]).min(CALLS).min(left.len() / CALL);
        let steps = take(&mut left, CALL * calls).chunks_exact(CALL).map(Step::of).collect();
        let count = usize::from(control[7]).min(FILES);
        let lengths: Vec<usize> = (1..count).map(|_| two(take(&mut left, 2))).collect();
        let mut files: Vec<Vec<u8>> = lengths.into_iter().map(|length| take(&mut left, length).to_vec()).collect();
        if count > 0 {
            files.push(left.to_vec());
        }
        let (zeros, free) = (two(&control[4..6]) as u16, two(&control[10..12]) as u16);
        Input { control, book, zeros, taken, free, steps, files }
    }

    /// The bytes of the input. Files that two bytes do not tell the length of are cut.
    pub fn put_together(&self) -> Vec<u8> {
        let (steps, files) = (&self.steps[..self.steps.len().min(CALLS)], &self.files[..self.files.len().min(FILES)]);
        let [numbers, of_list] = [&self.book, &self.taken].map(|of| u16::try_from(of.len()).unwrap_or(u16::MAX));
        let mut made = self.control.to_vec();
        made[1..3].copy_from_slice(&numbers.to_le_bytes());
        made[4..6].copy_from_slice(&self.zeros.to_le_bytes());
        made[8..10].copy_from_slice(&of_list.to_le_bytes());
        made[10..12].copy_from_slice(&self.free.to_le_bytes());
        (made[6], made[7]) = (steps.len() as u8, files.len() as u8);
        made.extend(self.book[..usize::from(numbers)].iter().flat_map(|number| number.to_le_bytes()));
        made.extend(self.taken[..usize::from(of_list)].iter().flat_map(|number| number.to_le_bytes()));
        made.extend(steps.iter().flat_map(Step::laid));
        let cut = |file: &Vec<u8>| file.len().min(usize::from(u16::MAX));
        let but_the_last = &files[..files.len().saturating_sub(1)];
        made.extend(but_the_last.iter().flat_map(|file| (cut(file) as u16).to_le_bytes()));
        files.iter().for_each(|file| made.extend(&file[..cut(file)]));
        made
    }

    /// A history of the generator; none where it has more calls or files than an input.
    pub fn of_history(history: &History, control: [u8; CONTROL]) -> Option<Input> {
        if history.papers.len() > FILES || history.calls.len() > CALLS {
            return None;
        }
        let ((book, zeros), (taken, free)) = (told(&history.book), told(&history.taken));
        Some(Input {
            control,
            book,
            zeros: u16::try_from(zeros).ok()?,
            taken,
            free: u16::try_from(free).ok()?,
            steps: history.calls.iter().map(Step::of_call).collect(),
            files: history.papers.iter().map(|paper| paper.bytes.clone()).collect(),
        })
    }

    /// The table that the target lends.
    fn table(&self) -> Vec<u64> {
        let mut table = self.book.clone();
        table.resize(table.len() + usize::from(self.zeros), 0);
        table
    }
}

/// The list that the target lends.
fn list_in(input: &Input) -> Vec<u64> {
    let mut list = input.taken.clone();
    list.resize(list.len() + usize::from(input.free), 0);
    list
}

/// The list of an input, with the zeros at its end told, not set down.
fn put_list(input: &mut Input, list: Vec<u64>) {
    let (taken, free) = told(&list);
    (input.taken, input.free) = (taken, u16::try_from(free).unwrap_or(u16::MAX));
}

/// # Safety
/// `data` points to `max` bytes of which `size` are given.
#[no_mangle]
pub unsafe extern "C" fn peer_mutate_history(
    data: *mut u8,
    size: usize,
    max: usize,
    seed: u32,
    bytewise: Bytewise,
) -> usize {
    let given = from_raw_parts(data, size).to_vec();
    let mut random = Random::for_file(u64::from(seed), size as u64);
    let made = tried(|| mutated(Input::taken_apart(&given), &mut random, bytewise).put_together());
    match made {
        Some(made) if made.len() <= max && made != given => {
            from_raw_parts_mut(data, made.len()).copy_from_slice(&made);
            made.len()
        }
        _ => bytewise(data, size, max),
    }
}

/// # Safety
/// The pointers go with their lengths.
#[no_mangle]
pub unsafe extern "C" fn peer_cross_histories(
    one: *const u8,
    one_size: usize,
    two: *const u8,
    two_size: usize,
    out: *mut u8,
    max: usize,
    seed: u32,
) -> usize {
    let (one, two) = (from_raw_parts(one, one_size).to_vec(), from_raw_parts(two, two_size).to_vec());
    let mut random = Random::for_file(u64::from(seed), one_size as u64);
    let joined = tried(|| crossed(Input::taken_apart(&one), Input::taken_apart(&two), &mut random).put_together());
    let made = joined.filter(|made| made.len() <= max).unwrap_or(one);
    let length = made.len().min(max);
    from_raw_parts_mut(out, length).copy_from_slice(&made[..length]);
    length
}

fn mutated(mut input: Input, random: &mut Random, bytewise: Bytewise) -> Input {
    if random.percent(15) {
        let place = random.pick(&[0, 3]);
        input.control[place] = random.byte();
    }
    let times = random.pick(&[1, 1, 1, 2, 3]);
    match random.below(100) {
        0..=5 => {
            let all = input.put_together();
            return Input::taken_apart(&bytes(bytewise, &all, all.len() + 64));
        }
        6..=11 => return fresh(input, random),
        12..=30 => (0..times).for_each(|_| change_book(&mut input, random)),
        31..=36 => (0..times).for_each(|_| change_list(&mut input, random)),
        37..=64 => (0..times).for_each(|_| change_steps(&mut input, random)),
        65..=84 => change_files(&mut input, random, bytewise),
        _ => to_the_brim(&mut input, random),
    }
    if random.percent(65) {
        make_sound(&mut input, random);
    }
    input
}

/// A history of the generator, a long one aside.
fn fresh(input: Input, random: &mut Random) -> Input {
    let index = random.draw() % (1_000 * ROUND as u64);
    let made = history(random.draw(), index);
    Input::of_history(&made, input.control).unwrap_or(input)
}

/// One number of the table, or its length.
fn change_book(input: &mut Input, random: &mut Random) {
    let mut table = input.table();
    let there = rows_there(table.len());
    let place = match random.below(4) {
        0 => random.below(HEAD),
        1 => CLAIMED,
        _ => row_start(random.below(there + 1)) + random.below(WIDTH),
    };
    let other = table.get(random.below(table.len())).copied().unwrap_or(1);
    match random.below(14) {
        0 => table.truncate(random.below(table.len() + 1)),
        1 => table.extend(vec![0; random.between(1, 3 * WIDTH)]),
        2 => table.extend(std::array::from_fn::<u64, WIDTH, _>(|_| junk(random))),
        3 if there > 0 => {
            let start = row_start(random.below(there));
            let row = table[start..start + WIDTH].to_vec();
            drop(table.splice(start..start, row));
        }
        4 if there > 0 => {
            let start = row_start(random.below(there));
            drop(table.drain(start..start + WIDTH));
        }
        _ if place >= table.len() => table.resize(place + 1, 0),
        5 => table[place] = other,
        6 | 7 => table[place] = junk(random),
        8 => table[place] = u64::MAX - random.draw() % 1_000_000,
        9 if place == CLAIMED => table[place] = there as u64 + random.draw() % 3,
        10 | 11 if place >= HEAD => table[place - (place - HEAD) % WIDTH + OWNER] = caller(random),
        _ => table[place] = another(random, table[place]),
    }
    put_table(input, table);
}

/// The table of an input, with the zeros at its end told, not set down.
fn put_table(input: &mut Input, table: Vec<u64>) {
    let (book, zeros) = told(&table);
    (input.book, input.zeros) = (book, u16::try_from(zeros).unwrap_or(u16::MAX));
}

/// One number of the list, one of its places, or its length.
fn change_list(input: &mut Input, random: &mut Random) {
    let mut list = list_in(input);
    let there = places_there(list.len());
    let place = place_start(random.below(there.max(1)));
    match random.below(10) {
        0 => list.truncate(random.below(list.len() + 1)),
        1 => list.resize(list.len() + random.between(1, 4 * PLACE), 0),
        2 => list.truncate(place_start(places_claimed(&list).min(there as u64) as usize)),
        _ if list.is_empty() => list = vec![0; list_of(random.between(1, 20))],
        3 => list[0] = there as u64 + random.draw() % 3,
        4 => list[0] = another(random, list[0]),
        5 => list[0] = random.draw() % (there as u64 + 1),
        _ if place + 1 >= list.len() => list.resize(place + PLACE, 0),
        6 | 7 => list[place] = caller(random),
        8 => list[place + 1] = input.steps.get(random.below(input.steps.len())).map_or(7, |step| step.number.1),
        _ => list[place + 1] = junk(random),
    }
    put_list(input, list);
}

/// Calls dropped, doubled, swapped, inserted, or one part of a call changed.
fn change_steps(input: &mut Input, random: &mut Random) {
    let steps = &mut input.steps;
    let (at, other) = (random.below(steps.len()), random.below(steps.len()));
    let files = input.files.len();
    match random.below(14) {
        0..=2 => {
            let step = any_step(&input.book, &input.taken, files, random);
            steps.insert(random.below(steps.len() + 1), step);
        }
        _ if steps.is_empty() => steps.push(Step::enter(caller(random), 0, 1)),
        3 => drop(steps.remove(at)),
        4 => steps.insert(other, steps[at]),
        5 => steps.swap(at, other),
        6 => steps[at].kind = random.below(KINDS) as u8,
        7 => steps[at].file = random.below(files.max(1)) as u8,
        8 => steps[at].room = (random.below(HOWS) as u8, random.draw() as u16 >> random.below(16)),
        9 => steps[at].number.0 = random.below(HOWS) as u8,
        10 => steps[at].number.1 = steps[other].number.1,
        11 | 12 => steps[at].owner = byte_of(caller(random)),
        _ => steps[at].number.1 = another(random, steps[at].number.1),
    }
}

/// Any call, with a number that means something in the book or with any.
fn any_step(book: &[u64], taken: &[u64], files: usize, random: &mut Random) -> Step {
    let row = random.below(rows_there(book.len()).max(1));
    let place = random.below(places_there(taken.len()).max(1));
    let kind = random.pick(&[ENTER, ENTER, ENTER, FIND, SUM_UP, WITHDRAW, WITHDRAW, TIDY]);
    let near = match kind {
        ENTER => taken.get(place_start(place) + 1).copied(),
        _ => book.get(row_start(row) + NUMBER).copied(),
    };
    let number = match random.below(4) {
        0 => near.unwrap_or(1),
        1 => junk(random),
        _ => random.draw() % 12,
    };
    let mut step = Step { kind, ..Step::enter(caller(random), random.below(files.max(1)), number) };
    if random.percent(25) {
        (step.number.0, step.room.0) = (random.below(HOWS) as u8, random.below(HOWS) as u8);
    }
    step
}

/// A file changed by its records, another in its place, one more, or one fewer.
fn change_files(input: &mut Input, random: &mut Random, bytewise: Bytewise) {
    let at = random.below(input.files.len());
    match random.below(10) {
        0 | 1 => input.files.push(sound_paper(random, (1, 3)).bytes),
        _ if input.files.is_empty() => input.files.push(any_paper(random).bytes),
        2 => drop(input.files.remove(at)),
        3 => input.files[at] = any_paper(random).bytes,
        4 => input.files[at] = sound_paper(random, (1, 4)).bytes,
        _ => input.files[at] = by_record(&input.files[at], random, bytewise),
    }
}

/// The running totals and net positions of both owners, as far as they are there, are made the sums of their rows claimed, and no more rows are claimed
/// than there are, nor places. A sum that 64 bits do not hold is stated as what they leave of it, or rows are lowered.
fn make_sound(input: &mut Input, random: &mut Random) {
    let mut table = input.table();
    let rows = table.first().map_or(0, |claimed| (*claimed).min(rows_there(table.len()) as u64));
    if let Some(claimed) = table.first_mut() {
        *claimed = rows;
    }
    for owner in OWNERS {
        if random.percent(80) {
            lower(&mut table, owner);
        }
        let sums = sums_of(&table, owner);
        let part = sums.map(|sum| sum as u64).into_iter().chain([net_of(sums) as u64]);
        table.iter_mut().skip(total(owner, 0)).zip(part).for_each(|(number, sum)| *number = sum);
    }
    put_table(input, table);
    let mut list = list_in(input);
    let there = places_there(list.len()) as u64;
    if let Some(claimed) = list.first_mut() {
        *claimed = (*claimed).min(there);
    }
    put_list(input, list);
}

/// Where the claimed rows of an owner begin; they are there.
fn rows_of(table: &[u64], owner: u64) -> Vec<usize> {
    let claimed = table.first().map_or(0, |claimed| *claimed as usize);
    (0..claimed).map(row_start).filter(|start| table[start + OWNER] == owner).collect()
}

fn sums_of(table: &[u64], owner: u64) -> [u128; SIX] {
    let rows = rows_of(table, owner);
    std::array::from_fn(|figure| rows.iter().map(|start| u128::from(table[start + FIGURES + figure])).sum())
}

/// Rows of an owner are lowered until 64 bits hold the running totals and the net position.
fn lower(table: &mut [u64], owner: u64) {
    for start in rows_of(table, owner) {
        let sums = sums_of(table, owner);
        let off = i64::try_from(net_of(sums)).is_err();
        for figure in (0..SIX).filter(|figure| sums[*figure] > u128::from(u64::MAX) || off && *figure >= DEBIT_CENTS) {
            table[start + FIGURES + figure] >>= 32;
        }
    }
}

/// A number one below another, that one, or one above it.
fn near(number: i128, random: &mut Random) -> i128 {
    number + random.pick(&[-1, 0, 1])
}

/// A book that one of the files makes full for an owner, or just does not: by its rows, its last number, a running total, or the places of the list; or
/// whose net position the file, or a withdrawal, brings to its bound. The file is entered at the end, or the entry withdrawn.
fn to_the_brim(input: &mut Input, random: &mut Random) {
    make_sound(input, random);
    let mut table = input.table();
    let at = random.below(input.files.len());
    let Some(paper) = input.files.get(at).map(|file| Paper::new(file.clone())).filter(Paper::accepted) else {
        return input.files.insert(0, sound_paper(random, (1, 3)).bytes);
    };
    let owner = random.pick(&OWNERS);
    let letters = paper.letters.len();
    table.resize(table.len().max(row_start(letters + 1)), 0);
    let claimed = table[CLAIMED] as usize;
    if random.percent(25) {
        return places_to_the_brim(input, owner, at, random);
    }
    if random.percent(25) {
        return withdrawal_to_the_bound(input, table, owner, random);
    }
    match random.below(2 + SIX + 4) {
        0 => table.resize(row_start(claimed + letters).saturating_sub(random.below(2)), 0),
        1 => table[last(owner)] = near(i128::from(u64::MAX) - letters as i128, random) as u64,
        place if place < 2 + SIX => {
            let most = near(i128::from(u64::MAX) - paper.sums()[place - 2] as i128, random);
            total_to(&mut table, owner, place - 2, most as u64, random);
        }
        place => {
            // Either side of the bound, or of what an i64 holds.
            let sides = [BOUND, -BOUND, BOUND, -BOUND, i128::from(i64::MAX), i128::from(i64::MIN)];
            let with_file = random.pick(&sides[..if place == 2 + SIX { 6 } else { 2 }]);
            let most = near(with_file - net_of(paper.sums()), random);
            net_to(&mut table, owner, most, random);
        }
    }
    input.steps.push(Step::enter(owner, at, random.draw()));
    put_table(input, table);
    make_sound(input, random);
}

/// A list with no free place, or one.
fn places_to_the_brim(input: &mut Input, owner: u64, file: usize, random: &mut Random) {
    let mut list = list_in(input);
    let claimed = places_claimed(&list).min(places_there(list.len()) as u64) as usize;
    list.resize(list_of(claimed + random.below(2)), 0);
    put_list(input, list);
    input.steps.push(Step::enter(owner, file, random.draw()));
}

/// Two rows of the owner: without the one the net position is that of the others, and the other brings it to the bound.
fn withdrawal_to_the_bound(input: &mut Input, mut table: Vec<u64>, owner: u64, random: &mut Random) {
    let first = own_row(&mut table, owner, random);
    let number = table[first + NUMBER];
    let net = random.pick(&[BOUND, -BOUND, BOUND, -BOUND, i128::from(i64::MAX), i128::from(i64::MIN)]);
    let own = random.pick(&[0, 1, -1, 1_000, -1_000, BOUND / 2]);
    let wanted = near(net, random) + own;
    net_to(&mut table, owner, wanted, random);
    let cents = [DEBIT_CENTS, CREDIT_CENTS].map(|figure| first + FIGURES + figure);
    let (debit, credit) = if own < 0 { (own.unsigned_abs() as u64, 0) } else { (0, own as u64) };
    (table[cents[0]], table[cents[1]]) = (debit, credit);
    input.steps.push(Step::withdraw(owner, number));
    put_table(input, table);
    make_sound(input, random);
}

/// Some claimed row is made the owner's. Gives where it begins.
fn own_row(table: &mut [u64], owner: u64, random: &mut Random) -> usize {
    table[CLAIMED] = table[CLAIMED].max(1);
    let start = row_start(random.below(table[CLAIMED] as usize));
    table[start + OWNER] = owner;
    start
}

/// One row's figure becomes what brings the running total there, if the other rows leave as much; of cents the other ones too, so that the net position
/// stays in its range.
fn total_to(table: &mut [u64], owner: u64, figure: usize, most: u64, random: &mut Random) {
    const APART: u64 = (BOUND / 10) as u64;
    let start = own_row(table, owner, random);
    let others = other_cents(figure).map(|other| (other, most.saturating_sub(APART)));
    for (figure, most) in [(figure, most)].into_iter().chain(others) {
        table[start + FIGURES + figure] = 0;
        let sum = sums_of(table, owner)[figure];
        table[start + FIGURES + figure] = most.saturating_sub(sum as u64);
    }
}

/// One row's cents become what brings the net position there.
fn net_to(table: &mut [u64], owner: u64, net: i128, random: &mut Random) {
    let start = own_row(table, owner, random);
    let cents = [DEBIT_CENTS, CREDIT_CENTS].map(|figure| start + FIGURES + figure);
    cents.into_iter().for_each(|place| table[place] = 0);
    let missing = net - net_of(sums_of(table, owner));
    let (less, more) = if missing < 0 { (cents[1], cents[0]) } else { (cents[0], cents[1]) };
    table[less] = random.pick(&[0, 0, 1, 1_000]);
    table[more] = (missing.unsigned_abs() as u64).wrapping_add(table[less]);
}

/// One history with the other's book, with its calls and files behind its own, or with one of its files in the place of one.
fn crossed(mut one: Input, two: Input, random: &mut Random) -> Input {
    match random.below(4) {
        0 => {
            (one.book, one.zeros) = (two.book, two.zeros);
            if random.percent(60) {
                (one.taken, one.free) = (two.taken, two.free);
            }
        }
        1 if !one.files.is_empty() && !two.files.is_empty() => {
            let place = random.below(one.files.len());
            one.files[place] = two.files[random.below(two.files.len())].clone();
        }
        2 => {
            let rows: Vec<u64> = two.book.get(HEAD..).unwrap_or_default().to_vec();
            let mut table = one.table();
            table.resize(table.len().max(HEAD), 0);
            table.extend(rows.chunks_exact(WIDTH).take(4).flatten());
            put_table(&mut one, table);
            make_sound(&mut one, random);
        }
        _ => {
            let behind = one.files.len() as u8;
            let shifted = |step: &Step| Step { file: step.file.saturating_add(behind), ..*step };
            let keep = random.below(one.steps.len() + 1);
            one.steps.truncate(keep);
            one.steps.extend(two.steps.iter().map(shifted));
            one.files.extend(two.files);
        }
    }
    one
}
