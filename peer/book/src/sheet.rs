//! A sound book in the making, laid out as a table: rows of any numbers, and the running totals that they come to; and the list of file numbers taken
//! beside it. It need not have grown from an empty one.

use peer_reader::random::Random;

use crate::layout::{
    is_owner, last, net, row_start, total, BOUND, CLAIMED, CREDIT_CENTS, DEBIT_CENTS, FIGURES, FILE_NUMBER, HEAD,
    NUMBER, OWNER, OWNERS, PLACE, SIX, WIDTH,
};

pub type Row = [u64; WIDTH];

/// Owner and file number.
pub type Place = [u64; PLACE];

/// What stands in a table, from its head to the numbers behind its last whole row.
#[derive(Clone, Debug)]
pub struct Sheet {
    /// The last entry number given to each owner.
    pub last: [u64; OWNERS.len()],
    /// The rows claimed.
    pub rows: Vec<Row>,
    /// The rows behind those claimed.
    pub spare: Vec<Row>,
    /// Fewer numbers than a row has.
    pub tail: Vec<u64>,
    /// The places claimed in the list of file numbers taken.
    pub taken: Vec<Place>,
    /// The places behind those claimed.
    pub free_places: Vec<Place>,
    /// Half a place behind the last.
    pub half_place: Option<u64>,
}

/// A number that means nothing.
pub fn junk(random: &mut Random) -> u64 {
    match random.below(6) {
        0 => 0,
        1 => 1,
        2 => random.below(100) as u64,
        3 => u64::MAX - random.below(3) as u64,
        _ => random.draw(),
    }
}

fn junk_row(random: &mut Random) -> Row {
    std::array::from_fn(|_| junk(random))
}

/// Another number than this one.
pub fn another(random: &mut Random, number: u64) -> u64 {
    loop {
        let other = match random.below(6) {
            0 => number.wrapping_add(1),
            1 => number.wrapping_sub(1),
            2 => number ^ (1 << random.below(64)),
            3 => 0,
            4 => random.below(10) as u64,
            _ => random.draw(),
        };
        if other != number {
            return other;
        }
    }
}

/// So many numbers that come to this sum.
pub fn split(random: &mut Random, sum: u64, count: usize) -> Vec<u64> {
    let mut left = sum;
    let mut parts = Vec::new();
    for _ in 1..count {
        let part = match random.below(3) {
            0 => left / 2,
            1 => left.min(random.below(1000) as u64),
            _ => ((u128::from(random.draw()) * (u128::from(left) + 1)) >> 64) as u64,
        };
        parts.push(part);
        left -= part;
    }
    parts.extend((count > 0).then_some(left));
    let turn = random.below(count.max(1));
    parts.rotate_left(turn);
    parts
}

/// A column of figures whose sum 64 bits hold.
fn column(random: &mut Random, count: usize) -> Vec<u64> {
    match random.below(8) {
        0 => vec![0; count],
        1 | 2 => (0..count).map(|_| random.below(1_000) as u64).collect(),
        3..=5 => (0..count).map(|_| random.draw() % 100_000_000_000_000).collect(),
        6 => (0..count).map(|_| 1 + random.below(3) as u64).collect(),
        _ => {
            // Far below the brim, so that a file still enters.
            let sum = (u64::MAX >> 1) + random.draw() / 4;
            split(random, sum, count)
        }
    }
}

/// Credit cents beside debit cents: so near that whatever rows are one owner's, no file carries their net position out of its range.
fn credit_beside(random: &mut Random, debit: u64) -> u64 {
    let most = random.pick(&[1, 1_000_000, (BOUND / 100) as u64]);
    let apart = random.draw() % most;
    match random.percent(50) {
        true => debit.saturating_sub(apart),
        false => debit + apart,
    }
}

/// Between the running totals of debit and credit cents near the brim: enough for a file to enter on the other side, and well in range.
const MARGIN: u64 = (BOUND / 10) as u64;

/// The other cents, where a figure is cents.
pub fn other_cents(figure: usize) -> Option<usize> {
    match figure {
        DEBIT_CENTS => Some(CREDIT_CENTS),
        CREDIT_CENTS => Some(DEBIT_CENTS),
        _ => None,
    }
}

/// A number that is no owner.
pub fn stranger(random: &mut Random) -> u64 {
    match random.below(8) {
        0 | 1 => 0,
        2 | 3 => 3,
        4 | 5 => u64::MAX,
        6 => random.pick(&OWNERS) | 1 << random.between(32, 63),
        _ => 4 + random.draw() % 1_000,
    }
}

/// An owner, and seldom a number that is none.
pub fn caller(random: &mut Random) -> u64 {
    match random.percent(12) {
        true => stranger(random),
        false => random.pick(&OWNERS),
    }
}

/// The owners of so many rows: one alone, both mixed, or both and rows of neither.
fn owners(random: &mut Random, count: usize) -> Vec<u64> {
    let (sort, one) = (random.below(8), random.pick(&OWNERS));
    let owner = |random: &mut Random| match sort {
        0 => one,
        1..=3 => random.pick(&OWNERS),
        _ if random.percent(25) => stranger(random),
        _ => random.pick(&OWNERS),
    };
    (0..count).map(|_| owner(random)).collect()
}

/// Numbers in some order.
pub fn mixed(random: &mut Random, numbers: &[u64]) -> Vec<u64> {
    let mut mixed = Vec::new();
    for number in numbers {
        mixed.insert(random.below(mixed.len() + 1), *number);
    }
    mixed
}

/// Entry numbers of an owner's rows and the last number given to it: mostly as entering gives them, some anything at all.
fn numbers(random: &mut Random, count: usize) -> (Vec<u64>, u64) {
    let first = match random.below(6) {
        0..=3 => 1,
        4 => 1 + random.below(50) as u64,
        _ => {
            let any: Vec<u64> = (0..count).map(|_| random.draw() >> random.pick(&[0, 32, 60])).collect();
            return (any, random.draw() >> random.pick(&[1, 32, 60]));
        }
    };
    let grown: Vec<u64> = (first..first + count as u64).collect();
    let last = grown.last().copied().unwrap_or(first - 1);
    (grown, last)
}

impl Sheet {
    /// A sound book with so many rows claimed and so many behind them.
    pub fn any(random: &mut Random, rows: usize, spare: usize) -> Sheet {
        let owners = owners(random, rows);
        Sheet::of(random, &owners, spare)
    }

    /// A sound book with rows of these owners and so many behind them.
    pub fn of(random: &mut Random, owners: &[u64], spare: usize) -> Sheet {
        let tail = random.below(WIDTH);
        let mut sheet = Sheet {
            last: [0; OWNERS.len()],
            rows: owners.iter().map(|owner| [*owner, random.below(9) as u64, 0, 0, 0, 0, 0, 0, 0]).collect(),
            spare: vec![[0; WIDTH]; spare],
            tail: (0..tail).map(|_| junk(random)).collect(),
            taken: Vec::new(),
            free_places: vec![[0; PLACE]; random.between(1, 4)],
            half_place: random.percent(30).then(|| junk(random)),
        };
        sheet.give_numbers(random);
        sheet.give_places(random);
        (0..SIX).for_each(|figure| {
            let figures = column(random, owners.len());
            sheet.put_column(figure, &figures);
        });
        let credits = |row: &Row| credit_beside(random, row[FIGURES + DEBIT_CENTS]);
        let credits: Vec<u64> = sheet.rows.iter().map(credits).collect();
        sheet.put_column(CREDIT_CENTS, &credits);
        if random.percent(60) {
            sheet.spare.iter_mut().for_each(|row| *row = junk_row(random));
        }
        sheet
    }

    /// Entry numbers for each owner's rows, and file numbers for all.
    fn give_numbers(&mut self, random: &mut Random) {
        for owner in OWNERS {
            let rows = self.rows_of(owner);
            let (numbers, last) = numbers(random, rows.len());
            rows.into_iter().zip(numbers).for_each(|(row, number)| self.rows[row][NUMBER] = number);
            self.last[owner as usize - 1] = last;
        }
        let mut file_number = random.below(100) as u64;
        for row in &mut self.rows {
            // A file of several letters has several rows, and both owners may have the same number.
            file_number += if random.percent(30) { 0 } else { 1 + random.below(9) as u64 };
            row[FILE_NUMBER] = file_number;
        }
    }

    /// The places of the list: mostly those of the rows, some withdrawn ones and some of neither owner among them; seldom anything at all.
    fn give_places(&mut self, random: &mut Random) {
        let mut places: Vec<Place> = Vec::new();
        let lacking = random.percent(10);
        for row in self.rows.iter().filter(|row| is_owner(row[OWNER])) {
            let place = [row[OWNER], row[FILE_NUMBER]];
            if !places.contains(&place) && !lacking {
                places.push(place);
            }
        }
        for _ in 0..random.below(4) {
            let owner = if random.percent(60) { random.pick(&OWNERS) } else { stranger(random) };
            places.insert(random.below(places.len() + 1), [owner, 5_000 + random.draw() % 1_000]);
        }
        self.taken = places;
        if random.percent(60) {
            self.free_places.iter_mut().for_each(|place| *place = [caller(random), junk(random)]);
        }
    }

    /// Which rows are an owner's.
    pub fn rows_of(&self, owner: u64) -> Vec<usize> {
        (0..self.rows.len()).filter(|row| self.rows[*row][OWNER] == owner).collect()
    }

    /// Gives each row its figure.
    pub fn put_column(&mut self, figure: usize, figures: &[u64]) {
        for (row, number) in self.rows.iter_mut().zip(figures) {
            row[FIGURES + figure] = *number;
        }
    }

    /// An owner's rows get figures that come to this running total; there are such rows. The other cents keep the net position in range.
    pub fn put_total(&mut self, random: &mut Random, owner: u64, figure: usize, total: u64) {
        self.put_alone(random, owner, figure, total);
        if let Some(figure) = other_cents(figure) {
            self.put_alone(random, owner, figure, total.saturating_sub(MARGIN));
        }
    }

    /// An owner's rows get cents that come to this net position, which is at most a little more than an i64 holds; there are such rows.
    pub fn put_net(&mut self, random: &mut Random, owner: u64, net: i128) {
        let less = random.pick(&[0, 1, 1_000_000, 1 << 62]);
        let less = random.draw() % (less + 1);
        let more = less + net.unsigned_abs() as u64;
        let (debit, credit) = if net < 0 { (more, less) } else { (less, more) };
        self.put_alone(random, owner, DEBIT_CENTS, debit);
        self.put_alone(random, owner, CREDIT_CENTS, credit);
    }

    /// What an owner's net position comes to.
    pub fn net(&self, owner: u64) -> i128 {
        self.sum(owner, CREDIT_CENTS) as i128 - self.sum(owner, DEBIT_CENTS) as i128
    }

    fn put_alone(&mut self, random: &mut Random, owner: u64, figure: usize, total: u64) {
        let rows = self.rows_of(owner);
        let figures = split(random, total, rows.len());
        rows.into_iter().zip(figures).for_each(|(row, number)| self.rows[row][FIGURES + figure] = number);
    }

    /// What a figure of an owner's rows comes to.
    pub fn sum(&self, owner: u64, figure: usize) -> u128 {
        self.rows_of(owner).into_iter().map(|row| u128::from(self.rows[row][FIGURES + figure])).sum()
    }

    /// The rows get file numbers of their own, from 101 on, and entry numbers from 1 on for each owner; those of neither from 51 on. The list has them
    /// in the order of the rows.
    pub fn number_plainly(&mut self) {
        let mut strangers = 50;
        self.last = [0; OWNERS.len()];
        for (at, row) in self.rows.iter_mut().enumerate() {
            let last = match is_owner(row[OWNER]) {
                true => &mut self.last[row[OWNER] as usize - 1],
                false => &mut strangers,
            };
            *last += 1;
            row[NUMBER] = *last;
            row[FILE_NUMBER] = at as u64 + 101;
        }
        self.taken = self.rows.iter().map(|row| [row[OWNER], row[FILE_NUMBER]]).collect();
    }

    /// How many rows are free: gaps, and those behind the rows claimed.
    pub fn free(&self) -> usize {
        self.rows.iter().filter(|row| !is_owner(row[OWNER])).count() + self.spare.len()
    }

    /// A file number that no row and no place of the list has, claimed or not.
    pub fn fresh(&self, random: &mut Random) -> u64 {
        loop {
            let number = match random.below(3) {
                0 => random.below(2_000) as u64,
                _ => random.draw(),
            };
            let in_list = self.taken.iter().chain(&self.free_places).any(|place| place[1] == number);
            if !in_list && self.rows.iter().chain(&self.spare).all(|row| row[FILE_NUMBER] != number) {
                return number;
            }
        }
    }

    /// The table. A running total or net position past 64 bits is stated as what they leave of it.
    pub fn lay(&self) -> Vec<u64> {
        let mut table = vec![0; HEAD];
        table[CLAIMED] = self.rows.len() as u64;
        for (at, owner) in OWNERS.into_iter().enumerate() {
            table[last(owner)] = self.last[at];
            (0..SIX).for_each(|figure| table[total(owner, figure)] = self.sum(owner, figure) as u64);
            table[net(owner)] = self.net(owner) as u64;
        }
        self.rows.iter().chain(&self.spare).for_each(|row| table.extend(row));
        debug_assert_eq!(table.len(), row_start(self.rows.len() + self.spare.len()));
        table.extend(&self.tail);
        table
    }

    /// The list of file numbers taken.
    pub fn lay_taken(&self) -> Vec<u64> {
        let mut taken = vec![self.taken.len() as u64];
        self.taken.iter().chain(&self.free_places).for_each(|place| taken.extend(place));
        taken.extend(self.half_place);
        taken
    }
}
