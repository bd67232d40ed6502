//! Sound files of three shapes and of any size, and small ones of every shape, from a seed.

use std::ops::Range;

use peer_reader::copy::to_ebcdic;
use peer_reader::make::{encode, record, set_key, sound, Rec, Wish};
use peer_reader::random::Random;

pub const MIB: usize = 1 << 20;

/// The sizes over which the time is to grow with the file, in MiB; and how many copies of each but the largest come to 64 MiB.
pub const SIZES: [usize; 5] = [1, 4, 16, 64, 256];
pub const COPIES: [usize; 4] = [64, 16, 4, 1];

/// How often a file is taken again and again in a turn, so that a small one takes as long as one of 16 MiB.
pub const AGAIN: [usize; 5] = [16, 4, 1, 1, 1];

/// Files that lie one after the other in memory.
pub struct Batch {
    pub bytes: Vec<u8>,
    pub places: Vec<Range<usize>>,
}

impl Batch {
    pub fn one(bytes: Vec<u8>) -> Batch {
        let whole = 0..bytes.len();
        Batch { bytes, places: vec![whole] }
    }

    /// Copies of a batch of one file.
    pub fn repeated(&self, count: usize) -> Batch {
        let size = self.bytes.len();
        Batch {
            bytes: self.bytes.repeat(count),
            places: (0..count).map(|turn| turn * size..(turn + 1) * size).collect(),
        }
    }

    /// Files of about 2 KB and of every shape.
    pub fn small(seed: u64, count: u64) -> Batch {
        let wish = Wish { letters: (1, 2), items: (1, 2), addenda: (0, 1), extras: 25, ..Wish::any() };
        let mut batch = Batch { bytes: Vec::new(), places: Vec::new() };
        for index in 0..count {
            let start = batch.bytes.len();
            batch.bytes.extend(encode(&sound(&mut Random::for_file(seed, index), &wish)));
            batch.places.push(start..batch.bytes.len());
        }
        batch
    }

    /// The same files in EBCDIC, at the same places: a translation changes no length.
    pub fn in_ebcdic(&self) -> Batch {
        Batch { bytes: self.files().flat_map(to_ebcdic).collect(), places: self.places.clone() }
    }

    pub fn files(&self) -> impl Iterator<Item = &[u8]> {
        self.places.iter().map(|place| &self.bytes[place.clone()])
    }
}

#[derive(Clone, Copy, PartialEq)]
pub enum Shape {
    /// Letters of I: 25s, each with two views of 20,000 bytes; 40 items to a bundle, 8 bundles to a letter.
    Pictures,
    /// Letters of E: 25s, each with one or two 26s and one to three 28s; 1 to 9,999 items to a bundle.
    NoPictures,
    /// Lockbox deposits: a credit directly in the letter; bundles of deposits, each a credit followed by 1 to 8 25s with a 26; now and
    /// then an adjustment, credit or debit. Three letters in four are of E; the others are of I, with a view of 200 bytes for each 25
    /// and for the credit in the letter.
    Lockbox,
}

#[derive(Default)]
struct Sum {
    bundles: u64,
    debits: u64,
    debit_cents: u64,
    credits: u64,
    credit_cents: u64,
    micr_valid: u64,
    views: u64,
}

impl Sum {
    fn add(&mut self, part: Sum) {
        self.bundles += part.bundles;
        self.debits += part.debits;
        self.debit_cents += part.debit_cents;
        self.credits += part.credits;
        self.credit_cents += part.credit_cents;
        self.micr_valid += part.micr_valid;
        self.views += part.views;
    }
}

struct Maker {
    random: Random,
    shape: Shape,
    out: Vec<u8>,
    records: u64,
    /// No item begins at or after this length.
    until: usize,
    /// The views of an item in this letter, and the bytes of each picture.
    views: (u64, usize),
}

/// A sound file of at most so many bytes, and not much less.
pub fn file(seed: u64, shape: Shape, size: usize) -> Vec<u8> {
    // What may still come behind the last place where it is asked whether the file is full: an item, or a deposit of eight.
    let spare = match shape {
        Shape::Pictures => 42_000,
        Shape::NoPictures => 2_000,
        Shape::Lockbox => 10_000,
    };
    let out = Vec::with_capacity(size);
    let mut maker = Maker { random: Random::new(seed), shape, out, records: 0, until: size - spare, views: (0, 0) };
    maker.whole();
    assert!(maker.out.len() <= size && maker.out.len() > size - 2 * spare);
    maker.out
}

impl Maker {
    fn make(&mut self, code: u8) -> Rec {
        record(&mut self.random, code, 0)
    }

    fn put(&mut self, record: &Rec) {
        self.out.extend((record.body.len() as u32).to_be_bytes());
        self.out.extend(&record.body);
        self.records += 1;
    }

    /// A record with numbers in some of its fields.
    fn control(&mut self, code: u8, numbers: &[(u8, u64)]) {
        let mut control = self.make(code);
        numbers.iter().for_each(|(field, number)| control.set_number(*field, *number));
        self.put(&control);
    }

    fn full(&self) -> bool {
        self.out.len() >= self.until
    }

    fn whole(&mut self) {
        let header = self.make(1);
        self.put(&header);
        let (mut letters, mut sum) = (0, Sum::default());
        while !self.full() {
            sum.add(self.letter());
            letters += 1;
        }
        let (records, items) = (self.records + 1, sum.debits + sum.credits);
        self.control(99, &[(2, letters), (3, records), (4, items), (5, sum.debit_cents), (8, sum.credit_cents)]);
    }

    fn letter(&mut self) -> Sum {
        let mut header = self.make(10);
        self.views = match self.shape {
            Shape::Pictures => (2, 20_000),
            Shape::Lockbox if self.random.percent(25) => (1, 200),
            _ => (0, 0),
        };
        header.set(8, if self.views.0 == 0 { b"E" } else { b"I" });
        self.put(&header);
        let mut sum = Sum::default();
        if self.shape == Shape::Lockbox {
            let cents = self.random.below(1_000_000_000) as u64;
            let credit = self.credit(b'1', cents, &mut sum);
            self.views_of(&header, credit.get(8), &mut sum);
        }
        while sum.bundles < 8 && !self.full() {
            let bundle = self.bundle();
            sum.add(bundle);
        }
        let debit = [(2, sum.bundles), (3, sum.debits), (4, sum.debit_cents), (5, sum.views)];
        self.control(90, &[&debit[..], &[(8, sum.credits), (9, sum.credit_cents)]].concat());
        sum
    }

    fn bundle(&mut self) -> Sum {
        let header = self.make(20);
        self.put(&header);
        let mut sum = Sum { bundles: 1, ..Sum::default() };
        match self.shape {
            Shape::Lockbox => self.deposits(&header, &mut sum),
            shape => {
                let most = if shape == Shape::Pictures { 40 } else { self.random.between(1, 9_999) as u64 };
                while sum.debits < most && !self.full() {
                    self.item(&header, &mut sum);
                }
            }
        }
        let debit = [(2, sum.debits), (3, sum.debit_cents), (4, sum.micr_valid), (5, sum.views)];
        self.control(70, &[&debit[..], &[(6, sum.credits), (7, sum.credit_cents)]].concat());
        sum
    }

    /// One to two hundred deposits: a credit and its checks. One in ten ends with an adjustment, half of these a debit.
    fn deposits(&mut self, header: &Rec, sum: &mut Sum) {
        for deposit in 0..self.random.between(1, 200) {
            if deposit > 0 && self.full() {
                return;
            }
            let cents = self.random.below(10_000_000) as u64;
            self.credit(b'5', cents, sum);
            for _ in 0..self.random.between(1, 8) {
                self.item(header, sum);
            }
            if self.random.percent(10) {
                let usage = self.random.pick(b"89");
                let cents = self.random.below(10_000) as u64;
                self.credit(usage, cents, sum);
            }
        }
    }

    /// A 61 without its views.
    fn credit(&mut self, usage: u8, cents: u64, sum: &mut Sum) -> Rec {
        let mut head = self.make(61);
        head.set(2, &[usage]);
        head.set_number(7, cents);
        self.put(&head);
        match usage {
            b'9' => (sum.debits, sum.debit_cents) = (sum.debits + 1, sum.debit_cents + cents),
            _ => (sum.credits, sum.credit_cents) = (sum.credits + 1, sum.credit_cents + cents),
        }
        head
    }

    fn item(&mut self, header: &Rec, sum: &mut Sum) {
        let mut head = self.make(25);
        let cents = self.random.below(10_000_000) as u64;
        let addenda = match self.shape {
            Shape::Pictures => [0, 0],
            Shape::NoPictures => [self.random.between(1, 2) as u64, self.random.between(1, 3) as u64],
            Shape::Lockbox => [1, 0],
        };
        head.set_number(6, cents);
        head.set_number(12, addenda[0] + addenda[1]);
        self.put(&head);
        for (code, count) in [26, 28].into_iter().zip(addenda) {
            for number in 1..=count {
                self.control(code, &[(2, number)]);
            }
        }
        self.views_of(header, head.get(7), sum);
        sum.debits += 1;
        sum.debit_cents += cents;
        sum.micr_valid += if head.get(10) == b"1" { cents } else { 0 };
    }

    /// As many views as this letter has for each.
    fn views_of(&mut self, header: &Rec, sequence: &[u8], sum: &mut Sum) {
        let (views, picture) = self.views;
        for _ in 0..views {
            self.view(header, sequence, picture);
        }
        sum.views += views;
    }

    /// A 50 and a 52 with a picture of so many bytes, a multiple of 8, before its ancillary data.
    fn view(&mut self, header: &Rec, sequence: &[u8], picture: usize) {
        let mut detail = self.make(50);
        detail.set(10, b"0");
        self.put(&detail);
        let mut data = self.make(52);
        set_key(&mut data, header, sequence);
        data.set_number(20, picture as u64);
        let ancillary = peer_reader::judge::number(data.get(21)) as usize;
        let tail = data.body.split_off(data.body.len() - ancillary);
        for _ in 0..picture / 8 {
            data.body.extend(self.random.draw().to_le_bytes());
        }
        data.body.extend(tail);
        self.put(&data);
    }
}
