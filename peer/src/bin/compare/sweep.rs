//! Every byte value at every place of the fixed parts, every pair of characters in the two-character code fields, and every byte value at
//! every place of a routing field that holds each of the forms; once EBCDIC is carried, in files of both sets.

use peer_reader::charset::{Set, EBCDIC_CARRIED};
use peer_reader::copy::to_ebcdic;
use peer_reader::descent::Inside;
use peer_reader::harm::insides;
use peer_reader::layout::layout;
use peer_reader::make::{encode, sound, Rec, Wish};
use peer_reader::random::Random;
use peer_reader::routing;
use peer_reader::tally::Tally;

use proved::run::{on_threads, Found, Options};

use crate::check::{check, Counts};
use crate::report;
use crate::slow::Slowly;

/// The two-character fields with defined values.
const PAIRS: [(u8, u8); 13] = [
    (1, 2),
    (10, 2),
    (10, 13),
    (20, 2),
    (25, 12),
    (50, 5),
    (50, 6),
    (50, 9),
    (50, 11),
    (50, 12),
    (50, 15),
    (50, 16),
    (61, 11),
];

/// One in so many of the swept files is read slowly, unless all of them are asked for. It has no factor in common with the 256 values of a byte, so that every value has its turn.
const SLOWLY: u64 = 17;

/// Contents of each form of a routing number, and none: what is one character away from them is tried.
const ROUTINGS: [&[u8; 9]; 6] = [b"123456780", b"12345-678", b"1234-5678", b" 12345678", b" 1234567 ", b"         "];

/// Shares the values among the threads.
pub fn sweep(options: &Options, tally: &mut Tally, counts: &mut Counts, found: &Found) {
    println!("sweep over every byte value at every fixed position");
    let work = |first| part(options, first as usize, found);
    on_threads(options.threads, work, |(noted, counted)| {
        tally.add(&noted);
        counts.add(&counted);
    });
}

/// A small sound file with every record type that its item kind allows, 61s aside.
fn whole(seed: u64, kind: u8) -> Vec<Rec> {
    let kinds: &'static [u8] = if kind == 25 { &[25] } else { &[31] };
    let wish = Wish {
        letters: (1, 1),
        bundles: (1, 1),
        items: (1, 1),
        addenda: (1, 1),
        views: (1, 1),
        extras: 100,
        contents: b"I",
        kinds,
        ..Wish::no_credits()
    };
    sound(&mut Random::for_file(seed, u64::from(kind)), &wish)
}

/// The types of a small file with 61s, one outside its bundle and one in it, each with a view.
const WITH_CREDITS: [u8; 12] = [1, 10, 61, 50, 52, 20, 61, 50, 52, 70, 90, 99];

/// A sound file of these types, drawn until one comes.
fn with_credits(seed: u64) -> Vec<Rec> {
    let wish = Wish {
        letters: (1, 1),
        bundles: (1, 1),
        items: (1, 1),
        extras: 0,
        contents: b"I",
        credits: 60,
        credit_views: 100,
        ..Wish::any()
    };
    let mut random = Random::for_file(seed, 61);
    loop {
        let records = sound(&mut random, &wish);
        if records.iter().map(|record| record.code).eq(WITH_CREDITS) {
            return records;
        }
    }
}

/// The first 61 and the first 52 of one, outside the bundle and in it, and the control records, which have credits to state.
fn credit_places(records: &[Rec]) -> Vec<usize> {
    let insides = insides(records.iter().map(|record| record.code));
    let first =
        |code: u8, inside: Inside| (0..records.len()).find(|at| records[*at].code == code && insides[*at] == inside);
    let of_credits =
        [Inside::CreditInLetter, Inside::CreditInBundle].map(|inside| [first(61, inside), first(52, inside)]);
    let controls = [first(70, Inside::Bundle), first(90, Inside::Letter), first(99, Inside::File)];
    of_credits.concat().into_iter().chain(controls).flatten().collect()
}

fn part(options: &Options, first: usize, found: &Found) -> (Tally, Counts) {
    let mut part = Part {
        options,
        first,
        found,
        random: Random::new(first as u64),
        tally: Tally::default(),
        counts: Counts::default(),
        set: Set::Ascii,
    };
    part.all();
    if EBCDIC_CARRIED {
        part.set = Set::Ebcdic;
        part.all();
    }
    (part.tally, part.counts)
}

impl Part<'_> {
    /// Every place, pair and routing field.
    fn all(&mut self) {
        for kind in [25, 31] {
            let records = whole(self.options.seed, kind);
            for (index, record) in records.iter().enumerate() {
                // The types of both files are swept in the first, the controls again in the second.
                if kind == 25 || matches!(record.code, 31..=35 | 70 | 90 | 99) {
                    self.record(&records, index);
                }
            }
        }
        let records = with_credits(self.options.seed);
        for index in credit_places(&records) {
            self.record(&records, index);
        }
    }

    fn record(&mut self, records: &[Rec], index: usize) {
        self.places(records, index);
        self.pairs(records, index);
        self.routings(records, index);
    }
}

/// The share of one thread.
struct Part<'a> {
    options: &'a Options,
    first: usize,
    found: &'a Found,
    random: Random,
    tally: Tally,
    counts: Counts,
    /// The set of the files.
    set: Set,
}

/// Where the body of a record starts in the file.
fn start_of(records: &[Rec], index: usize) -> usize {
    encode(&records[..index]).len() + 4
}

impl Part<'_> {
    /// The records as a file of this part's set.
    fn file_of(&self, records: &[Rec]) -> Vec<u8> {
        match self.set {
            Set::Ascii => encode(records),
            Set::Ebcdic => to_ebcdic(&encode(records)),
        }
    }

    /// 128 bytes to make pairs of: in ASCII the first ones, in EBCDIC every character and some that are none.
    fn for_pairs(&self) -> Vec<u8> {
        match self.set {
            Set::Ascii => (0..128).collect(),
            Set::Ebcdic => {
                let (characters, others): (Vec<u8>, Vec<u8>) = (0..=255).partition(|byte| self.set.is_character(*byte));
                characters.into_iter().chain(others.into_iter().step_by(5)).collect()
            }
        }
    }

    /// The values of this thread, of so many.
    fn values(&self, count: usize) -> impl Iterator<Item = usize> {
        (self.first..count).step_by(self.options.threads as usize)
    }

    fn put(&mut self, code: u8, file: &[u8]) {
        let all = self.options.flags.last().is_some_and(|flag| flag == "--sweep-slowly");
        let slowly = if all || self.counts.files.is_multiple_of(SLOWLY) { Slowly::Once } else { Slowly::Not };
        if let Err(difference) = check(file, slowly, &mut self.random, &mut self.tally, &mut self.counts) {
            if !self.found.enough() {
                let name = format!("sweep-type{code}-thread{}-file{}", self.first, self.counts.files);
                report(self.options, &name, "sweep", file, &difference, self.found);
            }
        }
    }

    /// Every byte value at this place.
    fn place(&mut self, code: u8, file: &mut [u8], place: usize) {
        let before = file[place];
        for value in self.values(256) {
            file[place] = value as u8;
            self.put(code, file);
        }
        file[place] = before;
    }

    fn places(&mut self, records: &[Rec], index: usize) {
        let (code, start) = (records[index].code, start_of(records, index));
        let mut file = self.file_of(records);
        for place in start - 4..start + layout(code).fixed {
            self.place(code, &mut file, place);
        }
    }

    fn pairs(&mut self, records: &[Rec], index: usize) {
        let (code, start) = (records[index].code, start_of(records, index));
        let mut file = self.file_of(records);
        let bytes = self.for_pairs();
        for (_, number) in PAIRS.iter().filter(|(of, _)| *of == code) {
            let place = start + layout(code).field(*number).first - 1;
            let before = [file[place], file[place + 1]];
            for value in self.values(bytes.len() * bytes.len()) {
                file[place] = bytes[value / bytes.len()];
                file[place + 1] = bytes[value % bytes.len()];
                self.put(code, &file);
            }
            file[place..place + 2].copy_from_slice(&before);
        }
    }

    fn routings(&mut self, records: &[Rec], index: usize) {
        let (code, start) = (records[index].code, start_of(records, index));
        for (_, field) in routing::fields().into_iter().filter(|(of, _)| *of == code) {
            for contents in ROUTINGS {
                let mut file = self.file_of(&with_routing(records, index, field.number, contents));
                for place in start + field.first - 1..start + field.last {
                    self.place(code, &mut file, place);
                }
            }
        }
    }
}

/// The records with these contents in a routing field. A 52 and the headers change together where the contents pass.
fn with_routing(records: &[Rec], index: usize, number: u8, contents: &[u8]) -> Vec<Rec> {
    let mut changed = records.to_vec();
    changed[index].set(number, contents);
    let field = records[index].layout().field(number);
    let passes = routing::shape(contents).is_some_and(|shape| routing::passes(field, shape));
    if passes && matches!((records[index].code, number), (20, 4) | (52, 2)) {
        for record in &mut changed {
            match record.code {
                10 | 20 => record.set(4, contents),
                52 => record.set(2, contents),
                _ => {}
            }
        }
    }
    changed
}
