//! Sound files of every shape.

use crate::descent::Inside;
use crate::layout::{layout, name_of, Field, Layout, Rule, Type, Usage};
use crate::random::Random;
use crate::routing;

/// One record of a file in the making.
#[derive(Clone, Debug)]
pub struct Rec {
    pub code: u8,
    pub body: Vec<u8>,
    /// A length field that tells something else than the body's length.
    pub told: Option<u32>,
}

impl Rec {
    pub fn layout(&self) -> &'static Layout {
        layout(self.code)
    }

    /// The bytes of a fixed field.
    pub fn get(&self, field: u8) -> &[u8] {
        self.layout().field(field).of(&self.body)
    }

    /// Puts bytes into a fixed field of the same size.
    pub fn set(&mut self, field: u8, bytes: &[u8]) {
        let field = self.layout().field(field);
        self.body[field.first - 1..field.last].copy_from_slice(bytes);
    }

    /// Puts a number into a field, zero filled; one too long for the field loses its high digits.
    pub fn set_number(&mut self, field: u8, number: u64) {
        let size = self.layout().field(field).size();
        let digits = format!("{number:0size$}");
        let cut = &digits.as_bytes()[digits.len() - size..];
        self.set(field, cut);
    }
}

/// The bytes of a file.
pub fn encode(records: &[Rec]) -> Vec<u8> {
    let mut file = Vec::with_capacity(records.iter().map(|record| record.body.len() + 4).sum());
    for record in records {
        let length = record.told.unwrap_or(record.body.len() as u32);
        file.extend_from_slice(&length.to_be_bytes());
        file.extend_from_slice(&record.body);
    }
    file
}

/// What a sound file is to look like; pairs are the least and the most.
#[derive(Clone, Debug)]
pub struct Wish {
    pub letters: (usize, usize),
    pub bundles: (usize, usize),
    pub items: (usize, usize),
    /// Of each numbered addendum kind.
    pub addenda: (usize, usize),
    pub views: (usize, usize),
    /// Cases of a hundred in which a 27 or 34 stands, and a 54.
    pub extras: u64,
    pub contents: &'static [u8],
    pub kinds: &'static [u8],
    pub image: usize,
    pub amount: u64,
    /// Cases of a hundred in which 61s stand where they may: after a 10, a 70, a 20, an item. Below a hundred, half of the files
    /// hold none at all.
    pub credits: u64,
    /// Cases of a hundred in which a 61 has views.
    pub credit_views: u64,
}

impl Wish {
    /// Small files of any shape.
    pub fn any() -> Wish {
        Wish {
            letters: (1, 3),
            bundles: (1, 2),
            items: (1, 3),
            addenda: (0, 2),
            views: (1, 2),
            extras: 40,
            contents: b"NEIFIF",
            kinds: &[25, 31],
            image: 60,
            amount: 9_999_999_999,
            credits: 25,
            credit_views: 40,
        }
    }

    /// Without a 61.
    pub fn no_credits() -> Wish {
        Wish { credits: 0, ..Wish::any() }
    }

    /// A small file that surely holds a record of this type.
    pub fn holding(code: u8) -> Wish {
        let mut wish = Wish { letters: (1, 1), bundles: (1, 2), ..Wish::any() };
        wish.contents = match code {
            50 | 52 | 54 => b"IF",
            1 | 10 | 61 | 90 | 99 => b"NEIF",
            _ => b"EIF",
        };
        match code {
            25..=28 => wish.kinds = &[25],
            31..=35 => wish.kinds = &[31],
            _ => {}
        }
        if matches!(code, 26 | 28 | 32 | 35) {
            wish.addenda = (1, 2);
        }
        if matches!(code, 27 | 34 | 54) {
            wish.extras = 100;
        }
        if code == 61 {
            wish.credits = 60;
        }
        wish
    }

    /// A small file that most often holds a record of this type inside a 61's views, or a 61 there.
    pub fn inside(inside: Inside, code: u8) -> Wish {
        let wish = Wish::holding(code);
        let viewed = matches!(code, 50 | 52 | 54);
        let contents: &'static [u8] = match inside {
            Inside::CreditInLetter if viewed => b"NIF",
            Inside::CreditInLetter => b"NEIF",
            Inside::CreditInBundle if !viewed => b"EIF",
            Inside::CreditInBundle => b"IF",
            _ => return wish,
        };
        Wish { contents, credits: 60, credit_views: if viewed { 90 } else { 30 }, ..wish }
    }
}

/// What a level adds up to, for the control records.
#[derive(Clone, Copy, Debug, Default, PartialEq, Eq)]
pub struct Sum {
    pub bundles: u64,
    pub debit_items: u64,
    pub debit_cents: u64,
    pub credit_items: u64,
    pub credit_cents: u64,
    pub micr: u64,
    pub views: u64,
}

impl Sum {
    fn add(&mut self, other: Sum) {
        self.bundles += other.bundles;
        self.debit_items += other.debit_items;
        self.debit_cents += other.debit_cents;
        self.credit_items += other.credit_items;
        self.credit_cents += other.credit_cents;
        self.micr += other.micr;
        self.views += other.views;
    }
}

/// A sound file.
pub fn sound(random: &mut Random, wish: &Wish) -> Vec<Rec> {
    sound_with_totals(random, wish).0
}

/// A sound file and its eight totals in the order of an answer, as they came together while it was made.
pub fn sound_with_totals(random: &mut Random, wish: &Wish) -> (Vec<Rec>, [u64; 8]) {
    let credits = if wish.credits < 100 && random.percent(50) { 0 } else { wish.credits };
    let wish = &Wish { credits, ..wish.clone() };
    let mut records = vec![record(random, 1, 0)];
    let letters = random.between(wish.letters.0, wish.letters.1) as u64;
    let mut whole = Sum::default();
    for _ in 0..letters {
        whole.add(sound_letter(random, wish, &mut records));
    }
    let count = records.len() as u64 + 1;
    let items = whole.debit_items + whole.credit_items;
    let mut control = record(random, 99, 0);
    control.set_number(2, letters);
    control.set_number(3, count);
    control.set_number(4, items);
    control.set_number(5, whole.debit_cents);
    control.set_number(8, whole.credit_cents);
    records.push(control);
    let Sum { bundles, views, debit_cents, credit_items, credit_cents, .. } = whole;
    (records, [count, letters, bundles, items, views, debit_cents, credit_items, credit_cents])
}

/// What the items and 61s of a bundle, or of a cash letter, share.
struct Under<'a> {
    wish: &'a Wish,
    content: u8,
    header: &'a Rec,
}

impl Under<'_> {
    fn in_bundle(&self) -> bool {
        self.header.code == 20
    }
}

fn sound_letter(random: &mut Random, wish: &Wish, records: &mut Vec<Rec>) -> Sum {
    let content = random.pick(wish.contents);
    let mut header = record(random, 10, 0);
    let small = random.percent(25);
    header.set(8, &[if small { content.to_ascii_lowercase() } else { content }]);
    records.push(header.clone());
    let under = Under { wish, content, header: &header };
    let mut sum = some_credits(random, &under, records);
    if content != b'N' {
        for _ in 0..random.between(wish.bundles.0, wish.bundles.1) {
            sum.add(sound_bundle(random, wish, content, records));
            sum.bundles += 1;
            sum.add(some_credits(random, &under, records));
        }
    }
    let mut control = record(random, 90, 0);
    control.set_number(2, sum.bundles);
    control.set_number(3, sum.debit_items);
    control.set_number(4, sum.debit_cents);
    control.set_number(5, sum.views);
    control.set_number(8, sum.credit_items);
    control.set_number(9, sum.credit_cents);
    records.push(control);
    sum
}

fn sound_bundle(random: &mut Random, wish: &Wish, content: u8, records: &mut Vec<Rec>) -> Sum {
    let kind = random.pick(wish.kinds);
    let header = record(random, 20, 0);
    records.push(header.clone());
    let under = Under { wish, content, header: &header };
    let mut sum = some_credits(random, &under, records);
    // Clause 31: a bundle of 61s alone is lawful.
    let alone = sum.credit_items + sum.debit_items > 0 && random.percent(20);
    let items = if alone { 0 } else { random.between(wish.items.0, wish.items.1) };
    for _ in 0..items {
        sum.add(sound_item(random, &under, kind, records));
        sum.add(some_credits(random, &under, records));
    }
    let mut control = record(random, 70, 0);
    control.set_number(2, sum.debit_items);
    control.set_number(3, sum.debit_cents);
    if random.percent(40) {
        control.set(4, b"            ");
    } else {
        control.set_number(4, sum.micr);
    }
    control.set_number(5, sum.views);
    control.set_number(6, sum.credit_items);
    control.set_number(7, sum.credit_cents);
    records.push(control);
    sum
}

fn sound_item(random: &mut Random, under: &Under, kind: u8, records: &mut Vec<Rec>) -> Sum {
    let wish = under.wish;
    let mut head = record(random, kind, 0);
    let amount = match random.below(6) {
        0 => 0,
        1 => wish.amount,
        2 => random.below(100) as u64,
        _ => random.draw() % (wish.amount.min(100_000_000) + 1),
    };
    head.set_number(6, amount);
    let addenda = sound_addenda(random, wish, kind);
    head.set_number(if kind == 25 { 12 } else { 8 }, addenda.len() as u64);
    let micr = if kind == 25 && head.get(10) == b"1" { amount } else { 0 };
    records.push(head.clone());
    records.extend(addenda);
    let wanted = random.between(wish.views.0.max(1), wish.views.1.max(1));
    let views = if under.content == b'E' { 0 } else { wanted };
    for _ in 0..views {
        sound_view(random, under, head.get(7), records);
    }
    Sum { debit_items: 1, debit_cents: amount, micr, views: views as u64, ..Sum::default() }
}

/// Perhaps some 61s, one after another.
fn some_credits(random: &mut Random, under: &Under, records: &mut Vec<Rec>) -> Sum {
    let mut sum = Sum::default();
    if under.wish.credits > 0 && random.percent(under.wish.credits) {
        for _ in 0..random.pick(&[1, 1, 1, 2, 3]) {
            sum.add(sound_credit(random, under, records));
        }
    }
    sum
}

/// A 61 and its views, if it has any.
fn sound_credit(random: &mut Random, under: &Under, records: &mut Vec<Rec>) -> Sum {
    let mut head = record(random, 61, 0);
    if random.percent(25) {
        head.set(2, b"9");
    }
    // Twelve digits for all of a bundle, fourteen for all of a cash letter: sums of these amounts fit.
    let most = if under.in_bundle() { 10 } else { 12 };
    let amount = random.draw() % 10u64.pow(random.between(0, most) as u32);
    head.set_number(7, amount);
    records.push(head.clone());
    let viewed = under.content != b'E' && random.percent(under.wish.credit_views);
    let views = if viewed { random.pick(&[1, 1, 2]) } else { 0 };
    for _ in 0..views {
        sound_view(random, under, head.get(8), records);
    }
    let sum = Sum { views, ..Sum::default() };
    match head.get(2) {
        b"9" => Sum { debit_items: 1, debit_cents: amount, ..sum },
        _ => Sum { credit_items: 1, credit_cents: amount, ..sum },
    }
}

fn sound_addenda(random: &mut Random, wish: &Wish, kind: u8) -> Vec<Rec> {
    let mut addenda = Vec::new();
    let first = random.between(wish.addenda.0, wish.addenda.1);
    let second = random.between(wish.addenda.0, wish.addenda.1);
    numbered(random, &mut addenda, kind + 1, first); // 26s or 32s
    if kind == 31 {
        addenda.push(record(random, 33, 0));
    }
    if random.percent(wish.extras) {
        addenda.push(record(random, if kind == 25 { 27 } else { 34 }, 0));
    }
    numbered(random, &mut addenda, if kind == 25 { 28 } else { 35 }, second);
    addenda
}

/// A run of addenda with record numbers from 1.
pub fn numbered(random: &mut Random, addenda: &mut Vec<Rec>, code: u8, count: usize) {
    for number in 1..=count {
        let mut addendum = record(random, code, 0);
        addendum.set_number(2, number as u64);
        addenda.push(addendum);
    }
}

/// The header's part of a 52's key and the sequence number of its item or 61. Outside a bundle field 4 is free.
pub fn set_key(data: &mut Rec, header: &Rec, sequence: &[u8]) {
    data.set(2, header.get(4));
    data.set(3, header.get(5));
    if header.code == 20 {
        data.set(4, header.get(9));
    }
    data.set(5, sequence);
}

fn sound_view(random: &mut Random, under: &Under, sequence: &[u8], records: &mut Vec<Rec>) {
    let detail = record(random, 50, 0);
    let mut data = record(random, 52, under.wish.image);
    set_key(&mut data, under.header, sequence);
    if detail.get(10) == b"1" {
        for name in [7, 8] {
            let place = random.below(16);
            let mut bytes = data.get(name).to_vec();
            bytes[place] = b'!' + random.below(94) as u8;
            data.set(name, &bytes);
        }
    }
    records.push(detail);
    records.push(data);
    if random.percent(under.wish.extras) {
        records.push(record(random, 54, 0));
    }
}

/// A record that is sound when judged alone.
pub fn record(random: &mut Random, code: u8, image: usize) -> Rec {
    let layout = layout(code);
    let mut body = Vec::with_capacity(layout.fixed);
    for field in layout.fields {
        body.extend(value(random, field));
    }
    let mut made = Rec { code, body, told: None };
    made.set(1, &name_of(code));
    if code == 52 && made.get(9) == b"0" {
        for coordinate in 10..=13 {
            made.set(coordinate, b"0000");
        }
    }
    for part in layout.parts {
        let most = match part.number {
            27 => image,
            _ => 14,
        };
        let length = if random.percent(55) { 0 } else { random.between(0, most) };
        made.set_number(part.sized_by, length as u64);
        let bytes = characters(random, part.kind, length);
        made.body.extend(bytes);
    }
    made
}

/// A sound value of a fixed field.
pub fn value(random: &mut Random, field: &Field) -> Vec<u8> {
    let size = field.size();
    if field.usage == Usage::Conditional && random.percent(35) {
        return vec![b' '; size];
    }
    match field.rule {
        Rule::TypeAlone => characters(random, field.kind, size),
        Rule::Codes(codes) => {
            let code = random.pick(codes).as_bytes().to_vec();
            if random.percent(30) {
                code.to_ascii_lowercase()
            } else {
                code
            }
        }
        Rule::Range(low, high) => format!("{:0size$}", random.between(low as usize, high as usize)).into_bytes(),
        Rule::Ranges(ranges) => {
            let (low, high) = random.pick(ranges);
            format!("{:0size$}", random.between(low as usize, high as usize)).into_bytes()
        }
        Rule::Digits => characters(random, Type::Numeric, size),
        Rule::OneOrTwoDigits => {
            let mut pair = vec![random.digit(), random.digit()];
            if random.percent(60) {
                let blank = random.below(2);
                pair[blank] = b' ';
            }
            pair
        }
        Rule::Date if field.kind == Type::NumericBlankQuestion && random.percent(30) => questionable(random, size),
        Rule::Date => {
            let year = match random.below(4) {
                0 => random.pick(&[1993, 9999]),
                _ => random.between(1993, 2040),
            };
            format!("{year:04}{:02}{:02}", random.between(1, 12), random.between(1, 31)).into_bytes()
        }
        Rule::HourMinute => format!("{:02}{:02}", random.below(24), random.below(60)).into_bytes(),
        Rule::HourMinuteSecond => {
            format!("{:02}{:02}{:02}", random.below(24), random.below(60), random.below(60)).into_bytes()
        }
        Rule::Routing(_) if field.kind == Type::MicrDash && random.percent(20) => cant_read(random, size),
        Rule::Routing(forms) => {
            let form = random.pick(forms);
            routing::in_form(random, form)
        }
    }
}

/// An NBMcd value that holds a can't-read mark.
fn cant_read(random: &mut Random, size: usize) -> Vec<u8> {
    let mut bytes = characters(random, Type::MicrDash, size);
    let place = random.below(size);
    bytes[place] = b'*';
    bytes
}

/// An NBQ value that holds a question mark and no embedded blank.
fn questionable(random: &mut Random, size: usize) -> Vec<u8> {
    let mut bytes = characters(random, Type::NumericBlankQuestion, size);
    let place = random.below(size);
    bytes[place] = b'?';
    bytes
}

/// Characters of a data type (clause 5.3).
pub fn characters(random: &mut Random, kind: Type, size: usize) -> Vec<u8> {
    let among = |random: &mut Random, set: &[u8]| -> Vec<u8> {
        (0..size).map(|_| if random.percent(60) { random.digit() } else { random.pick(set) }).collect()
    };
    match kind {
        Type::AllBlank => vec![b' '; size],
        Type::Alphabetic => (0..size).map(|_| random.pick(b"AZaz mMqQ")).collect(),
        Type::Alphanumeric => (0..size).map(|_| random.pick(b"AZaz09 mM5qQ")).collect(),
        Type::AlphanumericSpecial => (0..size).map(|_| random.between(0x20, 0x7E) as u8).collect(),
        Type::Binary => (0..size).map(|_| random.byte()).collect(),
        Type::Numeric => (0..size).map(|_| random.digit()).collect(),
        Type::NumericBlank => blank_sided(random, size, b" ", b""),
        Type::NumericBlankDash => blank_sided(random, size, b" -", b"-"),
        Type::NumericBlankQuestion => blank_sided(random, size, b" ?", b"?"),
        Type::MicrCantRead => among(random, b" *"),
        Type::MicrDash => among(random, b" *-"),
        Type::MicrOnUs => among(random, b" *-/"),
        Type::MicrUnparsed => among(random, b" *-/$#"),
    }
}

/// Digits in a row with blanks and marks only at the sides; marks may stand among the digits.
fn blank_sided(random: &mut Random, size: usize, sides: &[u8], inner: &[u8]) -> Vec<u8> {
    let start = if random.percent(60) { 0 } else { random.between(0, size) };
    let end = if random.percent(40) { size } else { random.between(start, size) };
    (0..size)
        .map(|place| {
            if place < start || place >= end {
                random.pick(sides)
            } else if !inner.is_empty() && random.percent(15) {
                random.pick(inner)
            } else {
                random.digit()
            }
        })
        .collect()
}

#[cfg(test)]
mod tests {
    use super::*;
    use crate::books::{self, Way};
    use crate::descent::{read, Number};

    /// Accepted, with the totals that came together while the file was made, and with the totals and rows of the books.
    #[test]
    fn sound_files_are_accepted_with_the_totals_they_were_made_with() {
        let mut with_credits = 0;
        for index in 0..6_000 {
            let mut random = Random::for_file(1, index);
            let (records, totals) = sound_with_totals(&mut random, &Wish::any());
            let reading = read(&encode(&records));
            assert_eq!(reading.answer.number, Number::Accepted, "file {index}: {reading:?}");
            assert_eq!(reading.answer.listed()[4..], totals, "file {index}");
            let bodies: Vec<&[u8]> = records.iter().map(|record| record.body.as_slice()).collect();
            assert_eq!(reading.rows, books::rows(&bodies), "file {index}");
            let counted = books::count(bodies, Way::Right);
            assert_eq!([counted.items, counted.views], [totals[3], totals[4]].map(u128::from));
            assert_eq!([counted.debit_cents, counted.credit_cents], [totals[5], totals[7]].map(u128::from));
            assert_eq!([counted.bundles, counted.credit_items], [totals[2], totals[6]].map(u128::from));
            with_credits += usize::from(records.iter().any(|record| record.code == 61));
        }
        assert!((1_500..4_500).contains(&with_credits), "{with_credits} files hold 61s");
    }
}
