//! The pieces of which torn files are put together: headers, bundles, 61s, strays and controls, sound and not.

use peer_reader::harm;
use peer_reader::layout::{name_of, CARRIED, NOT_CARRIED};
use peer_reader::make::{record, set_key, sound, Rec, Wish};
use peer_reader::random::Random;

/// The records of a file of so many letters, of pieces.
pub fn assembled(random: &mut Random, letters: usize) -> Vec<Rec> {
    let mut records = vec![record(random, 1, 0)];
    if random.percent(4) {
        spoil(random, &mut records[0]);
    }
    some_strays(random, 15, &mut records);
    for _ in 0..letters {
        letter(random, &mut records);
        some_strays(random, 15, &mut records);
    }
    if random.percent(75) {
        records.push(control(random, 99));
        some_strays(random, 10, &mut records);
    }
    records
}

/// A cash letter of pieces.
fn letter(random: &mut Random, records: &mut Vec<Rec>) {
    let content = random.pick(b"NEIFIFE");
    let mut header = record(random, 10, 0);
    header.set(8, &[if random.percent(50) { content.to_ascii_lowercase() } else { content }]);
    let as_made = header.clone();
    if random.percent(18) {
        spoil(random, &mut header);
    }
    // Some were lost, and their records stand under the one before.
    if !random.percent(8) {
        records.push(header);
    }
    for _ in 0..random.pick(&[0, 1, 1, 2, 2, 3, 4, 5]) {
        records.extend(piece(random, content, &as_made));
    }
    if random.percent(72) {
        records.push(control(random, 90));
        if random.percent(6) {
            records.push(control(random, 90));
        }
    }
}

fn piece(random: &mut Random, content: u8, header: &Rec) -> Vec<Rec> {
    match random.below(100) {
        0..=29 => bundle(random, content),
        30..=57 => torn_bundle(random, content),
        58..=81 => any_credit(random, header),
        82..=90 => behind(random, stray, header),
        91..=95 => behind(random, stranger, header),
        _ => {
            let other = random.pick(b"EIF");
            bundle(random, other)
        }
    }
}

/// A stray, and often a 61 right behind it: it lies in no stretch if none was begun.
fn behind(random: &mut Random, stray: impl Fn(&mut Random) -> Rec, header: &Rec) -> Vec<Rec> {
    let mut records = vec![stray(random)];
    if random.percent(60) {
        records.extend(any_credit(random, header));
    }
    records
}

/// A bundle that is sound under a letter of this content; under N there is none, and it is one of another.
pub fn bundle(random: &mut Random, content: u8) -> Vec<Rec> {
    let contents: &'static [u8] = match content {
        b'E' => b"E",
        b'I' => b"I",
        b'F' => b"F",
        _ => b"EIF",
    };
    let mut wish = Wish { letters: (1, 1), bundles: (1, 1), items: (1, 2), views: (1, 1), image: 12, ..Wish::any() };
    (wish.contents, wish.addenda, wish.extras, wish.credits) = (contents, (0, 1), 20, 30);
    let records = sound(random, &wish);
    let place = |code: u8| records.iter().position(|record| record.code == code).expect("a bundle");
    records[place(20)..=place(70)].to_vec()
}

/// A bundle torn in one way, or in two.
fn torn_bundle(random: &mut Random, content: u8) -> Vec<Rec> {
    let mut records = bundle(random, content);
    for _ in 0..random.pick(&[1, 1, 1, 1, 2]) {
        if records.is_empty() {
            break;
        }
        let last = records.len() - 1;
        match random.below(17) {
            0 | 1 => drop(records.pop()),
            2 => drop(records.remove(0)),
            3 => records.truncate(random.between(1, last.max(1))),
            4 => drop(records.remove(random.below(last + 1))),
            5 => {
                let at = random.below(last + 1);
                records.insert(at, records[at].clone());
            }
            6 => records.swap(random.below(last + 1), random.below(last + 1)),
            7 => {
                let at = random.below(last + 1);
                let more = if random.percent(50) { stranger(random) } else { stray(random) };
                records.insert(at, more);
            }
            8 => total(random, &mut records),
            9 => {
                let at = random.between(0, last);
                let header = record(random, 10, 0);
                records.splice(at..at, any_credit(random, &header));
            }
            10 | 11 => {
                let at = random.below(last + 1);
                harm::one_record(random, &mut records, at);
            }
            12 => addenda(random, &mut records),
            _ => {
                let at = random.below(last + 1);
                spoil(random, &mut records[at]);
            }
        }
    }
    records
}

/// Items that state another count of addenda.
fn addenda(random: &mut Random, records: &mut [Rec]) {
    let fewer = random.percent(70);
    let items = records.iter_mut().filter(|record| matches!(record.code, 25 | 31) && record.body.len() == 80);
    items.for_each(|item| another_count(item, fewer));
}

/// An item that states one addendum too few, so that its last is beyond the count, or one too many.
pub fn another_count(item: &mut Rec, fewer: bool) {
    let field = if item.code == 25 { 12 } else { 8 };
    let stated: u64 = std::str::from_utf8(item.get(field)).map_or(0, |text| text.parse().unwrap_or(0));
    item.set_number(field, if fewer { stated.saturating_sub(1) } else { stated + 1 });
}

/// A 70 that states another sum.
fn total(random: &mut Random, records: &mut [Rec]) {
    let Some(control) = records.iter_mut().find(|record| record.code == 70 && record.body.len() == 80) else { return };
    let field = random.pick(&[2, 3, 5, 6, 7]);
    harm::harm_total(random, control, field);
}

/// A 61 with views or without, for this 10, mostly sound.
pub fn any_credit(random: &mut Random, header: &Rec) -> Vec<Rec> {
    let mut head = record(random, 61, 0);
    // Sums of fourteen digits would do for no second one.
    if random.percent(90) {
        let amount = random.draw() % 1_000_000;
        head.set_number(7, amount);
    }
    let mut records = vec![head.clone()];
    match random.below(10) {
        0..=2 => {}
        3..=5 => {
            for _ in 0..random.pick(&[1, 1, 2]) {
                view(random, header, head.get(8), &mut records);
            }
        }
        6 | 7 => {
            for _ in 0..random.between(1, 4) {
                records.push(part_of_view(random, header, head.get(8)));
            }
        }
        8 => {
            view(random, header, head.get(8), &mut records);
            let at = random.below(records.len());
            spoil(random, &mut records[at]);
        }
        _ => {
            for _ in 0..random.between(1, 2) {
                view(random, header, head.get(8), &mut records);
            }
            records.pop();
            if random.percent(40) {
                records.push(part_of_view(random, header, head.get(8)));
            }
        }
    }
    records
}

/// A sound 61 directly under this 10 with one view and its 54.
pub fn credit_with_analysis(random: &mut Random, header: &Rec) -> Vec<Rec> {
    let mut head = record(random, 61, 0);
    head.set_number(7, 100);
    let mut data = record(random, 52, 8);
    set_key(&mut data, header, head.get(8));
    let mut detail = record(random, 50, 0);
    detail.set(10, b"0");
    vec![head, detail, data, record(random, 54, 0)]
}

/// A view of a 61 directly under a 10.
fn view(random: &mut Random, header: &Rec, sequence: &[u8], records: &mut Vec<Rec>) {
    records.push(detail(random));
    records.push(data(random, header, sequence));
    if random.percent(35) {
        records.push(record(random, 54, 0));
    }
}

fn part_of_view(random: &mut Random, header: &Rec, sequence: &[u8]) -> Rec {
    match random.pick(&[50, 50, 52, 52, 54]) {
        50 => detail(random),
        52 => data(random, header, sequence),
        _ => record(random, 54, 0),
    }
}

/// A 50, most often unsigned.
fn detail(random: &mut Random) -> Rec {
    let mut detail = record(random, 50, 0);
    if random.percent(80) {
        detail.set(10, b"0");
    }
    detail
}

fn data(random: &mut Random, header: &Rec, sequence: &[u8]) -> Rec {
    let mut data = record(random, 52, 8);
    set_key(&mut data, header, sequence);
    if random.percent(6) {
        let field = random.pick(&[2, 3, 5]);
        let other = record(random, 52, 0);
        data.set(field, other.get(field));
    }
    data
}

/// A record of a carried type where none belongs; no header of a letter, no 61 and no control of a letter or file.
fn stray(random: &mut Random) -> Rec {
    let codes: Vec<u8> = CARRIED.into_iter().filter(|code| !matches!(code, 1 | 10 | 20 | 61 | 90 | 99)).collect();
    let code = random.pick(&codes);
    record(random, code, 5)
}

fn some_strays(random: &mut Random, cases: u64, records: &mut Vec<Rec>) {
    while random.percent(cases) {
        let stray = match random.below(8) {
            0 => record(random, 61, 0),
            1 => record(random, 20, 0),
            2 => control(random, 90),
            3 => stranger(random),
            _ => stray(random),
        };
        records.push(stray);
    }
}

/// Two characters that name no type.
pub const NO_TYPES: [[u8; 2]; 7] = [*b"  ", *b"6 ", *b" 1", *b"AB", *b"1O", *b"\x00\x00", *b"2-"];

/// A second 01, a record of a type that is not carried, or of none.
pub fn stranger(random: &mut Random) -> Rec {
    let mut stranger = record(random, 1, 0);
    let name = match random.below(8) {
        0 | 1 => *b"01",
        2..=4 => name_of(random.pick(&NOT_CARRIED)),
        5 => random.pick(&NO_TYPES),
        6 => [random.digit(), random.digit()],
        _ => *b"00",
    };
    stranger.body[..2].copy_from_slice(&name);
    if random.percent(20) {
        let length = random.between(2, 100);
        stranger.body.resize(length, b' ');
    }
    stranger
}

/// A record of this name that is nothing else.
pub fn named(random: &mut Random, name: [u8; 2]) -> Rec {
    let mut stranger = record(random, 1, 0);
    stranger.body[..2].copy_from_slice(&name);
    stranger
}

/// A record against its rules: a field, its length, or a byte that is no character.
pub fn spoil(random: &mut Random, record: &mut Rec) {
    if record.body.len() < record.layout().fixed {
        return;
    }
    match random.below(8) {
        0..=2 => spoil_length(random, record),
        3 => {
            let place = random.between(2, record.body.len() - 1);
            record.body[place] = random.pick(&[0x00, 0x7F, 0x80]);
        }
        _ => {
            let field = random.between(2, record.layout().fields.len()) as u8;
            harm::harm_field(random, record, field);
        }
    }
}

/// A record too long by a byte, too short by one, or by more.
pub fn spoil_length(random: &mut Random, record: &mut Rec) {
    match random.below(3) {
        0 => record.body.push(b' '),
        1 => record.body.truncate(record.layout().fixed - 1),
        _ => record.body.truncate(random.between(2, record.layout().fixed - 1)),
    }
}

/// A 90 or 99 with any sums, whole or spoiled.
pub fn control(random: &mut Random, code: u8) -> Rec {
    let mut control = record(random, code, 0);
    if random.percent(40) {
        spoil_free(random, &mut control);
    }
    control
}

/// A control whose free fields lie in the record or not, keep their rules or not, whatever the rest is.
pub fn spoil_free(random: &mut Random, control: &mut Rec) {
    if control.body.len() != control.layout().fixed {
        return;
    }
    let field = |number: u8| control.layout().field(number);
    let (six, seven) = (field(6), field(7));
    match random.below(9) {
        0 => control.body.truncate(six.last - random.between(0, 1)),
        1 => control.body.truncate(seven.last - random.between(0, 1)),
        2 => control.body.truncate(random.between(2, six.first)),
        3 => control.body.extend(vec![b' '; random.between(1, 20)]),
        4 => control.body[random.between(six.first - 1, six.last - 1)] = random.pick(&[0x00, 0x7F, 0x9A]),
        5 => control.body[random.between(seven.first - 1, seven.last - 1)] = random.pick(b"A?\x00-"),
        6 => {
            // A blank among digits, or a date of no month.
            let bytes: &[u8] = if control.code == 90 { b"20051301" } else { b"12 34     " };
            control.set(7, bytes);
        }
        7 => {
            let number = random.pick(&[6, 7]);
            let blank = vec![b' '; control.layout().field(number).size()];
            control.set(number, &blank);
        }
        _ => {
            let number = random.pick(&[2, 3, 4, 5, 8]);
            harm::harm_field(random, control, number);
        }
    }
}
