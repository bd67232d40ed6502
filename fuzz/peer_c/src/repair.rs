//! Makes a changed file consistent again, so that the reading goes past the place of the change:
//! record numbers, addendum counts, the 52's repeated fields, and the sums of the control records, credits among them.

use peer_reader::descent::Inside;
use peer_reader::harm::{followers, sequence_field};
use peer_reader::judge::all_digits;
use peer_reader::make::{self, set_key, Rec};
use peer_reader::random::Random;

/// Where the walk stands.
#[derive(Default)]
struct Standing {
    letters: u64,
    letter: Sums,
    bundle: Sums,
    file: Sums,
    letter_header: Option<usize>,
    bundle_header: Option<usize>,
    in_bundle: bool,
    /// The newest 25 or 31 whose addenda may still come.
    item: Option<usize>,
    /// The newest 25, 31 or 61, to which views belong.
    head: Option<usize>,
    addenda: u64,
    runs: [u64; 4],
    signed: bool,
}

#[derive(Clone, Copy, Default)]
struct Sums {
    bundles: u64,
    /// 25s and 31s.
    checks: u64,
    debits: u64,
    debit_cents: u64,
    credits: u64,
    credit_cents: u64,
    micr: u64,
    views: u64,
}

impl Sums {
    fn add(&mut self, other: Sums) {
        self.bundles += other.bundles;
        self.checks += other.checks;
        self.debits += other.debits;
        self.debit_cents += other.debit_cents;
        self.credits += other.credits;
        self.credit_cents += other.credit_cents;
        self.micr += other.micr;
        self.views += other.views;
    }
}

impl Standing {
    /// The sums that the record at hand counts in: its bundle's, or outside one its cash letter's.
    fn level(&mut self) -> &mut Sums {
        if self.in_bundle {
            &mut self.bundle
        } else {
            &mut self.letter
        }
    }

    /// The header that a 52 here repeats.
    fn header(&self) -> Option<usize> {
        if self.in_bundle {
            self.bundle_header
        } else {
            self.letter_header
        }
    }
}

/// True if the record is of its type and long enough for its fixed part.
pub fn whole(record: &Rec) -> bool {
    record.body.len() >= record.layout().fixed
}

/// Repairs in order of the records; a record too short for its fixed part is passed over.
pub fn repair(records: &mut [Rec]) {
    let mut at = Standing::default();
    for index in 0..records.len() {
        if !whole(&records[index]) {
            continue;
        }
        match records[index].code {
            10 => {
                (at.letter, at.in_bundle) = (Sums::default(), false);
                at.letter_header = Some(index);
            }
            20 => {
                (at.bundle, at.in_bundle) = (Sums { bundles: 1, ..Sums::default() }, true);
                at.bundle_header = Some(index);
            }
            25 | 31 => item(records, index, &mut at),
            61 => credit(records, index, &mut at),
            26..=28 | 32..=35 => addendum(&mut records[index], &mut at),
            50 => {
                at.level().views += 1;
                at.signed = records[index].get(10) == b"1";
            }
            52 => view(records, index, &at),
            70 => bundle_control(records, index, &mut at),
            90 => letter_control(records, index, &mut at),
            99 => file_control(records, index, &at),
            _ => {}
        }
    }
}

fn bundle_control(records: &mut [Rec], index: usize, at: &mut Standing) {
    close(records, at);
    at.item = None;
    let sums = std::mem::take(&mut at.bundle);
    let control = &mut records[index];
    let micr = (control.get(4) != b"            ").then_some((4, sums.micr));
    let numbers = [(2, sums.debits), (3, sums.debit_cents), (5, sums.views), (6, sums.credits), (7, sums.credit_cents)];
    numbers.into_iter().chain(micr).for_each(|(field, number)| control.set_number(field, number));
    at.in_bundle = false;
    at.letter.add(sums);
}

fn letter_control(records: &mut [Rec], index: usize, at: &mut Standing) {
    content(records, at);
    let sums = std::mem::take(&mut at.letter);
    let debit = [(2, sums.bundles), (3, sums.debits), (4, sums.debit_cents), (5, sums.views)];
    for (field, number) in debit.into_iter().chain([(8, sums.credits), (9, sums.credit_cents)]) {
        records[index].set_number(field, number);
    }
    at.file.add(sums);
    at.letters += 1;
}

fn file_control(records: &mut [Rec], index: usize, at: &Standing) {
    let (count, sums) = (records.len() as u64, at.file);
    let items = sums.debits + sums.credits;
    for (field, number) in [(2, at.letters), (3, count), (4, items), (5, sums.debit_cents), (8, sums.credit_cents)] {
        records[index].set_number(field, number);
    }
}

/// The type that closes what is open after this one.
fn closing(last: u8, inside: Inside) -> u8 {
    match last {
        0 => 1,
        1 => 10,
        10 | 70 => 90,
        20 => 25,
        31 | 32 => 33,
        50 => 52,
        90 => 99,
        52 | 54 | 61 if inside == Inside::CreditInLetter => 90,
        _ => 70,
    }
}

/// Drops the records that may not stand where they stand, and closes what is left open at the end.
pub fn straighten(random: &mut Random, records: &mut Vec<Rec>) {
    let (mut last, mut kind, mut in_bundle, mut inside) = (0, 0, false, Inside::File);
    records.retain(|record| {
        let code = record.code;
        let item = code == 25 || code == 31;
        let lawful = followers(inside, last).contains(&code) && (!item || kind == 0 || code == kind);
        if lawful {
            last = code;
            match code {
                20 => (in_bundle, kind) = (true, 0),
                70 => in_bundle = false,
                25 | 31 => (kind, inside) = (code, Inside::Item),
                61 => inside = Inside::credit(in_bundle),
                _ => {}
            }
        }
        lawful
    });
    while last != 99 {
        last = closing(last, inside);
        records.push(make::record(random, last, 20));
    }
}

/// A cash letter's field 8 as its bundles and views ask, where it asks otherwise.
fn content(records: &mut [Rec], at: &Standing) {
    let Some(index) = at.letter_header else {
        return;
    };
    let (bundles, views) = (at.letter.bundles, at.letter.views);
    let fits = match records[index].get(8)[0].to_ascii_uppercase() {
        b'N' => bundles == 0,
        b'E' => bundles > 0 && views == 0,
        b'I' | b'F' => bundles > 0 && (views > 0 || at.letter.checks == 0),
        _ => true,
    };
    if !fits {
        let due: &[u8] = match (bundles, views) {
            (0, _) => b"N",
            (_, 0) => b"E",
            _ => b"F",
        };
        records[index].set(8, due);
    }
}

/// The item's own count is what follows it.
fn close(records: &mut [Rec], at: &Standing) {
    if let Some(index) = at.item {
        let field = if records[index].code == 25 { 12 } else { 8 };
        records[index].set_number(field, at.addenda.min(99));
    }
}

fn item(records: &mut [Rec], index: usize, at: &mut Standing) {
    close(records, at);
    (at.item, at.head) = (Some(index), Some(index));
    (at.addenda, at.runs) = (0, [0; 4]);
    let item = &records[index];
    let cents = cents(item.get(6));
    let micr = if item.code == 25 && item.get(10) == b"1" { cents } else { 0 };
    at.level().add(Sums { checks: 1, debits: 1, debit_cents: cents, micr, ..Sums::default() });
}

/// Usage 9 is a debit, any other a credit. It ends the item before it.
fn credit(records: &mut [Rec], index: usize, at: &mut Standing) {
    close(records, at);
    (at.item, at.head) = (None, Some(index));
    let credit = &records[index];
    let cents = cents(credit.get(7));
    at.level().add(match credit.get(2) {
        b"9" => Sums { debits: 1, debit_cents: cents, ..Sums::default() },
        _ => Sums { credits: 1, credit_cents: cents, ..Sums::default() },
    });
}

fn cents(amount: &[u8]) -> u64 {
    let digits = if all_digits(amount) { amount } else { b"" };
    digits.iter().fold(0, |so_far, digit| so_far * 10 + u64::from(digit - b'0'))
}

/// Counts an addendum, and numbers it on where its type has a number.
fn addendum(record: &mut Rec, at: &mut Standing) {
    at.addenda += 1;
    let run = match record.code {
        26 => 0,
        28 => 1,
        32 => 2,
        35 => 3,
        _ => return,
    };
    at.runs[run] += 1;
    record.set_number(2, at.runs[run]);
}

/// Clause 22: the item reference key.
fn view(records: &mut [Rec], index: usize, at: &Standing) {
    if let (Some(header), Some(head)) = (at.header(), at.head) {
        let header = records[header].clone();
        let sequence = records[head].get(sequence_field(records[head].code)).to_vec();
        set_key(&mut records[index], &header, &sequence);
    }
    let data = &mut records[index];
    for name in [7, 8] {
        if at.signed && data.get(name).iter().all(|byte| *byte == b' ') {
            let mut bytes = data.get(name).to_vec();
            bytes[0] = b'k';
            data.set(name, &bytes);
        }
    }
}
