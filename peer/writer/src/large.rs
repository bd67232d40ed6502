//! Large drafts. Rows may share their text, so that ten thousand items, a hundred thousand views and a file past the limit need little of it.

use peer_reader::descent::LARGEST;
use peer_reader::layout::layout;
use peer_reader::make::{record, set_key, Rec};
use peer_reader::random::Random;

use crate::draft::ROW;
use crate::sheet::{Line, Made};

/// A draft in the making whose rows share their text.
struct Maker {
    text: Vec<u8>,
    numbers: Vec<u64>,
}

impl Maker {
    fn begin(random: &mut Random) -> Maker {
        let mut maker = Maker { text: Vec::new(), numbers: Vec::new() };
        maker.put(&record(random, 1, 0));
        maker
    }

    /// A record of its own: gives its row.
    fn put(&mut self, made: &Rec) -> [u64; ROW] {
        let line = Line::of(made);
        let mut row = [0; ROW];
        row[..3].copy_from_slice(&[line.code, self.text.len() as u64, line.flag]);
        row[3..].copy_from_slice(&line.sizes);
        self.text.extend(&line.body);
        self.numbers.extend(row);
        row
    }

    fn header(&mut self, random: &mut Random, content: u8) -> [u64; ROW] {
        let mut header = record(random, 10, 0);
        header.set(8, &[content]);
        self.put(&header)
    }

    /// So many records of these rows, one after another.
    fn repeat(&mut self, rows: &[[u64; ROW]], times: usize) {
        let numbers: Vec<u64> = rows.concat();
        self.numbers.extend(numbers.repeat(times));
    }

    fn finish(mut self, random: &mut Random, shape: &'static str, controls: &[u8]) -> Made {
        controls.iter().for_each(|code| {
            self.put(&record(random, *code, 0));
        });
        Made { shape, text: self.text, numbers: self.numbers }
    }
}

pub const RARE_SORTS: usize = 16;

/// The large drafts of a stream, by turns.
pub fn rare(random: &mut Random, turn: usize) -> Made {
    match turn % RARE_SORTS {
        0 => of_size(random, "rare: the largest file", LARGEST),
        1 => of_size(random, "rare: one byte too many", LARGEST + 1),
        2 => items(random, "rare: 10,000 checks", 25, 10_000),
        3 => items(random, "rare: 10,000 credits", 61, 10_000),
        4 => views(random, "rare: 100,000 views", 100_000),
        5 => direct(random, "rare: a letter's credits past 64 bits", b' ', 184_468),
        6 => direct(random, "rare: a letter's debits past 64 bits", b'9', 184_468),
        7 => items(random, "rare: 9,999 checks", 25, 9_999),
        8 => views(random, "rare: 99,999 views", 99_999),
        9 => items(random, "rare: 10,000 returns", 31, 10_000),
        10 => items(random, "rare: 9,999 credits", 61, 9_999),
        11 => of_size(random, "rare: twice the largest file", 2 * LARGEST),
        sort => fault_past_the_limit(random, sort % 4),
    }
}

/// A bundle of so many items or 61s.
fn items(random: &mut Random, shape: &'static str, code: u8, count: usize) -> Made {
    let mut maker = Maker::begin(random);
    maker.header(random, b'E');
    maker.put(&record(random, 20, 0));
    let mut item = record(random, code, 0);
    item.set_number(if code == 61 { 7 } else { 6 }, 9_999);
    if code == 61 {
        item.set(2, b" ");
    }
    let mut rows = vec![maker.put(&item)];
    if code == 31 {
        rows.push(maker.put(&record(random, 33, 0)));
    }
    maker.repeat(&rows, count - 1);
    maker.finish(random, shape, &[70, 90, 99])
}

/// An item of so many views.
fn views(random: &mut Random, shape: &'static str, count: usize) -> Made {
    let mut maker = Maker::begin(random);
    maker.header(random, b'I');
    let header = record(random, 20, 0);
    maker.put(&header);
    let item = record(random, 25, 0);
    maker.put(&item);
    let mut detail = record(random, 50, 0);
    detail.set(10, b"0");
    let mut data = record(random, 52, 0);
    set_key(&mut data, &header, item.get(7));
    let rows = [maker.put(&detail), maker.put(&data)];
    maker.repeat(&rows, count - 1);
    maker.finish(random, shape, &[70, 90, 99])
}

/// A cash letter of so many 61s of the largest amount: 184,468 of them pass 64 bits.
fn direct(random: &mut Random, shape: &'static str, usage: u8, count: usize) -> Made {
    let mut maker = Maker::begin(random);
    maker.header(random, b'N');
    let mut credit = record(random, 61, 0);
    credit.set(2, &[usage]);
    credit.set_number(7, 99_999_999_999_999);
    let row = maker.put(&credit);
    maker.repeat(&[row], count - 1);
    maker.finish(random, shape, &[90, 99])
}

/// The bytes of a 01, 10, 20, 25, 70, 90 and 99 with their lengths, and of a 50 and a 52 without parts.
const FRAME: u64 = 84 * 6 + 89;
const VIEW: u64 = 84 + 143;

/// A file of exactly this size: views of 9,999,999 image bytes over one text, and one view that fills the rest.
fn of_size(random: &mut Random, shape: &'static str, size: u64) -> Made {
    let mut maker = Maker::begin(random);
    maker.header(random, b'F');
    let header = record(random, 20, 0);
    maker.put(&header);
    let item = record(random, 25, 0);
    maker.put(&item);
    let mut detail = record(random, 50, 0);
    detail.set(10, b"0");
    let detail = maker.put(&detail);
    maker.numbers.truncate(maker.numbers.len() - ROW);
    let mut data = record(random, 52, 0);
    data.body.truncate(layout(52).fixed);
    set_key(&mut data, &header, item.get(7));
    layout(52).parts.iter().for_each(|part| data.set_number(part.sized_by, 0));
    let controls = maker.text.len();
    let start = controls as u64 + 250;
    let mut view = [0; ROW];
    (view[0], view[1]) = (52, start);
    let image = |bytes: u64| {
        let mut row = view;
        row[8] = bytes; // field 20 is the sixth length
        row
    };
    let whole = (size - FRAME - VIEW) / (VIEW + 9_999_999);
    let rest = size - FRAME - VIEW - whole * (VIEW + 9_999_999);
    maker.repeat(&[detail, image(9_999_999)], whole as usize);
    maker.repeat(&[detail, image(rest)], 1);
    let mut made = maker.finish(random, shape, &[70, 90, 99]);
    made.text.resize(start as usize, 0);
    made.text.extend(&data.body);
    made.text.resize(start as usize + 139 + 9_999_999, 0xA5);
    made
}

/// A fault at a record behind the limit, which comes before SIZE: PLACE, FIELD, LINK, TOTAL. The last three rows are the controls.
fn fault_past_the_limit(random: &mut Random, sort: usize) -> Made {
    let mut made = of_size(random, "rare: a fault past the limit", 2 * LARGEST);
    let controls = made.numbers.len() - 3 * ROW;
    match sort {
        0 => made.numbers.extend_from_within(..ROW),
        1 => made.numbers[controls + 2 * ROW + 1] = u64::MAX,
        2 => {
            let view = made.numbers[controls - 2 * ROW..controls].to_vec();
            let start = view[ROW + 1] as usize;
            let mut data = Rec { code: 52, body: made.text[start..start + layout(52).fixed].to_vec(), told: None };
            let sequence: &[u8; 15] = if data.get(5)[0] == b'1' { b"222222222222222" } else { b"111111111111111" };
            data.set(5, sequence);
            insert(&mut made, controls, &data);
            made.numbers.splice(controls..controls, view[..ROW].to_vec());
        }
        _ => {
            let mut credit = record(random, 61, 0);
            credit.set(2, b" ");
            credit.set_number(7, 1_000_000_000_000);
            insert(&mut made, controls, &credit);
        }
    }
    made
}

/// A record without parts, its row at this place among the numbers and its text behind the rest.
fn insert(made: &mut Made, place: usize, record: &Rec) {
    let mut row = [0; ROW];
    (row[0], row[1]) = (u64::from(record.code), made.text.len() as u64);
    made.numbers.splice(place..place, row);
    made.text.extend(&record.body);
}

pub const HEAVY_SORTS: usize = 4;

/// Drafts of up to three million rows, for runs that ask for them: a million cash letters, a million bundles, a file's debits and credits past
/// 64 bits, of which 64 bits would leave fifteen digits.
pub fn heavy(random: &mut Random, sort: usize) -> Made {
    let mut maker = Maker::begin(random);
    match sort % HEAVY_SORTS {
        0 => {
            let rows = [maker.header(random, b'N'), maker.put(&record(random, 90, 0))];
            maker.repeat(&rows, 999_999);
            maker.finish(random, "heavy: 1,000,000 cash letters", &[99])
        }
        1 => {
            maker.header(random, b'E');
            let mut credit = record(random, 61, 0);
            credit.set_number(7, 0);
            let rows = [maker.put(&record(random, 20, 0)), maker.put(&credit), maker.put(&record(random, 70, 0))];
            maker.repeat(&rows, 999_999);
            maker.finish(random, "heavy: 1,000,000 bundles", &[90, 99])
        }
        sort => {
            let mut credit = record(random, 61, 0);
            credit.set(2, if sort == 2 { b"9" } else { b"1" });
            credit.set_number(7, 99_999_999_999_999);
            let rows = [maker.header(random, b'N'), maker.put(&credit), maker.put(&record(random, 90, 0))];
            maker.repeat(&rows, 184_468);
            maker.finish(random, "heavy: a file's sums past 64 bits", &[99])
        }
    }
}
