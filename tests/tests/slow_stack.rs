//! Request 12: the slow reader's calls lie on the stack one above the other, one or more for each record. A stack of one MiB is enough for every file that it
//! takes, and 64 KiB are read in well under a second. The files here are as long as they may be: those with the most records, and those whose functions take
//! the most of the stack for their bytes. Number, answer and table are compared with the first reader's.
use peer_reader::copy::to_ebcdic;
use peer_reader::plain::*;
use record_tests::{ffi, report};
use std::thread;
use std::time::{Duration, Instant};

const LIMIT: usize = 65_536;
const STACK: usize = 1 << 20;

/// Records that come over and over, and what stands before and behind so many of them.
struct Shape {
    name: &'static str,
    repeated: Vec<Vec<u8>>,
    before: Vec<Vec<u8>>,
    behind: fn(u64) -> Vec<Vec<u8>>,
}

impl Shape {
    fn records(&self, times: usize) -> Vec<Vec<u8>> {
        let repeated = (0..times).flat_map(|_| self.repeated.clone());
        self.before.iter().cloned().chain(repeated).chain((self.behind)(times as u64)).collect()
    }

    /// The longest such file that the slow reader takes, and its records.
    fn file(&self) -> (Vec<u8>, usize) {
        let longest = (1..).take_while(|times| file(&self.records(*times)).len() <= LIMIT).last();
        let records = self.records(longest.expect("one fits"));
        (file(&records), records.len())
    }
}

/// The controls of one bundle of so many debits of one cent, of one cash letter, each of so many records.
fn one_bundle(items: u64, records: u64, views: u64) -> Vec<Vec<u8>> {
    vec![
        bundle_control(items, items, NOT_STATED, items * views),
        letter_control(1, items, items, items * views),
        file_control(1, items * records + 6, items, items),
    ]
}

fn one_bundle_of(name: &'static str, content: char, item: Vec<Vec<u8>>, behind: fn(u64) -> Vec<Vec<u8>>) -> Shape {
    Shape { name, repeated: item, before: vec![file_header(), letter_header(content), bundle_header()], behind }
}

fn shapes() -> Vec<Shape> {
    let with_view = vec![check(1, ' ', 0), view_detail('0'), view_data(b""), view_analysis()];
    vec![
        one_bundle_of("a 31 with its 33", 'E', vec![returned(1, 1), return_addendum_b()], |n| one_bundle(n, 2, 0)),
        one_bundle_of("a 25 with a bare 27", 'E', vec![check(1, ' ', 1), check_addendum_b("")], |n| {
            one_bundle(n, 2, 0)
        }),
        one_bundle_of("a 25", 'E', vec![check(1, ' ', 0)], |n| one_bundle(n, 1, 0)),
        one_bundle_of("a 25 with 50, 52 and 54", 'I', with_view, |n| one_bundle(n, 4, 1)),
        Shape {
            name: "a cash letter of N",
            repeated: vec![letter_header('N'), letter_control(0, 0, 0, 0)],
            before: vec![file_header()],
            behind: |letters| vec![file_control(letters, 2 * letters + 2, 0, 0)],
        },
        Shape {
            name: "a bundle of one 25",
            repeated: vec![bundle_header(), check(1, ' ', 0), bundle_control(1, 1, NOT_STATED, 0)],
            before: vec![file_header(), letter_header('E')],
            behind: |n| vec![letter_control(n, n, n, 0), file_control(1, 3 * n + 4, n, n)],
        },
        Shape {
            name: "a 61 in the cash letter",
            repeated: vec![credit('1', 1)],
            before: vec![file_header(), letter_header('N')],
            behind: |n| vec![letter_sums(0, (0, 0), 0, (n, n)), file_sums(1, n + 4, n, 0, n)],
        },
    ]
}

/// Both readings of a file on a stack of one MiB; the slow one's answer and the time that it took.
fn read(file: Vec<u8>) -> ([u64; 12], Duration) {
    let on_it = thread::Builder::new().stack_size(STACK);
    let reading = on_it.spawn(move || {
        let (mut first, mut slow) = (vec![7; 7 * 900], vec![7; 7 * 900]);
        let expected = ffi::read(&file, &mut first);
        let began = Instant::now();
        let found = ffi::read_slowly(&file, &mut slow);
        let took = began.elapsed();
        assert_eq!((found, slow), (expected, first), "the slow reader and the first");
        (found, took)
    });
    reading.expect("a thread").join().expect("a reading")
}

#[test]
fn the_longest_files_on_a_stack_of_one_mib() {
    for shape in shapes() {
        let (ascii, records) = shape.file();
        for (set, bytes) in [("ASCII", ascii.clone()), ("EBCDIC", to_ebcdic(&ascii))] {
            let size = bytes.len();
            let (answer, took) = read(bytes);
            assert_eq!(answer[..4], [0, records as u64, 0, size as u64], "{} over and over, in {set}", shape.name);
            assert!(took < Duration::from_secs(1), "{} over and over, in {set}: {took:?}", shape.name);
            report(&format!("{} over and over, {set}: {records} records, {size} bytes, {took:?}", shape.name));
        }
    }
}

#[test]
fn refused_at_the_end_and_too_long() {
    for shape in shapes() {
        let (mut bytes, records) = shape.file();
        let last = bytes.len() - 84;
        bytes.truncate(last);
        assert_eq!(read(bytes.clone()).0[..4], [10, records as u64, 0, last as u64], "{} without the 99", shape.name);
        bytes.resize(LIMIT, b' ');
        assert_eq!(read(bytes).0[0], 3, "{} and blanks", shape.name);
    }
    let mut table = vec![7; 7];
    for size in [0, LIMIT + 1, 3 * LIMIT] {
        let answer = ffi::read_slowly(&vec![b'0'; size], &mut table);
        assert_eq!((answer, table[0]), ([1, 0, 0, 0, 0, 0, 0, 0, 0, 0, 0, 0], 7), "{size} bytes");
    }
}
