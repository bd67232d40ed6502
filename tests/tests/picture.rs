//! The picture call: number, field and place of the image, compared with an independent computation.

use record_tests::generate::{framed, sound_record};
use record_tests::judge::{self, CUT, FIELD, LARGEST_FILE, LENGTH, SIZE, TYPE};
use record_tests::random::Random;
use record_tests::table::Table;
use record_tests::{ffi, report};

/// Asks both about one offset. They must agree and the file must stay as it was; the common place comes back.
fn agreed(table: &Table, file: &[u8], offset: u64) -> [u64; 4] {
    let before = file.to_vec();
    let found = ffi::picture(file, offset);
    assert_eq!(file, before, "the file was changed");
    let expected = judge::picture(table, file, offset);
    assert_eq!(found, expected, "offset {offset} of a file of {} bytes: {}", file.len(), file.escape_ascii());
    found
}

/// A 52 set out by hand: a sound fixed part, the lengths of its seven parts, and the parts, image bytes being 0xEE.
fn view(lengths: [usize; 7]) -> Vec<u8> {
    let mut body = b"5212345678020050230  000000000000001".to_vec();
    body.resize(84, b' ');
    body.extend(b"0000000000000000000");
    for (length, width) in lengths.iter().zip([4, 5, 5, 5, 5, 7, 5]) {
        body.extend(format!("{length:0width$}").bytes());
    }
    assert_eq!(body.len(), 139);
    for (length, byte) in lengths.iter().zip([b'K', 0x00, b'D', b'S', 0xFF, 0xEE, 0x80]) {
        body.extend(vec![byte; *length]);
    }
    body
}

#[test]
fn stated_places() {
    let table = Table::read();
    let cases: [([usize; 7], u64, u64); 7] = [
        ([0, 0, 0, 0, 0, 1000, 0], 139, 1000),
        ([0, 0, 0, 0, 0, 0, 0], 139, 0),
        ([0, 0, 0, 0, 0, 1, 0], 139, 1),
        ([7, 0, 0, 0, 0, 5, 0], 146, 5),
        ([1, 2, 3, 4, 5, 6, 7], 154, 6),
        ([1, 2, 3, 4, 5, 0, 7], 154, 0),
        ([9_999, 99_999, 99_999, 99_999, 99_999, 9_999_999, 99_999], 410_134, 9_999_999),
    ];
    for (lengths, start, length) in cases {
        let body = view(lengths);
        for before in [0, 1, 84] {
            for after in [0, 500] {
                let mut file = [vec![0xEE; before], framed(&body), vec![0xEE; after]].concat();
                let place = agreed(&table, &file, before as u64);
                assert_eq!(place, [0, 0, before as u64 + 4 + start, length]);
                let (from, to) = (place[2] as usize, (place[2] + place[3]) as usize);
                assert!(file[from..to].iter().all(|byte| *byte == 0xEE), "the image bytes and no others");
                file.truncate(before + 4 + body.len() - 1);
                assert_eq!(agreed(&table, &file, before as u64), [CUT, 0, 0, 0], "one byte missing");
            }
        }
    }
    report("stated places: 7 views in 6 surroundings, whole and one byte short");
}

/// Whole files and their answer at offset 0.
const STATED: &[(u64, &[&[u8]])] = &[
    (SIZE, &[b""]),
    (CUT, &[b"\0", b"\0\0", b"\0\0\0", b"\0\0\0\x50", b"\0\0\0\x01", b"\0\0\0\x0352"]),
    (CUT, &[b"\xFF\xFF\xFF\xFF", b"\xFF\xFF\xFF\xFF52", b"\x80\0\0\0", b"\x80\0\0\x0052"]),
    (LENGTH, &[b"\0\0\0\0", b"\0\0\0\0\0\0\0\0", b"\0\0\0\x015", b"\0\0\0\x0152", b"\0\0\0\x0252"]),
    (TYPE, &[b"\0\0\0\x0201", b"\0\0\0\x0250", b"\0\0\0\x025R", b"\0\0\0\x02\0\0", b"\0\0\0\x0454  "]),
];

#[test]
fn stated_refusals() {
    let table = Table::read();
    let at_start = |bytes: &[u8]| agreed(&table, bytes, 0);
    let refused = |number| [number, 0, 0, 0];
    for (number, files) in STATED {
        files.iter().for_each(|file| assert_eq!(at_start(file), refused(*number), "{}", file.escape_ascii()));
    }
    for offset in [1, u64::MAX - 3, u64::MAX] {
        assert_eq!(agreed(&table, b"", offset), refused(SIZE));
    }
    let body = view([1, 0, 0, 0, 0, 10, 0]);
    let file = framed(&body);
    assert_eq!(at_start(&file), [0, 0, 144, 10]);
    assert_eq!(at_start(&framed(&body[..body.len() - 1])), refused(LENGTH));
    assert_eq!(at_start(&framed(&body[..138])), refused(LENGTH));
    // The routing number ends with a dash, as in none of its forms.
    for (at, byte, field) in
        [(10, b'-', 2), (11, b'1', 3), (84, b'9', 9), (100, b'1', 13), (130, b' ', 20), (139, 7, 22)]
    {
        let mut damaged = file.clone();
        damaged[4 + at] = byte;
        assert_eq!(at_start(&damaged), [FIELD, field, 0, 0], "byte {at} set to {byte}");
    }
    for routing in [b"12345-678", b"123456781", b"      678"] {
        let mut of_another_form = file.clone();
        of_another_form[6..15].copy_from_slice(routing);
        assert_eq!(at_start(&of_another_form), [0, 0, 144, 10], "{}", routing.escape_ascii());
    }
    report("stated refusals: SIZE, CUT, LENGTH, TYPE and FIELD, each with its answer written by hand");
}

#[test]
fn every_offset() {
    let (table, mut random) = (Table::read(), Random::new(21));
    let (mut compared, mut accepted) = (0, 0);
    for _ in 0..150 {
        let mut file = Vec::new();
        for _ in 0..random.between(2, 8) {
            let any = table.kinds[random.below(table.kinds.len())].code;
            let kind = table.kind(if random.one_in(3) { "52" } else { any });
            let start = file.len();
            file.extend(framed(&sound_record(kind, &mut random)));
            let expected = if kind.code == "52" { 0 } else { TYPE };
            assert_eq!(agreed(&table, &file, start as u64)[0], expected, "type {}", kind.code);
        }
        let length = file.len() as u64;
        let far = [1 << 31, 1 << 32, (1 << 32) + 4, 1 << 63, u64::MAX - 4, u64::MAX - 3, u64::MAX - 1, u64::MAX];
        for offset in (0..length + 9).chain(far) {
            let place = agreed(&table, &file, offset);
            assert!(offset <= length - 4 || place == [CUT, 0, 0, 0], "offset {offset} of {length}");
            accepted += u64::from(place[0] == 0);
            compared += 1;
        }
    }
    report(&format!("every offset: {compared} calls over 150 files, {accepted} accepted"));
}

#[test]
fn damaged_views() {
    let table = Table::read();
    let kind = table.kind("52");
    let mut random = Random::new(22);
    let mut answers = [0u64; 12];
    for _ in 0..20_000 {
        let before = random.below(6);
        let mut file: Vec<u8> = (0..before).map(|_| random.any_byte()).collect();
        file.extend(framed(&sound_record(kind, &mut random)));
        for _ in 0..random.between(0, 2) {
            let at = random.between(before, (before + 150).min(file.len() - 1));
            file[at] = random.pick(b"\x00\x01\xFF 01259-*Aa");
        }
        if random.one_in(10) {
            file.pop();
        }
        answers[agreed(&table, &file, before as u64)[0] as usize] += 1;
    }
    for number in [0, CUT, LENGTH, TYPE, FIELD] {
        assert!(answers[number as usize] > 0, "answer {number} never came");
    }
    report(&format!(
        "damaged views: 20000 calls, {} accepted, {} CUT, {} LENGTH, {} TYPE, {} FIELD",
        answers[0], answers[3], answers[4], answers[5], answers[7]
    ));
}

#[test]
fn size_limit() {
    let mut file = vec![0; LARGEST_FILE + 1];
    let far = [0, 1, LARGEST_FILE as u64 - 3, LARGEST_FILE as u64, LARGEST_FILE as u64 + 1, u64::MAX];
    for offset in far {
        assert_eq!(ffi::picture(&file, offset), [SIZE, 0, 0, 0]);
    }
    file.truncate(LARGEST_FILE);
    let expected = [LENGTH, LENGTH, CUT, CUT, CUT, CUT];
    for (offset, number) in far.into_iter().zip(expected) {
        assert_eq!(ffi::picture(&file, offset), [number, 0, 0, 0], "offset {offset}");
    }
    let last = framed(&view([3, 0, 0, 0, 0, 1000, 2]));
    let at = LARGEST_FILE - last.len();
    file[at..].copy_from_slice(&last);
    assert_eq!(ffi::picture(&file, at as u64), [0, 0, (LARGEST_FILE - 1002) as u64, 1000]);
    report("size limit: 268,435,457 bytes are SIZE, 268,435,456 are read, with a 52 at the very end");
}
