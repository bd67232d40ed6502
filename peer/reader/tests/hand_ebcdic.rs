//! Cases of request 5, worked out by hand from clause 5 with its tables, document 02 and readings 34 to 39. Records are
//! spelled out in `plain` and translated here by a table of code page 037 in another form than the reader's: runs of bytes.

use peer_reader::charset::Set;
use peer_reader::copy::copy;
use peer_reader::descent::{read, Row};
use peer_reader::judge::{record_in, Flaw};
use peer_reader::layout::layout;
use peer_reader::line::line;
use peer_reader::picture::picture;
use peer_reader::plain::*;
use peer_reader::samples_ebcdic::samples;

/// Code page 037: the runs of bytes that are characters of Table 1, each with its first byte.
const PAGE: [(u8, &str); 15] = [
    (0x40, " "),
    (0x4B, ".<(+|&"),
    (0x5A, "!$*);"),
    (0x60, "-/"),
    (0x6B, ",%_>?"),
    (0x79, "`:#@'=\""),
    (0x81, "abcdefghi"),
    (0x91, "jklmnopqr"),
    (0xA1, "~stuvwxyz"),
    (0xB0, "^"),
    (0xBA, "[]"),
    (0xC0, "{ABCDEFGHI"),
    (0xD0, "}JKLMNOPQR"),
    (0xE0, "\\"),
    (0xE2, "STUVWXYZ"),
];

/// The byte of a character in code page 037.
fn byte(character: u8) -> u8 {
    if character.is_ascii_digit() {
        return 0xF0 + (character - b'0');
    }
    let in_run = |(first, run): &(u8, &str)| run.bytes().position(|one| one == character).map(|at| first + at as u8);
    PAGE.iter().find_map(in_run).expect("a character of Table 1")
}

/// A record of characters alone in EBCDIC.
fn e(record: Vec<u8>) -> Vec<u8> {
    record.into_iter().map(byte).collect()
}

/// A 52 in EBCDIC: its fixed part of 139 characters; what stands behind is Binary here.
fn e_view(record: Vec<u8>) -> Vec<u8> {
    [e(record[..139].to_vec()), record[139..].to_vec()].concat()
}

/// Other bytes from this position on; a record's first is at position 1.
fn with(mut record: Vec<u8>, position: usize, bytes: &[u8]) -> Vec<u8> {
    record[position - 1..position - 1 + bytes.len()].copy_from_slice(bytes);
    record
}

/// Number, record, field, offset.
fn placed(bytes: &[u8]) -> [u64; 4] {
    let listed = read(bytes).answer.listed();
    if listed[0] != 0 {
        assert_eq!(listed[4..], [0; 8], "no totals on a refusal");
    }
    [listed[0], listed[1], listed[2], listed[3]]
}

/// 01, 10 of N, 90, 99 in EBCDIC.
fn no_detail() -> Vec<Vec<u8>> {
    [file_header(), letter_header('N'), letter_control(0, 0, 0, 0), file_control(1, 4, 0, 0)].map(e).to_vec()
}

/// 01, 10 of I, 20, a 25 of 1.50 that is MICR valid, a 50, a 52 with an image, 70, 90, 99 in EBCDIC.
fn one_view(content: char, image: &[u8]) -> Vec<Vec<u8>> {
    vec![
        e(file_header()),
        e(letter_header(content)),
        e(bundle_header()),
        e(check(150, '1', 0)),
        e(view_detail('0')),
        e_view(view_data(image)),
        e(bundle_control(1, 150, "000000000150", 1)),
        e(letter_control(1, 1, 150, 1)),
        e(file_control(1, 9, 1, 150)),
    ]
}

/// The table above and the reader's are the same code page, and hold 95 characters.
#[test]
fn the_two_tables_agree() {
    for character in 0x20..=0x7E {
        assert_eq!(Set::Ebcdic.byte(character), byte(character), "{}", character as char);
    }
    assert_eq!((0..=255).filter(|byte| Set::Ebcdic.character(*byte) != 0).count(), 95);
}

/// Spelled out to the byte: 01, standard level 20, T, two routing numbers, a date, a time, N, blanks.
#[test]
fn a_file_header_in_bytes() {
    let written = [
        0xF0, 0xF1, 0xF2, 0xF0, 0xE3, 0xF1, 0xF2, 0xF3, 0xF4, 0xF5, 0xF6, 0xF7, 0xF8, 0xF0, 0xF1, 0xF2, 0xF3, 0xF4,
        0xF5, 0xF6, 0xF7, 0xF8, 0xF0, 0xF2, 0xF0, 0xF0, 0xF5, 0xF0, 0xF2, 0xF3, 0xF0, 0xF2, 0xF3, 0xF5, 0xF9, 0xD5,
    ];
    let header = e(file_header());
    assert_eq!(header[..36], written);
    assert_eq!(header[36..], [0x40; 44]);
    assert_eq!(record_in(Set::Ebcdic, layout(1), &header), Ok(()));
}

#[test]
fn the_smallest_file_is_accepted() {
    let bytes = file(&no_detail());
    assert_eq!(line(&bytes), "accepted records 4 letters 1 bundles 0 items 0 views 0 debit 0");
    assert_eq!(
        copy(&bytes)[..],
        file(&[file_header(), letter_header('N'), letter_control(0, 0, 0, 0), file_control(1, 4, 0, 0)])
    );
}

/// 84 bytes for a record of 80 with its length; a 52 of 139 + 5 takes 148, a 90 takes 89.
#[test]
fn rows_and_totals_are_those_of_the_copy() {
    let bytes = file(&one_view('I', b"image"));
    let rows: Vec<Row> = vec![
        [1, 0, 80, 0, 0, 0, 0],
        [10, 84, 80, 1, 0, 0, 0],
        [20, 168, 80, 1, 1, 0, 0],
        [25, 252, 80, 1, 1, 1, 150],
        [50, 336, 80, 1, 1, 1, 0],
        [52, 420, 144, 1, 1, 1, 0],
        [70, 568, 80, 1, 1, 0, 150],
        [90, 652, 85, 1, 0, 0, 150],
        [99, 741, 80, 0, 0, 0, 150],
    ];
    let reading = read(&bytes);
    assert_eq!(reading.answer.listed(), [0, 9, 0, 825, 9, 1, 1, 1, 1, 150, 0, 0]);
    assert_eq!(reading.rows, rows);
    let of_copy = read(&copy(&bytes));
    assert_eq!((of_copy.answer, of_copy.rows), (reading.answer, rows));
    // The image, from byte 420 + 4 + 139 on, is what it was.
    assert_eq!(picture(&bytes, 420).listed(), [0, 0, 563, 5]);
    assert_eq!(copy(&bytes)[563..568], *b"image");
}

/// Reading 34: F0 F1 at bytes 5 and 6 whatever the first length says, and nothing else.
#[test]
fn the_first_length_does_not_tell_the_set() {
    let sound = file(&no_detail());
    let first_length = |length: u32| [&length.to_be_bytes(), &sound[4..]].concat();
    assert_eq!(placed(&first_length(0)), [4, 1, 0, 0]); // below 2
    assert_eq!(placed(&first_length(1)), [4, 1, 0, 0]);
    assert_eq!(placed(&first_length(2)), [4, 1, 0, 0]); // a 01, and too short: in ASCII it would be TYPE
    assert_eq!(placed(&first_length(79)), [4, 1, 0, 0]);
    assert_eq!(placed(&first_length(81)), [4, 1, 0, 0]);
    assert_eq!(placed(&first_length(sound.len() as u32)), [3, 1, 0, 0]); // four bytes too many
    assert_eq!(placed(&first_length(u32::MAX)), [3, 1, 0, 0]);
    // Where no length frames bytes 5 and 6 as a record, they are kept, and the copy still begins with F0 F1.
    for length in [0, u32::MAX] {
        let kept = first_length(length);
        assert_eq!(copy(&kept)[4..6], [0xF0, 0xF1]);
        assert_eq!(placed(&copy(&kept)), placed(&kept));
    }
}

/// Fewer than six bytes are ASCII; with six the two sets part: in ASCII F0 F1 is no type.
#[test]
fn files_shorter_than_six_bytes() {
    assert_eq!(placed(&[0, 0, 0, 1, 0xF0]), [4, 1, 0, 0]);
    assert_eq!(placed(&[0, 0, 0, 2, 0xF0]), [3, 1, 0, 0]);
    assert_eq!(placed(&[0, 0, 0, 2]), [3, 1, 0, 0]);
    assert_eq!(placed(&[0xF0, 0xF1]), [3, 1, 0, 0]);
    assert_eq!(placed(&[0, 0, 0, 2, 0xF0, 0xF1]), [4, 1, 0, 0]);
    assert_eq!(placed(&[0, 0, 0, 2, 0xF0, 0xF0]), [5, 1, 0, 0]);
    assert_eq!(placed(&[0, 0, 0, 2, 0xF1, 0xF0]), [5, 1, 0, 0]);
    assert_eq!(placed(&[0, 0, 0, 2, b'0', 0xF1]), [5, 1, 0, 0]);
    assert_eq!(placed(&[0, 0, 0, 2, 0xF0, b'1']), [5, 1, 0, 0]);
    assert_eq!(placed(b"\0\0\0\x0201"), [4, 1, 0, 0]);
}

/// An EBCDIC 10 or 99 first: the set is not told, and no ASCII type is named.
#[test]
fn another_first_record_is_no_type() {
    let mut records = no_detail();
    records.remove(0);
    assert_eq!(placed(&file(&records)), [5, 1, 0, 0]);
    // In ASCII a 10 first is out of place.
    assert_eq!(placed(&file(&[letter_header('N')])), [6, 1, 0, 0]);
}

/// ASCII digits, 30 to 39, are no characters in EBCDIC, and EBCDIC digits none in ASCII.
#[test]
fn records_of_the_other_set() {
    let mut records = no_detail();
    records[1] = letter_header('N');
    assert_eq!(placed(&file(&records)), [5, 2, 0, 84]);
    let mut records = no_detail();
    records[0] = file_header();
    assert_eq!(placed(&file(&records)), [5, 2, 0, 84]);
    // The first two bytes alone of the other set: field 2, "20", is then refused.
    let header = with(file_header(), 1, &[0xF0, 0xF1]);
    assert_eq!(placed(&file(&[header])), [7, 1, 2, 0]);
    let header = with(e(file_header()), 1, b"01");
    assert_eq!(placed(&file(&[header])), [7, 1, 2, 0]);
}

/// A field left in the other set. ASCII @ is the EBCDIC blank, 40; a blank, 20, has no counterpart. 99.6 (ANS) is at 41 to 54, 90.6 at 40
/// to 55, 01.14 (AB, the reserved end) at 80.
#[test]
fn fields_of_the_other_set() {
    let control = |bytes: &[u8]| {
        let mut records = no_detail();
        records[3] = with(records[3].clone(), 41, bytes);
        placed(&file(&records))
    };
    let (accepted, refused) = ([0, 4, 0, 341], [7, 4, 6, 257]);
    assert_eq!(control(b"@@@@@@@@@@@@@@"), accepted); // all blank
    assert_eq!(control(b"KLMNOPZ[\\]^`ak"), accepted); // reads .<(+|&!$*);-/,
    assert_eq!(control(b"lmnoyz{|}~\x7F@@@"), accepted); // reads %_>?`:#@'="
    assert_eq!(control(b"CONTACT       "), refused);
    assert_eq!(control(b"K             "), refused);
    assert_eq!(control(b"@@@@@@@@@@@@@0"), refused);
    // The other way round: an ANS field of EBCDIC bytes that are ASCII characters, and one that are not.
    let ascii = |bytes: &[u8]| {
        let last = with(file_control(1, 4, 0, 0), 41, bytes);
        placed(&file(&[file_header(), letter_header('N'), letter_control(0, 0, 0, 0), last]))
    };
    assert_eq!(ascii(&[0x40; 14]), accepted); // @@@@@@@@@@@@@@
    assert_eq!(ascii(&[0x4B, 0x4C, 0x4D, 0x4E, 0x4F, 0x50, 0x5A, 0x5B, 0x5C, 0x5D, 0x5E, 0x60, 0x61, 0x7E]), accepted);
    assert_eq!(ascii(&[0x7F, 0x40, 0x40, 0x40, 0x40, 0x40, 0x40, 0x40, 0x40, 0x40, 0x40, 0x40, 0x40, 0x40]), refused); // "
    assert_eq!(ascii(&[0xC1; 14]), refused);
}

/// Reading 35: the code page's bytes of [ ] ^ ` | are special characters; those that Table 1 prints are none, but 4F, which is the |.
#[test]
fn the_five_characters_of_point_17() {
    let name = |bytes: &[u8]| {
        let mut records = no_detail();
        records[3] = with(records[3].clone(), 41, bytes);
        placed(&file(&records))
    };
    for byte in [0xBA, 0xBB, 0xB0, 0x79, 0x4F] {
        assert_eq!(name(&[byte]), [0, 4, 0, 341], "{byte:02X}");
    }
    for byte in [0x4A, 0x5F, 0xB9, 0x6A] {
        assert_eq!(name(&[byte]), [7, 4, 6, 257], "{byte:02X}");
    }
    // In ASCII 5F is the underscore, 6A is j and 4A is J.
    let ascii = with(file_control(1, 4, 0, 0), 41, b"\x4A\x4F\x5F\x6A[]^`|");
    assert_eq!(placed(&file(&[file_header(), letter_header('N'), letter_control(0, 0, 0, 0), ascii]))[0], 0);
}

/// A byte without a counterpart is in no data type: one field of each.
#[test]
fn bytes_without_a_counterpart_are_in_no_data_type() {
    // Type, position, field, data type.
    let places = [
        (1, 30, 6, "N"),
        (10, 43, 8, "A"),
        (10, 80, 14, "AB"),
        (20, 49, 8, "NB"),
        (1, 7, 4, "NBD"),
        (33, 3, 2, "AN"),
        (50, 35, 13, "ANS"),
        (32, 13, 4, "NBQ"),
        (25, 18, 3, "NBMc"),
        (25, 20, 4, "NBMcd"),
        (25, 30, 5, "NBMcdo"),
    ];
    let sound = |code: u8| match code {
        1 => e(file_header()),
        10 => e(letter_header('I')),
        20 => e(bundle_header()),
        25 => e(check(1, '1', 0)),
        32 => e(return_addendum_a(1, DATE)),
        33 => e(return_addendum_b()),
        _ => e(view_detail('0')),
    };
    for (code, position, field, data_type) in places {
        assert_eq!(record_in(Set::Ebcdic, layout(code), &sound(code)), Ok(()), "type {code}");
        for byte in [0x00, 0x20, 0x30, 0x3F, 0x41, 0x4A, 0x5F, 0x6A, 0x80, 0xB9, 0xEA, 0xFA, 0xFF] {
            let record = with(sound(code), position, &[byte]);
            assert_eq!(
                record_in(Set::Ebcdic, layout(code), &record),
                Err(Flaw::Field(field)),
                "{data_type} {byte:02X}"
            );
        }
    }
    // NBMU and ANS in variable parts: 34.14 and 27.13.
    let captured = e(return_addendum_c("#1-2/3*$ "));
    assert_eq!(record_in(Set::Ebcdic, layout(34), &captured), Ok(()));
    assert_eq!(record_in(Set::Ebcdic, layout(34), &with(captured, 75, &[0xFA])), Err(Flaw::Field(14)));
    let locator = e(check_addendum_b("A/B"));
    assert_eq!(record_in(Set::Ebcdic, layout(27), &with(locator, 75, &[0x6A])), Err(Flaw::Field(13)));
}

/// Reading 38: the letters of Annex B by the set, in either case; I and F want a view, E none, N no bundle.
#[test]
fn letters_of_annex_b() {
    for letter in ['I', 'i', 'F', 'f'] {
        assert_eq!(placed(&file(&one_view(letter, b"")))[0], 0, "{letter}");
        let mut without = one_view(letter, b"");
        without.drain(4..6);
        assert_eq!(placed(&file(&without)), [8, 5, 1, 336], "{letter} without a view");
    }
    for letter in ['E', 'e'] {
        assert_eq!(placed(&file(&one_view(letter, b""))), [8, 5, 1, 336], "{letter} with a view");
    }
    for letter in ['N', 'n'] {
        assert_eq!(placed(&file(&one_view(letter, b""))), [8, 3, 1, 168], "{letter} with a bundle");
    }
    // The ASCII letters themselves: 49, 46, 45 and 4E, of which the last is a plus sign.
    for letter in *b"IFEN" {
        let mut records = no_detail();
        records[1] = with(records[1].clone(), 43, &[letter]);
        assert_eq!(placed(&file(&records)), [7, 2, 8, 84]);
    }
}

/// Reading 38: MICR valid, usage indicator, signature indicator, blanks of 52.7 and 52.8, clipping's 0, record numbers, counts, totals.
#[test]
fn single_characters_are_read_by_the_set() {
    let mut records = one_view('I', b"");
    records[6] = e(bundle_control(1, 150, "000000000000", 1));
    assert_eq!(placed(&file(&records)), [9, 7, 4, 84 * 5 + 143]); // the 25 is MICR valid, F1
    let mut records = one_view('I', b"");
    records[4] = e(view_detail('1'));
    assert_eq!(placed(&file(&records)), [8, 6, 7, 420]); // 52.7 is all blank, 40s
    records[5] = with(records[5].clone(), 53, &[0xC1]);
    assert_eq!(placed(&file(&records)), [8, 6, 8, 420]);
    records[5] = with(records[5].clone(), 69, &[0x5A]);
    assert_eq!(placed(&file(&records))[0], 0);
    let mut records = one_view('I', b"");
    records[5] = with(records[5].clone(), 94, &e(b"0001".to_vec())); // v1 beside origin 0
    assert_eq!(placed(&file(&records)), [7, 6, 12, 420]);
    records[5] = with(records[5].clone(), 85, &[0xF1]);
    assert_eq!(placed(&file(&records))[0], 0);
    for (usage, sums) in [('9', ((1, 70), (0, 0))), ('1', ((0, 0), (1, 70))), (' ', ((0, 0), (1, 70)))] {
        let (debits, credits) = sums;
        let total = file_sums(1, 5, 1, debits.1, credits.1);
        let records =
            [file_header(), letter_header('N'), credit(usage, 70), letter_sums(0, debits, 0, credits), total].map(e);
        assert_eq!(placed(&file(&records))[0], 0, "usage '{usage}'");
        let listed = read(&file(&records)).answer.listed();
        assert_eq!(listed[9..], [debits.1, credits.0, credits.1]);
    }
    // A second 26 that calls itself 1, and a count that is not met.
    let items = |records: &[Vec<u8>]| -> Vec<u8> {
        let whole = [vec![file_header(), letter_header('E'), bundle_header()], records.to_vec()].concat();
        file(&whole.into_iter().map(e).collect::<Vec<_>>())
    };
    let addenda = [check(1, ' ', 2), check_addendum_a(1), check_addendum_a(1)];
    assert_eq!(placed(&items(&addenda)), [8, 6, 2, 84 * 4 + 119]);
    assert_eq!(placed(&items(&[check(1, ' ', 1), check(1, ' ', 0)])), [8, 5, 1, 336]);
}

/// Links are byte by byte: the small letter in 52.4 is another than the capital of 20.9.
#[test]
fn links_are_byte_by_byte() {
    let mut records = one_view('I', b"");
    records[5] = with(records[5].clone(), 20, &e(b"aB".to_vec()));
    assert_eq!(placed(&file(&records)), [8, 6, 4, 420]);
}

/// Image bytes are never translated and never judged, whatever they look like; the picture call goes by the file's first record, at any
/// offset, so that it takes an EBCDIC 52 within an image for one, and an ASCII 52 for none.
#[test]
fn images_that_look_like_records() {
    let ebcdic_52 = file(&[e_view(view_data(b"\0picture"))]);
    let ascii_52 = file(&[view_data(b"\0picture")]);
    let image = [&ebcdic_52[..], &ascii_52, &[0xF0, 0xF1, 0, 0xFF]].concat();
    assert_eq!((ebcdic_52.len(), ascii_52.len()), (151, 151));
    let bytes = file(&one_view('I', &image));
    assert_eq!(placed(&bytes)[0], 0);
    let start = 420 + 4 + 139;
    assert_eq!(picture(&bytes, 420).listed(), [0, 0, start, 306]);
    assert_eq!(picture(&bytes, start).listed(), [0, 0, start + 143, 8]);
    assert_eq!(picture(&bytes, start + 151).listed(), [5, 0, 0, 0]);
    let copied = copy(&bytes);
    assert_eq!(copied[start as usize..start as usize + 306], image[..]);
    assert_eq!(picture(&copied, 420).listed(), [0, 0, start, 306]);
    assert_eq!(picture(&copied, start).listed(), [5, 0, 0, 0]);
    assert_eq!(picture(&copied, start + 151).listed(), [0, 0, start + 151 + 143, 8]);
}

/// The picture call without a first record of EBCDIC: an EBCDIC 52 is no type, at its own offset too.
#[test]
fn the_picture_call_goes_by_the_first_record() {
    let view = e_view(view_data(b"x"));
    assert_eq!(picture(&file(&[file_header(), view.clone()]), 84).listed(), [5, 0, 0, 0]);
    assert_eq!(picture(&file(&[e(file_header()), view.clone()]), 84).listed(), [0, 0, 227, 1]);
    assert_eq!(picture(&file(&[view]), 0).listed(), [5, 0, 0, 0]);
    assert_eq!(picture(&file(&[e(file_header()), view_data(b"x")]), 84).listed(), [5, 0, 0, 0]);
    assert_eq!(picture(&file(&[e(file_header())]), 0).listed(), [5, 0, 0, 0]);
    // The bytes tell the set even where the first record is nothing.
    let odd = [&[0, 0, 0, 0][..], &[0xF0, 0xF1], &file(&[e_view(view_data(b"x"))])].concat();
    assert_eq!(picture(&odd, 6).listed(), [0, 0, 6 + 143, 1]);
}

#[test]
fn the_samples_are_as_worked_out_and_the_folder_holds_them() {
    let folder = std::path::Path::new(env!("CARGO_MANIFEST_DIR")).join("../samples/ebcdic");
    let expected = std::fs::read_to_string(folder.join("expected.txt")).expect("expected.txt");
    assert_eq!(expected.lines().count(), samples().len());
    for (listed, sample) in expected.lines().zip(samples()) {
        assert_eq!(line(&sample.bytes), sample.line, "{}", sample.name);
        assert_eq!(listed, format!("{}\t{}", sample.name, sample.line));
        assert_eq!(std::fs::read(folder.join(sample.name)).expect("a sample"), sample.bytes);
    }
}

/// A 52 whose lengths do not add up is refused for them in both; its part lengths are read by the set.
#[test]
fn lengths_of_parts() {
    let mut records = one_view('I', b"image");
    records[5].push(b'x');
    assert_eq!(placed(&file(&records)), [4, 6, 0, 420]);
    let mut records = one_view('I', b"image");
    records[5] = with(records[5].clone(), 134, b"5"); // an ASCII digit in 52.20
    assert_eq!(placed(&file(&records)), [7, 6, 20, 420]);
}
