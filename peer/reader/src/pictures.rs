//! A sound file of two cash letters whose views hold real pictures: small TIFF files, Group 4, in the form of X9.100-181. Each picture
//! shows bars to count, first the ordinal of its cash letter, then those of its bundle, item and view, so that a picture taken for
//! another's is seen.

use crate::plain::*;

/// The line of document 01 for the file, worked out by hand.
///
/// Letter 1, bundle 1: a 25 of 125.50 with a 26 and a 28, front and back with a 54 after the back; a 25 of 40.00, front and back.
/// Letter 1, bundle 2: a 25 of 0.07, front and back. Letter 2, bundle 1: a 31 of 310.00 with a 32, the 33 and a 35, front and back.
/// Records: 01, 99, two 10s, two 90s, three 20s and 70s, three 25s with 2 addenda, a 31 with 3, eight views of 2, a 54:
/// 2 + 4 + 6 + 5 + 4 + 16 + 1 = 38. Cents: 12550 + 4000 + 7 = 16557 in letter 1, 31000 in letter 2, together 47557.
pub const LINE: &str = "accepted records 38 letters 2 bundles 3 items 4 views 8 debit 47557";

/// The bytes of the file.
pub fn pictured() -> Vec<u8> {
    let mut records = vec![with(file_header(), &[(24, "20240116")])];

    records.push(with(letter_header('I'), &[(23, "20240115"), (31, "20240115"), (45, "LETTER01")]));
    records.push(with(bundle_header(), &[(23, "20240115"), (49, "0001")]));
    records.push(with(check(12_550, '1', 2), &[(19, "111111118"), (58, "000000000000101")]));
    records.push(with(check_addendum_a(1), &[(4, "222222226"), (13, "20240112"), (21, "000000000000901")]));
    records.push(with(check_addendum_c(1), &[(5, "333333334"), (14, "20240113"), (22, "000000000000902")]));
    views(&mut records, "20240115", "000000000000101", [1, 1, 1]);
    records.push(view_analysis());
    records.push(with(check(4_000, '2', 0), &[(19, "222222226"), (58, "000000000000102")]));
    views(&mut records, "20240115", "000000000000102", [1, 1, 2]);
    records.push(bundle_control(2, 16_550, "000000012550", 4));
    records.push(with(bundle_header(), &[(23, "20240115"), (49, "0002")]));
    records.push(with(check(7, '1', 0), &[(19, "333333334"), (58, "000000000000103")]));
    views(&mut records, "20240115", "000000000000103", [1, 2, 1]);
    records.push(bundle_control(1, 7, NOT_STATED, 2));
    records.push(letter_control(2, 3, 16_557, 6));

    records.push(with(letter_header('I'), &[(23, "20240116"), (31, "20240116"), (45, "LETTER02")]));
    records.push(with(bundle_header(), &[(23, "20240116"), (49, "0001")]));
    records.push(with(returned(31_000, 3), &[(19, "111111118"), (58, "000000000000201")]));
    records.push(with(return_addendum_a(1, "20240112"), &[(4, "222222226"), (21, "000000000000903")]));
    records.push(return_addendum_b());
    records.push(with(return_addendum_d(1), &[(5, "333333334"), (14, "20240114"), (22, "000000000000904")]));
    views(&mut records, "20240116", "000000000000201", [2, 1, 1]);
    records.push(bundle_control(1, 31_000, NOT_STATED, 2));
    records.push(letter_control(1, 1, 31_000, 2));

    records.push(file_control(2, 38, 4, 47_557));
    file(&records)
}

/// Puts texts at positions of a record, the first being position 1.
fn with(mut record: Vec<u8>, texts: &[(usize, &str)]) -> Vec<u8> {
    for (position, text) in texts {
        record[position - 1..position - 1 + text.len()].copy_from_slice(text.as_bytes());
    }
    record
}

/// The front and the back of an item: 52 field 3 is its bundle's date, field 5 its sequence number, 50 field 8 the side.
fn views(records: &mut Vec<Vec<u8>>, date: &str, sequence: &str, item: [usize; 3]) {
    for (side, view) in [("0", 1), ("1", 2)] {
        let [letter, bundle, item] = item;
        records.push(with(view_detail('0'), &[(13, date), (26, side)]));
        records.push(with(view_data(&tiff(&[letter, bundle, item, view])), &[(12, date), (22, sequence)]));
    }
}

/// A picture 64 dots wide that shows these numbers as groups of bars.
pub fn tiff(numbers: &[usize]) -> Vec<u8> {
    let mut black = vec![false; 8];
    for number in numbers {
        for _ in 0..*number {
            black.extend([true, true, true, true, false, false, false, false]);
        }
        black.extend([false; 8]);
    }
    let strip = group4(&black);
    let lines = black.len() as u32;
    const ENTRIES: u32 = 9;
    let resolution = 8 + 2 + ENTRIES * 12 + 4; // after the header and the directory
    let entries: [(u16, u16, u32); ENTRIES as usize] = [
        (256, 3, 64),                 // ImageWidth
        (257, 3, lines),              // ImageLength
        (259, 3, 4),                  // Compression: Group 4
        (262, 3, 0),                  // PhotometricInterpretation: 0 is white
        (273, 4, resolution + 16),    // StripOffsets
        (278, 3, lines),              // RowsPerStrip
        (279, 4, strip.len() as u32), // StripByteCounts
        (282, 5, resolution),         // XResolution
        (283, 5, resolution + 8),     // YResolution
    ];
    let mut bytes = b"II\x2A\0\x08\0\0\0".to_vec();
    bytes.extend((ENTRIES as u16).to_le_bytes());
    for (tag, kind, value) in entries {
        bytes.extend(tag.to_le_bytes());
        bytes.extend(kind.to_le_bytes());
        bytes.extend(1u32.to_le_bytes());
        bytes.extend(value.to_le_bytes());
    }
    bytes.extend([0; 4]);
    for number in [200u32, 1, 200, 1] {
        bytes.extend(number.to_le_bytes());
    }
    bytes.extend(strip);
    bytes
}

/// Lines that are all white or all black, 64 dots wide, in the code of ITU-T T.6, with the end-of-block code.
fn group4(black: &[bool]) -> Vec<u8> {
    let mut bits = String::new();
    let mut above = false;
    for line in black {
        bits.push_str(match (above, line) {
            // As above: one change at the end, or changes at the start and at the end, each V(0).
            (false, false) => "1",
            (true, true) => "11",
            // Horizontal mode: white 0, black 64 + 0; or white 64 + 0, black 0.
            (false, true) => concat!("001", "00110101", "0000001111", "0000110111"),
            (true, false) => concat!("001", "11011", "00110101", "0000110111"),
        });
        above = *line;
    }
    bits.push_str("000000000001000000000001");
    let byte = |bits: &[u8]| bits.iter().fold(0, |byte, bit| byte << 1 | (bit - b'0')) << (8 - bits.len());
    bits.as_bytes().chunks(8).map(byte).collect()
}
