//! Small files in EBCDIC (request 5), made of the records of `plain`, each with the line that document 01 calls for, worked out by hand. They
//! stand in a folder of their own with a list of their own, until the proved library carries EBCDIC.
//!
//! With its length a record takes 84 bytes; a 61 takes 88, a 90 takes 89, a bare 52 143.

use crate::charset::Set;
use crate::plain::*;
use crate::samples::Sample;

fn sample(name: &'static str, records: &[Vec<u8>], line: &'static str) -> Sample {
    Sample { name, bytes: file(records), line }
}

/// A record of characters alone.
fn e(record: Vec<u8>) -> Vec<u8> {
    Set::Ebcdic.bytes(&record)
}

/// A 52: its fixed part of 139 characters; the image behind it is kept.
fn e_view(image: &[u8]) -> Vec<u8> {
    [&Set::Ebcdic.bytes(&view_data(image)[..139]), image].concat()
}

/// Bytes at a position of a record.
fn with(mut record: Vec<u8>, position: usize, bytes: &[u8]) -> Vec<u8> {
    record[position - 1..position - 1 + bytes.len()].copy_from_slice(bytes);
    record
}

/// 01, 10 of N, 90, 99.
fn no_detail() -> Vec<Vec<u8>> {
    [file_header(), letter_header('N'), letter_control(0, 0, 0, 0), file_control(1, 4, 0, 0)].map(e).to_vec()
}

/// The same with another record in a place.
fn no_detail_but(place: usize, record: Vec<u8>) -> Vec<Vec<u8>> {
    let mut records = no_detail();
    records[place] = record;
    records
}

/// 99 with these bytes in its field 6, the contact name, at 41 to 54.
fn contact(bytes: &[u8]) -> Vec<u8> {
    with(e(file_control(1, 4, 0, 0)), 41, bytes)
}

/// 01, 10, 20, a 25 of 1.50 that is MICR valid, a 50, a 52 with an image, 70, 90, 99.
fn one_view(content: char, image: &[u8], micr_valid: &str) -> Vec<Vec<u8>> {
    let mut records =
        [file_header(), letter_header(content), bundle_header(), check(150, '1', 0), view_detail('0')].map(e).to_vec();
    records.push(e_view(image));
    let controls = [bundle_control(1, 150, micr_valid, 1), letter_control(1, 1, 150, 1), file_control(1, 9, 1, 150)];
    records.extend(controls.map(e));
    records
}

/// A 31 with the addenda 32, 32, 33, 34 and 35, marks among them; a credit of 70 and a debit of 30 by 61s in the letter.
fn returns_and_credits() -> Vec<Vec<u8>> {
    [
        file_header(),
        letter_header('e'),
        credit('1', 70),
        credit('9', 30),
        bundle_header(),
        returned(42, 5),
        return_addendum_a(1, DATE),
        return_addendum_a(2, "2005????"),
        return_addendum_b(),
        return_addendum_c("#123456780# 1-2/3*$"),
        return_addendum_d(1),
        bundle_control(1, 42, NOT_STATED, 0),
        letter_sums(1, (2, 72), 0, (1, 70)),
        file_sums(1, 14, 3, 72, 70),
    ]
    .map(e)
    .to_vec()
}

/// An image that holds an EBCDIC 52, an ASCII 52 and F0 F1.
fn records_in_an_image() -> Vec<u8> {
    [&file(&[e_view(b"inner")]), &file(&[view_data(b"inner")])[..], &[0xF0, 0xF1]].concat()
}

/// The first bytes of a file and nothing more.
fn beginning(length: usize) -> Vec<u8> {
    let mut bytes = file(&no_detail());
    bytes[..4].copy_from_slice(&[0, 0, 0, 2]);
    bytes.truncate(length);
    bytes
}

pub fn samples() -> Vec<Sample> {
    let four = "accepted records 4 letters 1 bundles 0 items 0 views 0 debit 0";
    let nine = "accepted records 9 letters 1 bundles 1 items 1 views 1 debit 150";
    let ascii_header = with(file_header(), 1, &[0xF0, 0xF1]);
    vec![
        sample("sound-1-no-detail.x9", &no_detail(), four),
        sample("sound-2-check-with-view.x9", &one_view('I', b"\0\xF0image\x40\x20", "000000000150"), nine),
        sample(
            "sound-3-returns-and-credits.x9",
            &returns_and_credits(),
            "accepted records 14 letters 1 bundles 1 items 3 views 0 debit 72",
        ),
        // [ ] ^ ` | by code page 037, not by Table 1's column (reading 35).
        sample("sound-4-point-17.x9", &no_detail_but(3, contact(&[0xBA, 0xBB, 0xB0, 0x79, 0x4F])), four),
        sample("sound-5-records-in-an-image.x9", &one_view('f', &records_in_an_image(), "            "), nine),
        // ASCII at signs are EBCDIC blanks.
        sample("sound-6-at-signs.x9", &no_detail_but(3, contact(b"@@@@@@@@@@@@@@")), four),
        // What Table 1 prints for [ has no counterpart in code page 037.
        sample(
            "damaged-1-no-counterpart.x9",
            &no_detail_but(3, contact(&[0x4A])),
            "refused 7 record 4 field 6 offset 257",
        ),
        sample(
            "damaged-2-ascii-record.x9",
            &no_detail_but(1, letter_header('N')),
            "refused 5 record 2 field 0 offset 84",
        ),
        sample("damaged-3-ascii-header.x9", &no_detail_but(0, ascii_header), "refused 7 record 1 field 2 offset 0"),
        sample(
            "damaged-4-half-turned.x9",
            &no_detail_but(0, with(e(file_header()), 2, b"1")),
            "refused 5 record 1 field 0 offset 0",
        ),
        // In ASCII these six bytes would be TYPE, and five of them are CUT in either set.
        Sample { name: "damaged-5-six-bytes.x9", bytes: beginning(6), line: "refused 4 record 1 field 0 offset 0" },
        Sample { name: "damaged-6-five-bytes.x9", bytes: beginning(5), line: "refused 3 record 1 field 0 offset 0" },
        // The letter of Annex B is read by the set: E, C5, and a view.
        sample(
            "damaged-7-view-under-e.x9",
            &one_view('E', b"", "000000000150"),
            "refused 8 record 5 field 1 offset 336",
        ),
        // 84 x 5 + 143.
        sample("damaged-8-micr-total.x9", &one_view('I', b"", "000000000000"), "refused 9 record 7 field 4 offset 563"),
    ]
}
