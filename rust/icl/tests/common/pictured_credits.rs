//! A sound file of two cash letters with credits, in bundles and directly in the letters, whose views hold real pictures. It is made of
//! the independent side's records and pictures, which share no code with the proved reader.

use peer_reader::pictures::tiff;
use peer_reader::plain::*;

/// The line of document 01 for the file, worked out by hand.
///
/// Letter 1: directly a 61 of usage 1 and 165.57, front and back. Bundle 1: a 61 of usage 7 and 165.50 with its front; 25s of 125.50 and 40.00, front
/// and back each; a 61 of usage 9 and 2.50. Directly a 61 of usage 8 and 2.50. Bundle 2: a 25 of 0.07, front and back. Directly a 61 of usage 7 and
/// 0.07 with its front. Letter 2: bundle 1: a 31 of 310.00 with its 33, front and back; a 61 of usage 6 and 310.00 with its front. Directly a
/// 61 of usage 7 and 1,000.00 with its front.
///
/// Views: 2 + 1 + 4 + 2 + 1 in letter 1, 2 + 1 + 1 in letter 2, together 14. Items: three 25s, a 31, seven 61s: 11. Records: 01, 99, two 10s, two 90s,
/// three 20s and 70s, the 11 items, the 33 and 28 of views: 2 + 4 + 6 + 11 + 1 + 28 = 52. Debits of letter 1: 12550 + 4000 + 250 + 7 = 16807, of
/// letter 2: 31000, together 47807. Credits of letter 1: 16557 + 16550 + 250 + 7 = 33364, of letter 2: 31000 + 100000, together 164364.
pub const LINE: &str = "accepted records 52 letters 2 bundles 3 items 11 views 14 debit 47807";

/// What the 52s of a bundle, or of the credits directly in a letter, repeat of its header: institution and business date.
#[derive(Clone, Copy)]
struct Header {
    institution: &'static str,
    date: &'static str,
}

const OF_LETTERS: Header = Header { institution: "222222226", date: "20240116" };
const OF_BUNDLES: Header = Header { institution: ROUTING, date: "20240115" };

/// The bytes of the file.
pub fn pictured_credits() -> Vec<u8> {
    let records =
        [vec![put(file_header(), 24, "20240116")], letter_1(), letter_2(), vec![file_sums(2, 52, 11, 47_807, 164_364)]];
    file(&records.concat())
}

fn letter_1() -> Vec<Vec<u8>> {
    [
        vec![letter("LOCKBOX1")],
        lockbox_credit('1', 16_557, "000000000000301"),
        views(OF_LETTERS, "000000000000301", &[1, 1], 2),
        vec![bundle("0001")],
        lockbox_credit('7', 16_550, "000000000000302"),
        views(OF_BUNDLES, "000000000000302", &[1, 1, 1], 1),
        vec![put(check(12_550, '1', 0), 58, "000000000000101")],
        views(OF_BUNDLES, "000000000000101", &[1, 1, 2], 2),
        vec![put(check(4_000, '2', 0), 58, "000000000000102")],
        views(OF_BUNDLES, "000000000000102", &[1, 1, 3], 2),
        lockbox_credit('9', 250, "000000000000303"),
        // Debits: 12550 + 4000 + 250, of which the first is MICR valid.
        vec![bundle_sums((3, 16_800), "000000012550", 5, (1, 16_550))],
        lockbox_credit('8', 250, "000000000000304"),
        vec![bundle("0002"), put(check(7, ' ', 0), 58, "000000000000103")],
        views(OF_BUNDLES, "000000000000103", &[1, 2, 1], 2),
        vec![bundle_sums((1, 7), NOT_STATED, 2, (0, 0))],
        lockbox_credit('7', 7, "000000000000305"),
        views(OF_LETTERS, "000000000000305", &[1, 3], 1),
        vec![letter_sums(2, (4, 16_807), 10, (4, 33_364))],
    ]
    .concat()
}

fn letter_2() -> Vec<Vec<u8>> {
    [
        vec![letter("LOCKBOX2"), bundle("0001"), put(returned(31_000, 1), 58, "000000000000201"), return_addendum_b()],
        views(OF_BUNDLES, "000000000000201", &[2, 1, 1], 2),
        lockbox_credit('6', 31_000, "000000000000306"),
        views(OF_BUNDLES, "000000000000306", &[2, 1, 2], 1),
        vec![bundle_sums((1, 31_000), NOT_STATED, 3, (1, 31_000))],
        lockbox_credit('7', 100_000, "000000000000307"),
        views(OF_LETTERS, "000000000000307", &[2, 1], 1),
        vec![letter_sums(1, (1, 31_000), 4, (2, 131_000))],
    ]
    .concat()
}

/// A cash letter header with its ID (10.10): institution at position 14, dates at 23 and 31.
fn letter(id: &str) -> Vec<u8> {
    let header = put(put(letter_header('I'), 14, OF_LETTERS.institution), 23, OF_LETTERS.date);
    put(put(header, 31, OF_LETTERS.date), 45, id)
}

/// A bundle header with its sequence number (20.8).
fn bundle(sequence: &str) -> Vec<u8> {
    put(put(bundle_header(), 23, OF_BUNDLES.date), 49, sequence)
}

/// A 61 with its sequence number (61.8), from a lockbox (61.11 is 09).
fn lockbox_credit(usage: char, cents: u64, sequence: &str) -> Vec<Vec<u8>> {
    vec![put(put(credit(usage, cents), 63, sequence), 80, "09")]
}

/// The front of an item, and its back where there are two views. Each picture shows the ordinals that lead to it and then its own: cash letter, bundle
/// and item, or cash letter and credit for a 61 that stands directly in its letter.
fn views(header: Header, sequence: &str, ordinals: &[usize], count: usize) -> Vec<Vec<u8>> {
    let view = |number: usize| {
        let side = if number == 1 { "0" } else { "1" };
        let data = put(view_data(&tiff(&[ordinals, &[number]].concat())), 3, header.institution);
        [put(put(view_detail('0'), 13, header.date), 26, side), put(put(data, 12, header.date), 22, sequence)]
    };
    (1..=count).flat_map(view).collect()
}
