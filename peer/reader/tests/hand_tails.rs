//! Cases of request 7, worked out by hand from documents 01 and 02 and reading 40: what stands behind the record that a fault
//! names changes nothing, and behind an accepted file nothing may stand. Records are spelled out in `plain`. With its length a record of 80
//! bytes takes 84, a 90 takes 89.

use peer_reader::copy::to_ebcdic;
use peer_reader::descent::read_into;
use peer_reader::plain::*;

/// Number, record, field, offset, with each of several tables; a refusal leaves the table alone and has no totals.
fn placed(bytes: &[u8]) -> [u64; 4] {
    let answers: [[u64; 4]; 6] = [0, 6, 7, 27, 28, 700].map(|length| {
        let mut table = vec![0xA5; length];
        let listed = read_into(bytes, &mut table).listed();
        if listed[0] != 0 {
            assert_eq!(listed[4..], [0; 8]);
            assert!(table.iter().all(|number| *number == 0xA5));
        }
        [listed[0], listed[1], listed[2], listed[3]]
    });
    if answers[5][0] != 0 {
        assert_eq!(answers, [answers[5]; 6]);
    }
    answers[5]
}

/// A file and its version in EBCDIC.
fn in_both_sets(file: Vec<u8>) -> [Vec<u8>; 2] {
    let version = to_ebcdic(&file);
    [file, version]
}

/// 01, 10 of N, 90, 99: 84 + 84 + 89 + 84 = 341 bytes.
fn smallest() -> Vec<u8> {
    file(&[file_header(), letter_header('N'), letter_control(0, 0, 0, 0), file_control(1, 4, 0, 0)])
}

/// Files that end with the record at fault, with their answers, and their lengths, where the record ends.
fn own_faults() -> Vec<(Vec<u8>, [u64; 4], usize)> {
    let header = || vec![file_header()];
    let letter = |content| vec![file_header(), letter_header(content)];
    let behind = |mut records: Vec<Vec<u8>>, record: Vec<u8>| {
        records.push(record);
        file(&records)
    };
    vec![
        (behind(header(), b"68".to_vec()), [5, 2, 0, 84], 84 + 4 + 2),
        (behind(header(), file_control(0, 2, 0, 0)), [6, 2, 0, 84], 168),
        (behind(header(), Vec::new()), [4, 2, 0, 84], 84 + 4),
        (behind(header(), b"1".to_vec()), [4, 2, 0, 84], 84 + 4 + 1),
        (behind(header(), b"10".to_vec()), [4, 2, 0, 84], 84 + 4 + 2),
        (behind(header(), [letter_header('N'), b" ".to_vec()].concat()), [4, 2, 0, 84], 84 + 4 + 81),
        (behind(header(), letter_header('X')), [7, 2, 8, 84], 168),
        (behind(letter('N'), bundle_header()), [8, 3, 1, 168], 252),
        (behind(letter('E'), letter_control(0, 0, 0, 0)), [8, 3, 1, 168], 257),
        (behind(letter('N'), letter_control(1, 0, 0, 0)), [9, 3, 2, 168], 257),
        (smallest_with(file_control(1, 5, 0, 0)), [9, 4, 3, 257], 341),
        (file(&[file_control(0, 1, 0, 0)]), [6, 1, 0, 0], 84),
    ]
}

/// The smallest file with another 99.
fn smallest_with(control: Vec<u8>) -> Vec<u8> {
    [&smallest()[..257], &file(&[control])].concat()
}

/// Tails of every sort: none, bytes that are no length, lengths that are too long, records that would be right or wrong, a whole file, zeros.
fn tails() -> Vec<Vec<u8>> {
    let mut tails: Vec<Vec<u8>> =
        [&b""[..], b"\0", b"\n", b"\xF0\xF1", b"\0\0\0\0", b"\0\0\0\x50", b"\0\0\0\x02\xF9\xF9", b"\xFF\xFF\xFF\xFF"]
            .map(<[u8]>::to_vec)
            .to_vec();
    let rest = [letter_header('N'), letter_control(0, 0, 0, 0), file_control(1, 4, 0, 0)];
    for first in 0..rest.len() {
        tails.extend(in_both_sets(file(&rest[first..])));
    }
    tails.extend(in_both_sets(smallest()));
    tails.push(vec![0; 100_000]);
    tails
}

#[test]
fn what_stands_behind_the_record_at_fault_changes_nothing() {
    for (file, answer, end) in own_faults() {
        assert_eq!(file.len(), end, "{answer:?}");
        for version in in_both_sets(file) {
            for tail in tails() {
                let whole = [&version[..], &tail].concat();
                assert_eq!(placed(&whole), answer_in(&version, answer), "{} bytes behind", tail.len());
            }
        }
    }
}

/// A file that begins with no 01 tells no set: its version in EBCDIC is read as ASCII, in which its type is none.
fn answer_in(version: &[u8], answer: [u64; 4]) -> [u64; 4] {
    match version[4..6] {
        [0xF9, 0xF9] => [5, 1, 0, 0],
        _ => answer,
    }
}

/// The record is not judged until all of it is there.
#[test]
fn one_byte_less_is_a_cut() {
    for (file, [_, record, _, offset], end) in own_faults() {
        for version in in_both_sets(file) {
            assert_eq!(placed(&version[..end - 1]), [3, record, 0, offset]);
        }
    }
}

/// The records of the smallest file end at 84, 168, 257 and 341.
#[test]
fn every_beginning_of_an_accepted_file_is_cut_or_open() {
    for version in in_both_sets(smallest()) {
        for keep in 0..341 {
            let expected = match keep as u64 {
                0 => [1, 0, 0, 0],
                1..84 => [3, 1, 0, 0],
                84 => [10, 2, 0, 84],
                85..168 => [3, 2, 0, 84],
                168 => [10, 3, 0, 168],
                169..257 => [3, 3, 0, 168],
                257 => [10, 4, 0, 257],
                _ => [3, 4, 0, 257],
            };
            assert_eq!(placed(&version[..keep]), expected, "{keep} bytes");
        }
        assert_eq!(placed(&version), [0, 4, 0, 341]);
    }
}

#[test]
fn behind_an_accepted_file_nothing_may_stand() {
    for version in in_both_sets(smallest()) {
        for byte in 0..=255 {
            assert_eq!(placed(&[&version[..], &[byte]].concat()), [11, 5, 0, 341]);
        }
        for tail in tails().into_iter().filter(|tail| !tail.is_empty()) {
            assert_eq!(placed(&[&version[..], &tail].concat()), [11, 5, 0, 341]);
        }
    }
}

/// Four rows are needed. Too few give ROOM, however few they are, and a byte more is AFTER whatever the table.
#[test]
fn room_hangs_on_the_rows_alone() {
    for version in in_both_sets(smallest()) {
        for length in 0..35 {
            let answer = |bytes: &[u8]| read_into(bytes, &mut vec![0; length]).listed()[..4].to_vec();
            let expected = if length < 28 { [2, 4, 0, 0] } else { [0, 4, 0, 341] };
            assert_eq!(answer(&version), expected, "{length} numbers");
            assert_eq!(answer(&[&version[..], b" "].concat()), [11, 5, 0, 341], "{length} numbers");
        }
    }
}

/// 01 and a 10 of N, and then anything: nothing is found at record 1 or 2 any more, and the right records mend it.
#[test]
fn the_records_before_an_open_end_stand() {
    for version in in_both_sets(smallest()) {
        let open = &version[..168];
        for tail in tails().into_iter().filter(|tail| !tail.is_empty()) {
            let answer = placed(&[open, &tail].concat());
            assert!(answer[1] >= 3 && answer[3] >= 168, "{answer:?}");
        }
        assert_eq!(placed(&[open, &version[168..]].concat()), [0, 4, 0, 341]);
    }
}

/// Bytes 5 and 6 tell the set. A first length below 2 is refused before they are looked at, and stays so whichever set they bring.
#[test]
fn a_first_length_below_two_is_refused_in_either_set() {
    for behind in [&b""[..], b"\xF0\xF1", b"01", b"\xF1\xF0\xF1"] {
        assert_eq!(placed(&[b"\0\0\0\0", behind].concat()), [4, 1, 0, 0]);
        assert_eq!(placed(&[b"\0\0\0\x01\xF0", behind].concat()), [4, 1, 0, 0]);
    }
    assert_eq!(placed(b"\0\0\0\x01"), [3, 1, 0, 0]);
}

/// "Two files within the size limit": zeros up to it change nothing, and one more makes it SIZE.
#[test]
fn past_the_limit_it_is_the_size() {
    let (fault, answer, _) = own_faults().swap_remove(1);
    for (file, answer) in [(fault, answer), (smallest(), [11, 5, 0, 341])] {
        let mut longest = vec![0; 268_435_456];
        longest[..file.len()].copy_from_slice(&file);
        assert_eq!(placed(&longest), answer);
        let mut too_long = vec![0; 268_435_457];
        too_long[..file.len()].copy_from_slice(&file);
        assert_eq!(placed(&too_long), [1, 0, 0, 0]);
    }
}
