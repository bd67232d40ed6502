//! The promises of reading 44 and the statement of reading 43, over the generator's drafts and the reader's files.

use peer_reader::charset::Set;
use peer_reader::descent::{Number, LARGEST};
use peer_reader::random::Random;
use peer_reader::{ebcdic, stream};

use peer_writer::asked::buffer_lengths;
use peer_writer::complete::complete;
use peer_writer::draft::Draft;
use peer_writer::generate::{self, draft};
use peer_writer::promises::{as_the_reader_would, written_again, written_is_accepted};
use peer_writer::sheet::{lay, Manner};
use peer_writer::write::{judge, write};

/// The drafts of the stream but for the large ones.
fn drafts(seed: u64, count: u64) -> impl Iterator<Item = (u64, peer_writer::sheet::Made)> {
    (0..count).filter(|index| index % 2_500 != 1_250).map(move |index| (index, draft(seed, index)))
}

/// Every buffer: the answer is ROOM exactly where the bytes exceed it; a refusal leaves it as it was, and so do its bytes after the file.
#[test]
fn what_is_written_is_accepted_with_the_values_given() {
    let (mut written, mut refused) = (0, 0);
    for (index, made) in drafts(1, 4_000) {
        let name = format!("draft {index}, {}", made.shape);
        let verdict = judge(&made.text, &made.numbers);
        for room in buffer_lengths(&verdict, &mut Random::for_file(9, index)) {
            let mut out = vec![0xA5; room];
            let answer = write(&made.text, &made.numbers, &mut out);
            let needed = verdict.answer.offset as usize;
            match answer.number {
                Number::Accepted => {
                    assert!(needed <= room && out[needed..].iter().all(|byte| *byte == 0xA5), "{name}");
                    let held = written_is_accepted(&made.text, &made.numbers, &answer, &out[..needed]);
                    assert_eq!(held, Ok(()), "{name}");
                    written += 1;
                }
                number => {
                    assert!(out.iter().all(|byte| *byte == 0xA5), "{name}");
                    assert_eq!(number == Number::Room, verdict.answer.number == Number::Accepted, "{name}");
                    assert!(number != Number::Room || needed > room, "{name}");
                    refused += 1;
                }
            }
        }
    }
    assert!(written > 2_000 && refused > 2_000, "{written} written, {refused} refused");
}

/// Reading 43: the writer's refusals are the reader's own answers to the completed records, and what it writes are those records.
#[test]
fn the_writer_answers_as_the_reader_would() {
    let mut said = 0;
    for (index, made) in drafts(2, 6_000) {
        let verdict = judge(&made.text, &made.numbers);
        let held = as_the_reader_would(&made.text, &made.numbers, &verdict.answer);
        said += u64::from(held.unwrap_or_else(|words| panic!("draft {index}, {}: {words}", made.shape)));
        if verdict.answer.number == Number::Accepted {
            let mut out = vec![0; verdict.answer.offset as usize];
            write(&made.text, &made.numbers, &mut out);
            assert!(out == complete(&made.text, &made.numbers).file, "draft {index}, {}", made.shape);
        }
    }
    assert!(said > 4_000, "{said} drafts");
}

/// Every accepted file of the reader's streams, in both sets.
#[test]
fn accepted_files_are_written_again() {
    let mut again = [0, 0];
    for index in (0..5_000).filter(|index| index % 5_000 != 2_500 && index % 3_500 != 1_750) {
        for file in [stream::file(3, index).bytes, ebcdic::file(3, index).bytes] {
            let held = written_again(&file, write);
            let counted = held.unwrap_or_else(|words| panic!("file {index}: {words}"));
            again[usize::from(Set::of(&file) == Set::Ebcdic)] += u64::from(counted);
        }
    }
    assert!(again[0] > 1_000 && again[1] > 700, "{again:?}");
}

/// Drafts of equal values have equal outcomes: other junk, another manner, another set.
#[test]
fn values_alone_decide() {
    let mut written = 0;
    for index in 0..1_500 {
        let mut random = Random::for_file(4, index);
        let lines = generate::sound_lines(&mut random);
        let (text, numbers) = lay(&mut random, &lines, Manner::Packed, None);
        let verdict = judge(&text, &numbers);
        let mut expected = vec![0; verdict.answer.offset as usize];
        assert_eq!(write(&text, &numbers, &mut expected), verdict.answer, "draft {index}");
        for set in [Set::Ascii, Set::Ebcdic] {
            let (text, numbers) = generate::finish(&mut random, set, lines.clone());
            assert_eq!(Draft::new(&text, &numbers).set, set);
            let mut out = vec![0; expected.len()];
            assert_eq!(write(&text, &numbers, &mut out), verdict.answer, "draft {index} in {set:?}");
            assert!(out == expected, "draft {index} in {set:?}");
            written += usize::from(verdict.answer.number == Number::Accepted);
        }
    }
    assert_eq!(written, 3_000);
}

/// Reading 43: SIZE is judged behind every record. 53 views of 10,000,226 bytes and one of 6,858,341 stand before the controls of a file of twice the limit.
#[test]
fn a_fault_past_the_limit_comes_before_size() {
    let controls = 84 * 4 + 53 * 10_000_226 + 6_858_341;
    let expected = [
        [6, 4 + 108 + 4, 0, 2 * LARGEST],
        [7, 4 + 108 + 3, 6, controls + 84 + 89],
        [8, 4 + 108 + 2, 5, controls + 84],
        [9, 4 + 108 + 2, 7, controls + 88],
    ];
    for (sort, expected) in (12..16).zip(expected) {
        let made = peer_writer::large::rare(&mut Random::new(6), sort);
        assert_eq!(judge(&made.text, &made.numbers).answer.listed()[..4], expected, "sort {sort}");
    }
}

/// The large drafts that need little memory: SIZE before ROOM, and the limit itself is only short of room.
#[test]
fn the_largest_file_and_one_byte_more() {
    let mut random = Random::new(5);
    for (sort, expected) in [(0, [2, LARGEST, 0, 0]), (1, [1, 0, 0, 0]), (11, [1, 0, 0, 0])] {
        let made = peer_writer::large::rare(&mut random, sort);
        let answer = write(&made.text, &made.numbers, &mut [0; 100]);
        assert_eq!(answer.listed()[..4], expected, "{}", made.shape);
        assert_eq!(answer.listed()[4..], [0; 8]);
    }
}

/// Some hundred megabytes each: `cargo test --release -- --ignored`. A cash letter takes 84 + 89 bytes, a bundle of a 61 takes 84 + 88 + 84, a cash letter of one
/// 61 takes 84 + 88 + 89.
#[test]
#[ignore = "takes half a gigabyte"]
fn heavy_drafts_are_refused_at_the_sum_that_is_too_long() {
    let expected = [
        [9, 2_000_002, 2, 84 + 1_000_000 * 173],
        [9, 3_000_003, 2, 168 + 1_000_000 * 256],
        [9, 553_409, 5, 84 + 184_469 * 261],
        [9, 553_409, 8, 84 + 184_469 * 261],
    ];
    for (sort, expected) in expected.into_iter().enumerate() {
        let made = peer_writer::large::heavy(&mut Random::new(7), sort);
        assert_eq!(write(&made.text, &made.numbers, &mut []).listed()[..4], expected, "{}", made.shape);
    }
}
