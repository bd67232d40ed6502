//! Both opinions and the promises over generated files, the coverage of a whole run, and runs that are judged alike wherever they stand.

use peer_reader::charset::Set;
use peer_reader::copy::to_ebcdic;
use peer_reader::plain;
use peer_reader::random::Random;
use peer_salvage::asked::lents;
use peer_salvage::generate::{self, WHOLE_RUN};
use peer_salvage::opinion::{opinion, MOST_RECORDS};
use peer_salvage::points::{demanded, Tally};
use peer_salvage::promises;
use peer_salvage::salvage::{outcome, outcome_of};
use peer_salvage::survey::survey;

#[test]
fn both_opinions_agree_and_the_promises_are_kept() {
    for index in 0..2_000 {
        let made = generate::file(1, index);
        let found = outcome(&made.bytes);
        let name = format!("file {index}, {}", made.shape);
        if found.list.len() <= MOST_RECORDS {
            assert_eq!(found, opinion(&made.bytes), "{name}");
        }
        assert_eq!(promises::keep(&made.bytes, &found, |file| Ok(outcome(file))), Ok(()), "{name}");
    }
}

/// Every beginning of some small files, in both opinions.
#[test]
fn both_opinions_agree_on_every_beginning() {
    for turn in 0..4 {
        let file = generate::to_be_cut(2, turn);
        let mut before = None;
        for end in 0..=file.len() {
            let found = outcome(&file[..end]);
            // Where nothing has changed, the second opinion is asked now and then.
            if before.as_ref() != Some(&found) || end % 17 == 0 {
                assert_eq!(found, opinion(&file[..end]), "file {turn} cut at {end}");
            }
            before = Some(found);
        }
    }
}

/// A whole run of a seed meets every point, in both sets.
#[test]
fn a_whole_run_meets_every_point() {
    let mut tally = Tally::default();
    for index in 0..WHOLE_RUN {
        let file = generate::file(3, index).bytes;
        let surveyed = (!file.is_empty()).then(|| survey(&file));
        let found = surveyed.as_ref().map_or_else(|| outcome(&file), |survey| outcome_of(&file, survey));
        tally.note(&file, surveyed.as_ref(), &found);
        for (sort, lent) in lents(&file, &found, &mut Random::for_file(!3, index)) {
            tally.note_lent(Set::of(&file), &found, sort, lent);
        }
    }
    assert_eq!(tally.missing(), []);
}

/// The points are told apart, and there are as many in EBCDIC but for SIZE and a first record that is no 01.
#[test]
fn the_points_are_told_apart() {
    let [mut ascii, mut ebcdic] = [Set::Ascii, Set::Ebcdic].map(demanded);
    assert_eq!(ascii.len(), ebcdic.len() + 4);
    for points in [&mut ascii, &mut ebcdic] {
        points.sort_unstable();
        assert!(points.windows(2).all(|pair| pair[0] != pair[1]));
    }
}

/// Reading 67: whether a run is sound depends on the set, its 10 and its own records alone. Each run is put into another file behind another 01
/// and another letter, right under its 10, and has the same fault there; what the letter around it holds decides about keeping alone.
#[test]
fn a_run_is_judged_alike_elsewhere() {
    let mut tried = 0;
    for index in 0..1_500 {
        let file = generate::file(4, index).bytes;
        if file.is_empty() {
            continue;
        }
        let survey = survey(&file);
        for judged in survey.letters.iter().filter(|judged| judged.sound) {
            for run in &judged.runs {
                let other = [plain::file_header(), plain::letter_header('n'), plain::letter_control(0, 0, 0, 0)];
                let mut elsewhere = plain::file(&other);
                if survey.set == Set::Ebcdic {
                    elsewhere = to_ebcdic(&elsewhere);
                }
                let mut records = vec![survey.walked[judged.letter.header].body.to_vec()];
                records.extend(survey.walked[run.run.first..run.run.end].iter().map(|record| record.body.to_vec()));
                elsewhere.extend(plain::file(&records));
                let found = outcome(&elsewhere);
                let expected = run.fault.map_or(0, |(number, _)| number as u64);
                let numbers: Vec<u64> = found.list[4..].iter().map(|row| row[3]).collect();
                // A sound 61 alone is dropped with its letter of E, I or F.
                let without_bundle = expected == 0 && found.list[3][2] == 2;
                assert!(numbers.iter().all(|number| *number == if without_bundle { 6 } else { expected }));
                tried += 1;
            }
        }
    }
    assert!(tried > 3_000, "{tried}");
}
