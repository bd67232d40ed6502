//! Every proper beginning of the sample files, salvaged: what is written is accepted, or NOTHING; and the kept bundles are those that are whole.

use std::path::{Path, PathBuf};

use peer_reader::charset::Set;
use peer_reader::copy::copy;
use peer_reader::descent::{read, Number, Row};
use peer_salvage::salvage::{outcome, Outcome, NOTHING};

fn samples() -> Vec<PathBuf> {
    let peer = Path::new(env!("CARGO_MANIFEST_DIR")).join("..");
    let folders = [peer.join("../samples"), peer.join("samples"), peer.join("samples/ebcdic")];
    let mut found = Vec::new();
    for folder in folders {
        let files = std::fs::read_dir(&folder).unwrap_or_else(|error| panic!("{}: {error}", folder.display()));
        found.extend(
            files.map(|file| file.expect("a file").path()).filter(|path| path.extension() == Some("x9".as_ref())),
        );
    }
    found.sort();
    found
}

/// What is written of any file, sound or damaged, cut at every byte.
#[test]
fn every_beginning_is_accepted_or_nothing() {
    let (mut files, mut cuts, mut written) = (0, 0, 0);
    for path in samples() {
        let file = std::fs::read(&path).expect("a sample");
        files += 1;
        for end in 1..file.len() {
            let found = outcome(&file[..end]);
            cuts += 1;
            match found.answer[0] {
                0 => {
                    let answer = read(&found.file).answer;
                    assert_eq!(answer.listed(), found.answer, "{} cut at {end}", path.display());
                    assert_eq!(answer.number, Number::Accepted);
                    written += 1;
                }
                number => assert_eq!(number, NOTHING, "{} cut at {end}", path.display()),
            }
        }
    }
    assert!(files == 57 && cuts > 50_000 && written > 20_000, "{files} samples, {cuts} beginnings, {written} written");
}

/// Where a row's record ends.
fn end_of(row: &Row) -> usize {
    (row[1] + 4 + row[2]) as usize
}

/// Of a sound sample every bundle that lies in the beginning from its 20 to its 70 is kept, byte for byte, and no other.
#[test]
fn the_kept_bundles_are_those_that_are_whole() {
    let (mut bundles_kept, mut sound) = (0, 0);
    for path in samples() {
        let file = std::fs::read(&path).expect("a sample");
        let reading = read(&file);
        if reading.answer.number != Number::Accepted {
            continue;
        }
        sound += 1;
        let copied = copy(&file);
        assert_eq!(Set::of(&copied), Set::Ascii);
        for end in 1..file.len() {
            let found = outcome(&file[..end]);
            let whole = bundles(&reading.rows).filter(|(_, last)| end_of(last) <= end);
            let expected: Vec<&[u8]> = whole.map(|(first, last)| &copied[first[1] as usize..end_of(last)]).collect();
            assert_eq!(written_bundles(&found), expected, "{} cut at {end}", path.display());
            bundles_kept += expected.len();
        }
    }
    assert!(sound == 22 && bundles_kept > 10_000, "{sound} sound samples, {bundles_kept} bundles kept");
}

/// The first and last record of each bundle, by the rows of a reading.
fn bundles(rows: &[Row]) -> impl Iterator<Item = (&Row, &Row)> {
    let first = rows.iter().filter(|row| row[0] == 20);
    first.zip(rows.iter().filter(|row| row[0] == 70))
}

/// The bundles of what was written; none on a refusal.
fn written_bundles(found: &Outcome) -> Vec<&[u8]> {
    let reading = read(&found.file);
    let place = |(first, last): (&Row, &Row)| &found.file[first[1] as usize..end_of(last)];
    bundles(&reading.rows).map(place).collect()
}
