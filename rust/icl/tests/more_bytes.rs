//! `check --explain` of a refused file says in its last line whether bytes that follow could mend it (request 7).

mod common;

use common::{icl, outcome, read, run, Folder};
use peer_reader::plain::{file, file_header};
use peer_reader::random::Random;
use peer_reader::{ebcdic, stream};

const CANNOT: &str = "no bytes that follow can mend it: ";
const MIGHT: &str = "more bytes might mend it: ";

/// The last line that `check --explain` prints for a refused file. It is the only one that speaks of mending.
fn last_line(file: &str) -> String {
    let (status, output, _) = run(&format!("check --explain {file}"));
    assert_eq!((status, output.matches("mend").count()), (1, 1), "{output}");
    output.lines().last().unwrap().strip_prefix("  ").unwrap().to_string()
}

fn up_to_the_end_of(record: u64, end: u64) -> String {
    format!("{CANNOT}the fault stands in the bytes up to the end of record {record}, before offset {end}")
}

/// TYPE, PLACE, LENGTH, FIELD, LINK and TOTAL stand in the record that they name and in those before it. A record ends 4 bytes and its
/// length behind its offset.
#[test]
fn faults_that_are_the_files_own() {
    let cases = [
        ("damaged-10-type-68.x9", 3, 168 + 4 + 85),
        ("damaged-03-place.x9", 2, 84 + 4 + 80),
        ("damaged-19-61-in-no-letter.x9", 2, 84 + 4 + 84),
        ("damaged-11-image-length.x9", 6, 420 + 4 + 150),
        ("damaged-05-year.x9", 2, 84 + 4 + 80),
        ("damaged-15-no-number.x9", 1, 4 + 80),
        ("damaged-04-owed.x9", 5, 336 + 4 + 80),
        ("damaged-20-no-bundle.x9", 4, 256 + 4 + 85),
        ("damaged-06-item-count.x9", 10, 818 + 4 + 80),
        ("damaged-26-outside-left-out.x9", 17, 1364 + 4 + 85),
        ("ebcdic/damaged-1-no-counterpart.x9", 4, 257 + 4 + 80),
        ("ebcdic/damaged-4-half-turned.x9", 1, 4 + 80),
        ("ebcdic/damaged-5-six-bytes.x9", 1, 4 + 2),
    ];
    for (name, record, end) in cases {
        assert_eq!(last_line(&format!("peer/samples/{name}")), up_to_the_end_of(record, end), "{name}");
    }
    // A length below 2, and the record that it frames.
    let folder = Folder::new("below-two");
    for length in [0, 1] {
        let name = folder.with("file", &[&file(&[file_header(), vec![b'1'; length]])[..], b"more"].concat());
        assert_eq!(last_line(&name), up_to_the_end_of(2, 84 + 4 + length as u64));
    }
}

/// The records before the end of a torn file stand; those of the smallest file end before 84, 168, 257 and 341.
#[test]
fn files_that_end_too_early() {
    let stand = |records: u64, offset: u64| {
        format!("{MIGHT}the {records} records before offset {offset} stand as they are, whatever follows")
    };
    assert_eq!(last_line("peer/samples/damaged-08-open.x9"), stand(3, 257));
    assert_eq!(last_line("peer/samples/damaged-01-cut.x9"), format!("{MIGHT}no record has come whole"));
    assert_eq!(last_line("peer/samples/ebcdic/damaged-6-five-bytes.x9"), format!("{MIGHT}no record has come whole"));
    let folder = Folder::new("torn");
    let torn = |sample: &str, keep: usize| folder.with("file", &read(&format!("peer/samples/{sample}"))[..keep]);
    for sample in ["sound-1-no-detail.x9", "ebcdic/sound-1-no-detail.x9"] {
        for keep in [1, 4, 83] {
            assert_eq!(last_line(&torn(sample, keep)), format!("{MIGHT}no record has come whole"));
        }
        for keep in [84, 85, 167] {
            let one = format!("{MIGHT}the record before offset 84 stands as it is, whatever follows");
            assert_eq!(last_line(&torn(sample, keep)), one);
        }
        for keep in [168, 171, 172, 256] {
            assert_eq!(last_line(&torn(sample, keep)), stand(2, 168));
        }
        for keep in [257, 340] {
            assert_eq!(last_line(&torn(sample, keep)), stand(3, 257));
        }
    }
}

/// Lengths that no bytes can make good: characters in place of a length, one that leads a byte past the limit, one below 2.
#[test]
fn files_that_end_too_early_and_cannot_be_mended() {
    let folder = Folder::new("past-the-limit");
    let past = |record: u64| format!("{CANNOT}record {record} would end past the 268435456 bytes that a file may have");
    let bare = folder.with("bare", &read("peer/samples/sound-1-no-detail.x9")[4..]);
    assert_eq!(last_line(&bare), past(1));
    // The second record begins at 84: 268,435,456 - 84 - 4 = 268,435,368 bytes would just fit.
    let with_length =
        |length: u32| folder.with("length", &[&file(&[file_header()])[..], &length.to_be_bytes()].concat());
    assert_eq!(last_line(&with_length(268_435_369)), past(2));
    let one = format!("{MIGHT}the record before offset 84 stands as it is, whatever follows");
    assert_eq!(last_line(&with_length(268_435_368)), one);
    assert_eq!(last_line(&with_length(1)), format!("{CANNOT}the length of record 2 leaves no room for its type"));
}

#[test]
fn files_that_are_whole_and_go_on() {
    let whole =
        format!("{CANNOT}the file is whole up to the end of record 4, before offset 341, and no byte may follow");
    assert_eq!(last_line("peer/samples/damaged-09-after.x9"), whole);
    let folder = Folder::new("twice");
    for sample in ["sound-1-no-detail.x9", "ebcdic/sound-1-no-detail.x9"] {
        let twice = folder.with("file", &read(&format!("peer/samples/{sample}")).repeat(2));
        assert_eq!(last_line(&twice), whole);
    }
}

#[test]
fn files_of_no_byte_and_of_too_many() {
    let folder = Folder::new("sizes");
    assert_eq!(last_line(&folder.with("empty", b"")), format!("{MIGHT}the file has none"));
    assert_eq!(last_line(&folder.sparse("long", 268_435_457)), format!("{CANNOT}the file has too many already"));
}

/// It is said with `--explain` alone, of refused files alone, and not where a refusal is told on standard error.
#[test]
fn nothing_else_speaks_of_it() {
    let damaged = "peer/samples/damaged-06-item-count.x9";
    for words in ["check", "rows", "tree"] {
        let (_, output, complaint) = run(&format!("{words} {damaged}"));
        assert!(!output.contains("mend") && !complaint.contains("mend"), "{words}");
    }
    assert!(!run("check --explain peer/samples/sound-2-checks.x9").1.contains("mend"));
}

/// A generated file that was refused: its bytes, its line, and its last line of plain words.
struct Told {
    bytes: Vec<u8>,
    line: String,
    words: String,
}

/// What `check --explain` says of generated files of both sets.
fn told(folder: &Folder) -> Vec<Told> {
    let made = (0..150).flat_map(|index| [stream::file(7, index).bytes, ebcdic::file(7, index).bytes]);
    let files: Vec<Vec<u8>> = made.filter(|bytes| (1..=65_536).contains(&bytes.len())).collect();
    let names: Vec<String> = (0..files.len()).map(|index| folder.with(&format!("{index}.x9"), &files[index])).collect();
    let words = ["check", "--explain"].map(String::from).into_iter().chain(names.iter().cloned());
    let (_, output, _) = outcome(&mut icl(words));
    let mut blocks: Vec<Vec<&str>> = Vec::new();
    for line in output.lines() {
        match line.starts_with("  ") {
            true => blocks.last_mut().unwrap().push(line.trim_start()),
            false => blocks.push(vec![line]),
        }
    }
    assert_eq!(blocks.len(), files.len());
    let of_file = |((bytes, name), block): ((Vec<u8>, &String), Vec<&str>)| Told {
        bytes,
        line: block[0].strip_prefix(&format!("{name}: ")).unwrap().to_string(),
        words: block[block.len() - 1].to_string(),
    };
    let told = files.into_iter().zip(&names).zip(blocks).map(of_file);
    told.filter(|told| told.line.starts_with("refused")).collect()
}

/// The number behind these words.
fn number_behind(text: &str, words: &str) -> usize {
    let rest = text.split_once(words).unwrap().1;
    rest.split(|letter: char| !letter.is_ascii_digit()).next().unwrap().parse().unwrap()
}

/// What is said comes true: with other bytes behind the offset that is named, a file that cannot be mended gets its line again, and one that
/// might be gets none at an earlier record.
#[test]
fn what_is_said_of_generated_files_is_so() {
    let folder = Folder::new("said");
    let mut random = Random::new(7);
    let (mut words, mut expected) = (vec!["check".to_string()], Vec::new());
    let other = read("peer/samples/sound-13-credits-among-items.x9");
    for (index, told) in told(&folder).into_iter().enumerate() {
        assert!(told.words.starts_with(CANNOT) || told.words.starts_with(MIGHT), "{}", told.words);
        let named = told.words.contains("before offset").then(|| number_behind(&told.words, "before offset "));
        // Of AFTER the byte that is too many is the first behind that offset.
        let keep = named.unwrap_or(told.bytes.len()).min(told.bytes.len());
        let noise: Vec<u8> = (0..random.between(1, 99)).map(|_| random.byte()).collect();
        for (place, tail) in [&noise[..], &other, &[0; 4_000]].into_iter().enumerate() {
            words.push(folder.with(&format!("{index}-{place}.x9"), &[&told.bytes[..keep], tail].concat()));
            expected.push((told.line.clone(), told.words.clone()));
        }
    }
    let (_, output, _) = outcome(&mut icl(&words));
    let mut counts = [0; 2];
    // The set of an EBCDIC file is told on a line of its own.
    let lines = output.lines().filter(|line| !line.starts_with("  "));
    for ((name, line), (before, said)) in words[1..].iter().zip(lines).zip(&expected) {
        let line = line.strip_prefix(&format!("{name}: ")).unwrap();
        match said.starts_with(CANNOT) {
            // A length of 1 at the very end is CUT, and with a byte more LENGTH.
            true if said.ends_with("no room for its type") => assert_eq!(record(line), record(before)),
            true => assert_eq!((line, said), (before.as_str(), said)),
            false => assert!(line.starts_with("acc") || record(line) >= record(before), "{before} {said} {line}"),
        }
        counts[usize::from(said.starts_with(CANNOT))] += 1;
    }
    assert!(counts[0] > 30 && counts[1] > 300, "{counts:?}");
}

fn record(line: &str) -> usize {
    number_behind(line, " record ")
}
