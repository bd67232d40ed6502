//! The steps of the slow reader, as they are shown, beside its own sources: the names, the clauses and what each function calls for as the text has them, and the functions, offsets and figures as that text
//! runs, compiled without its contracts (`peer/traced`). The comparison with the independent reader does the same on its files (`peer/README.md`).

use std::collections::BTreeMap;

use x9180::follow::{steps, FUNCTIONS};
use x9180::Refusal;

/// A function as the sources have it: its clause, the type that it enters, and what it calls for.
type Found = (u64, u64, Vec<(u64, String)>);

const HEAD: &str = "(set: CharacterSet, file: &[u8], s: Standing, at: usize) -> Answer";

/// The functions of the cycle, by their names.
fn in_sources() -> BTreeMap<String, Found> {
    let folder = format!("{}/../../crates/slow_cycle/src", env!("CARGO_MANIFEST_DIR"));
    let mut found: BTreeMap<String, Found> = BTreeMap::new();
    for entry in std::fs::read_dir(folder).unwrap() {
        let text = std::fs::read_to_string(entry.unwrap().path()).unwrap();
        let (mut clause, mut name) = (0, None);
        for line in text.lines() {
            if let Some((_, words)) = line.split_once("lause ").filter(|_| line.starts_with("// ") && clause == 0) {
                clause = number(words);
            } else if let Some(head) = line.strip_prefix("fn ").and_then(|head| head.strip_suffix(HEAD)) {
                found.insert(head.to_string(), (clause, 0, Vec::new()));
                name = Some(head.to_string());
            } else if line == "}" {
                (clause, name) = (0, None);
            }
            let Some(of) = name.as_ref().and_then(|name| found.get_mut(name)) else { continue };
            if let Some((_, behind)) = line.split_once("enter(set, file, s, ") {
                of.1 = number(behind);
            } else if let Some((record_type, call)) = line.trim().split_once(" => ") {
                let called = call.strip_suffix("(set, file, here, next),");
                let record_type = record_type.strip_prefix("Some(").and_then(|digits| digits.strip_suffix(')'));
                if let (Some(Ok(record_type)), Some(called)) = (record_type.map(str::parse), called) {
                    of.2.push((record_type, called.to_string()));
                }
            }
        }
    }
    found
}

/// The number at the start of a text.
fn number(text: &str) -> u64 {
    let digits: String = text.chars().take_while(char::is_ascii_digit).collect();
    digits.parse().unwrap_or_else(|_| panic!("no number begins {text:?}"))
}

#[test]
fn the_functions_are_those_of_the_sources() {
    let [in_cycle @ .., for_the_rest] = &FUNCTIONS;
    let shown: BTreeMap<String, Found> = in_cycle
        .iter()
        .map(|function| {
            let calls = function.calls.iter().map(|(record_type, name)| (*record_type, name.to_string())).collect();
            (function.name.to_string(), (function.clause, function.record_type, calls))
        })
        .collect();
    assert_eq!(shown, in_sources());
    assert_eq!(shown.len(), in_cycle.len());
    let step = format!("{}/../../crates/slow_step/src/lib.rt", env!("CARGO_MANIFEST_DIR"));
    let step = std::fs::read_to_string(step).unwrap();
    assert!(step.contains(&format!("pub fn {}{HEAD}", for_the_rest.name)));
}

/// What is shown of a file, what its reading does, and the two answers are the same.
fn compare(file: &[u8], name: &str) -> usize {
    let answer = x9180::read_slowly(file);
    let mut table = vec![0; answer.as_ref().map_or(0, |reading| reading.rows().len() * 7)];
    let (numbers, notes) = slow_traced::read_slowly(file, &mut table);
    let expected = match &answer {
        Ok(reading) => [0, reading.totals().records, 0, file.len() as u64],
        Err(refusal) => [refusal.number().0, refusal.record(), refusal.field(), refusal.offset()],
    };
    assert_eq!(numbers[..4], expected, "{name}");
    let shown: Vec<_> = steps(file, &answer)
        .iter()
        .map(|step| (step.function().name, step.offset(), step.so_far().numbers()))
        .collect();
    let noted: Vec<_> = notes.iter().map(|note| (note.function, note.offset as u64, note.numbers())).collect();
    assert_eq!(shown, noted, "{name}");
    if let Ok(reading) = &answer {
        let rows: Vec<u64> = reading
            .rows()
            .iter()
            .flat_map(|row| [row.record_type, row.offset, row.length, row.letter, row.bundle, row.item, row.amount])
            .collect();
        assert_eq!(rows, table, "{name}");
    }
    shown.len()
}

#[test]
fn what_is_shown_is_what_the_sources_do() {
    let root = format!("{}/../..", env!("CARGO_MANIFEST_DIR"));
    let mut compared = 0;
    for folder in ["peer/samples", "peer/samples/ebcdic", "samples", "fuzz/seeds", "fuzz/seeds-ebcdic"] {
        let paths = std::fs::read_dir(format!("{root}/{folder}")).unwrap().map(|entry| entry.unwrap().path());
        for path in paths.filter(|path| path.is_file()) {
            compared += compare(&std::fs::read(&path).unwrap(), &path.display().to_string());
        }
    }
    for index in 0..2_000 {
        let ascii = peer_reader::stream::file(23, index).bytes;
        compared += compare(&ascii, &format!("file {index}"));
        compared += compare(&peer_reader::ebcdic::file(23, index).bytes, &format!("file {index} in EBCDIC"));
        compared += compare(&ascii[..ascii.len() / 2], &format!("half of file {index}"));
    }
    assert!(compared > 20_000, "{compared} steps compared");
}

/// The sizes of reading 68.
#[test]
fn sizes() {
    let refused = |length: usize| x9180::read_slowly(&vec![0; length]).unwrap_err();
    let numbers = |refusal: &Refusal| [refusal.number().0, refusal.record(), refusal.field(), refusal.offset()];
    for length in [0, 65_537, 100_000] {
        let refusal = refused(length);
        assert_eq!(numbers(&refusal), [1, 0, 0, 0]);
        let words = format!("found {length} bytes");
        assert_eq!(
            refusal.to_string(),
            format!("SIZE: the file has no byte, or more than the 65536 that are read slowly; {words}")
        );
        assert!(steps(&vec![0; length], &Err(refusal)).is_empty());
        compare(&vec![0; length], &words);
    }
    // A length of 0 at the start.
    assert_eq!(numbers(&refused(65_536)), [4, 1, 0, 0]);
    assert_eq!(refused(1), x9180::read(&[0]).unwrap_err());
    assert_eq!(x9180::SLOW_LIMIT, 65_536);
}
