//! `icl follow`: what is printed beside what the slow reader's own sources do (`peer/traced`), the answer beside that of `icl check`, and the trainees' page beside the program.

mod common;

use std::fs;

use common::{icl, outcome, piped, read, root, run, Folder};

/// The samples of the repository, by their paths, that have no more bytes than are read slowly.
fn samples() -> Vec<String> {
    let mut paths = Vec::new();
    for folder in ["peer/samples", "peer/samples/ebcdic", "samples"] {
        for entry in fs::read_dir(root().join(folder)).unwrap() {
            let name = entry.unwrap().file_name().into_string().unwrap();
            let path = format!("{folder}/{name}");
            if name.ends_with(".x9") && read(&path).len() <= 65_536 {
                paths.push(path);
            }
        }
    }
    paths.sort();
    assert!(paths.len() > 50);
    paths
}

/// The functions and offsets that are printed.
fn printed(text: &str) -> Vec<(String, usize)> {
    let line = |line: &str| {
        let (function, place) = line.split_once(" stands at ")?;
        let digits: String = place.split_once("offset ")?.1.chars().take_while(char::is_ascii_digit).collect();
        Some((function.trim().to_string(), digits.parse().unwrap()))
    };
    text.lines().filter_map(line).collect()
}

#[test]
fn what_is_printed_is_what_the_sources_do() {
    for path in samples() {
        let (status, text, complaint) = run(&format!("follow {path}"));
        let (answer, notes) = slow_traced::read_slowly(&read(&path), &mut []);
        let noted: Vec<_> = notes.iter().map(|note| (note.function.to_string(), note.offset)).collect();
        assert_eq!(printed(&text), noted, "{path}");
        // No table was lent, so that an accepted file is refused for room.
        assert_eq!((status, complaint.as_str()), (i32::from(answer[0] != 2), ""), "{path}");
    }
}

/// The last lines are those of `icl check --explain`.
#[test]
fn the_answer_is_that_of_check() {
    for path in samples() {
        let (status, text, _) = run(&format!("follow {path}"));
        let (of_check, explained, _) = run(&format!("check --explain {path}"));
        assert_eq!(status, of_check, "{path}");
        assert_eq!(text.split_once("\n\n").unwrap().1, explained, "{path}");
    }
}

/// A file in EBCDIC is shown as the same file in ASCII, but for the line that tells its set.
#[test]
fn both_sets() {
    let ascii = run("follow samples/two-letters-with-pictures.x9").1;
    let ebcdic = run("follow samples/ebcdic-with-pictures.x9").1;
    assert_eq!(ebcdic.replace("  character set: EBCDIC (code page 037)\n", ""), ascii);
    assert!(ascii.contains("\n          found     Payor Bank Routing Number 111111118\n"), "{ascii}");
}

#[test]
fn sizes() {
    let folder = Folder::new("follow-sizes");
    let refused = |bytes: &str, end: &str| {
        let size = "  SIZE: the file has no byte, or more than the 65536 that are read slowly\n";
        format!("refused 1 record 0 field 0 offset 0\n{size}  found {bytes} bytes\n  {end}\n")
    };
    let too_many = "no bytes that follow can mend it: the file has too many already";
    let large = folder.sparse("large.x9", 65_537);
    assert_eq!(run(&format!("follow {large}")), (1, refused("65537", too_many), String::new()));
    let none = "more bytes might mend it: the file has none";
    assert_eq!(piped("follow -", b""), (1, refused("0", none), String::new()));
    let zeros = folder.sparse("zeros.x9", 65_536);
    let (status, text, _) = run(&format!("follow {zeros}"));
    assert_eq!(status, 1);
    assert!(text.starts_with("not_called_for stands at record 1, offset 0: of no type of the standard\n"), "{text}");
    assert!(text.contains("\nrefused 4 record 1 field 0 offset 0\n"), "{text}");
}

#[test]
fn words_of_the_command_line() {
    for (words, complaint) in [
        ("follow", "icl: FILE is missing (icl --help tells more)\n"),
        ("follow a b", "icl: b is a word too many: FILE alone is asked (icl --help tells more)\n"),
        ("follow --csv a", "icl: --csv is not known here (icl --help tells more)\n"),
        ("follow nowhere.x9", "icl: nowhere.x9: there is no such file or folder\n"),
        ("follow samples", "icl: samples: it is a folder, not a file\n"),
    ] {
        assert_eq!(run(words), (2, String::new(), complaint.to_string()), "{words}");
    }
    let all = run("follow --all peer/samples/sound-2-checks.x9");
    assert_eq!(all, run("follow peer/samples/sound-2-checks.x9"));
    assert_eq!(all, piped("follow -", &read("peer/samples/sound-2-checks.x9")));
    assert_eq!(all.0, 0);
    // Whoever reads the steps may stop.
    let mut command = icl(["follow", "samples/two-letters-with-pictures.x9"]);
    assert_eq!(outcome(command.stdout(fs::File::create("/dev/null").unwrap())).0, 0);
}

const PAGE: &str = "docs/FOLLOWING.md";

/// The lines of a part of the page, by its heading.
fn part(heading: &str) -> Vec<String> {
    let page = String::from_utf8(read(PAGE)).unwrap();
    let lines = page.lines().skip_while(|line| *line != format!("## {heading}")).skip(1);
    let lines: Vec<String> = lines.take_while(|line| !line.starts_with("## ")).map(str::to_string).collect();
    assert!(!lines.is_empty(), "{PAGE} has no part {heading}");
    lines
}

/// The lines that are set in are what the command prints, all of it and nothing else.
#[test]
fn the_page_shows_what_is_printed() {
    let set_in: Vec<String> = part("A file with a fault, step by step")
        .iter()
        .filter_map(|line| line.strip_prefix("    ").map(str::to_string))
        .collect();
    let (command, shown) = set_in.split_first().unwrap();
    let words = command.strip_prefix("rust/target/release/icl ").unwrap();
    let (_, text, _) = run(words);
    assert_eq!(shown, text.lines().filter(|line| !line.is_empty()).collect::<Vec<_>>());
}

/// Each file of the exercises has the answer that the page gives.
#[test]
fn the_page_has_the_right_answers() {
    let mut count = 0;
    for line in part("Answers") {
        let quoted: Vec<&str> = line.split('`').skip(1).step_by(2).collect();
        let Some(path) = quoted.iter().find(|word| word.ends_with(".x9")) else { continue };
        let answer = quoted.iter().find(|word| word.starts_with("refused ") || word.starts_with("accepted ")).unwrap();
        let (_, text, _) = run(&format!("follow {path}"));
        assert!(text.contains(&format!("\n\n{answer}\n")), "{path}");
        for words in quoted.iter().filter(|word| word.contains(" states ")) {
            assert!(text.contains(&format!(" {words}\n")), "{path}: {words}");
        }
        // Every function that the answer names is one that stands in the file.
        for function in quoted.iter().filter(|word| word.ends_with("()")) {
            let name = function.trim_end_matches("()");
            assert!(printed(&text).iter().any(|(other, _)| other == name), "{path}: {function}");
        }
        count += 1;
    }
    assert!(count >= 4, "{count} answers");
}

/// The table of the page has every function of the slow reader, with the type that it stands at and the types that it looks for.
#[test]
fn the_page_has_every_function() {
    let page = String::from_utf8(read(PAGE)).unwrap();
    let [in_cycle @ .., for_the_rest] = &x9180::follow::FUNCTIONS;
    for function in in_cycle {
        let kind = x9180::Kind::of(function.record_type).unwrap();
        let calls: Vec<String> = function.calls.iter().map(|(number, _)| number.to_string()).collect();
        let calls = if calls.is_empty() { "nothing".to_string() } else { calls.join(", ") };
        let start =
            format!("| `{}` | {:02} {} | {} | {calls} |", function.name, kind.number, kind.name, function.clause);
        assert!(page.lines().any(|line| line.starts_with(&start)), "{PAGE} has no row {start}");
    }
    assert!(page.contains(&format!("`{}`", for_the_rest.name)));
}
