//! Request 3: the character rules can be laid beside clause 5; request 5: in ASCII and in EBCDIC.
use peer_reader::charset;
use record_tests::characters::expected_lines;
use record_tests::characters::page;
use record_tests::ebcdic::Set;
use std::fs;
use std::path::Path;
use std::path::PathBuf;
use std::process::Command;

fn root() -> PathBuf {
    Path::new(env!("CARGO_MANIFEST_DIR")).parent().expect("tests/ stands in the repository").to_path_buf()
}

fn text(path: &str) -> String {
    fs::read_to_string(root().join(path)).unwrap_or_else(|error| panic!("{path}: {error}"))
}

/// What the proved code answers, from the program that the gate has built.
fn answers() -> String {
    let program = root().join("target/bin/characters");
    let output = Command::new(&program).output().unwrap_or_else(|error| panic!("{}: {error}", program.display()));
    String::from_utf8(output.stdout).expect("lines of text")
}

/// The program's expected output, which the gate holds against it, comes from Tables 1 and 2 and code page 037 and not from the program.
#[test]
fn the_lines_expected_of_the_program_are_those_of_tables_1_and_2() {
    assert!(
        text("crates/characters/stdout") == expected_lines(),
        "crates/characters/stdout is not Tables 1 and 2: the program characters_expected of this package makes it"
    );
    assert!(answers() == expected_lines(), "the proved code does not answer as Tables 1 and 2");
}

/// Code page 037 was typed twice, here and for the independent reader.
#[test]
fn the_code_page_is_that_of_the_independent_reader() {
    for byte in 0..=255 {
        assert_eq!(Set::Ebcdic.to_ascii(&[byte]), [charset::Set::Ebcdic.character(byte)], "{byte:02X}");
    }
}

/// The five characters at which Table 1's own EBCDIC column differs from the code page, as the page for staff has them.
#[test]
fn the_code_page_decides_the_five_characters_of_table_1() {
    assert_eq!(Set::Ebcdic.from_ascii(b"[]^`|"), [0xBA, 0xBB, 0xB0, 0x79, 0x4F]);
    assert_eq!(Set::Ebcdic.to_ascii(&[0x4A, 0x4F, 0x5F, 0xB9, 0x6A]), *b"\0|\0\0\0");
}

#[test]
fn the_page_for_staff_is_that_of_the_proved_answers() {
    assert_eq!(text("docs/CHARACTERS.md"), page(&answers()), "docs/CHARACTERS.md is stale: it says how it is made");
}

/// The sources of the proved code.
fn sources() -> Vec<(PathBuf, String)> {
    let mut sources = Vec::new();
    for entry in fs::read_dir(root().join("crates")).expect("the crates") {
        let folder = entry.expect("a crate").path().join("src");
        for file in fs::read_dir(&folder).expect("a crate has a folder src") {
            let path = file.expect("a file").path();
            let code = fs::read_to_string(&path).expect("a source of text");
            let bare: Vec<&str> = code.lines().map(|line| line.split("//").next().unwrap_or("")).collect();
            sources.push((path, bare.join("\n")));
        }
    }
    sources
}

/// The pieces between brackets, an inner pair with its outer one.
fn bracketed(code: &str) -> Vec<&str> {
    let mut open = Vec::new();
    let mut pieces = Vec::new();
    for (at, character) in code.char_indices() {
        match character {
            '[' => open.push(at + 1),
            ']' => pieces.extend(open.pop().map(|start| &code[start..at])),
            _ => {}
        }
    }
    pieces
}

/// How many entries an array has, by its length or by those written out.
fn entries(piece: &str) -> usize {
    match piece.rsplit_once(';') {
        Some((_, length)) => length.trim().replace('_', "").parse().unwrap_or(0),
        None => piece.trim().trim_end_matches(',').split(',').count(),
    }
}

fn holds_a_lookup(code: &str) -> bool {
    bracketed(code).iter().any(|piece| [128, 256].contains(&entries(piece)))
}

/// No character is classed by a lookup: no array has an entry for each byte or each ASCII character, and the crate `text` has no array at all.
#[test]
fn no_lookup_of_256_entries_stands_in_the_proved_code() {
    let sources = sources();
    assert!(sources.len() > 20, "the sources of the crates are looked through");
    for (path, code) in &sources {
        assert!(!holds_a_lookup(code), "{} has an array with an entry for each byte", path.display());
    }
    for (path, code) in sources.iter().filter(|(path, _)| path.starts_with(root().join("crates/text"))) {
        assert!(!code.contains("const ") && !code.contains("static "), "{} has a constant", path.display());
    }
}

#[test]
fn the_search_for_lookups_finds_them() {
    assert!(holds_a_lookup("const CLASSES: [u8; 256] = table();"));
    assert!(holds_a_lookup(&format!("let classes = [{}];", "0, ".repeat(256))));
    assert!(holds_a_lookup("f(&[0; 1_28])"));
    assert!(!holds_a_lookup("const LAYOUTS: [u64; 309] = [1, 2];"));
    assert!(!holds_a_lookup("x[256]"));
}

/// A file that holds the functions of one clause holds nothing else, in the order of the clause, and each answers in both sets.
#[test]
fn the_basic_types_stand_alone_in_the_order_of_the_clause() {
    let clauses = ["5.1.1", "5.1.2", "5.1.3", "5.1.4", "5.1.5", "5.2.1", "5.2.2", "5.2.3", "5.2.4", "5.2.5"];
    for (path, comment, opening, sets) in [
        ("crates/text/src/characters.rt", "// ", "pub fn ", ["CharacterSet::Ascii =>", "CharacterSet::Ebcdic =>"]),
        ("crates/text/specs/Characters.antt", "-- ", "abbrev pub ", [" Ascii x =", " Ebcdic x ="]),
    ] {
        let text = text(path);
        let said: Vec<&str> = text
            .lines()
            .filter_map(|line| line.strip_prefix(comment))
            .filter_map(|line| line.split(' ').next())
            .filter(|word| word.starts_with("5."))
            .collect();
        assert_eq!(said, clauses, "{path}: the clauses in their order");
        let functions: Vec<&str> = text.split(opening).skip(1).collect();
        assert_eq!(functions.len(), clauses.len(), "{path}: a function for each clause and no other");
        for function in functions {
            assert_eq!(sets.map(|set| function.matches(set).count()), [1, 1], "{path}: once in each set: {function}");
        }
    }
}
