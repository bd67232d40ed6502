//! docs/RULES.md and docs/GLOSSARY.md against the definitions: what they cite stands where they say, nothing is left out, and the figures are those
//! that the checker computes.
use std::collections::BTreeMap;
use std::collections::BTreeSet;

use crate::repository::*;

/// `crate/specs/File.antt` of every file of definitions.
fn files_of_definitions() -> Vec<String> {
    let mut files = Vec::new();
    for name in names_in(&root().join("crates")) {
        let specs = root().join("crates").join(&name).join("specs");
        if specs.is_dir() {
            for file in names_in(&specs) {
                if file.ends_with(".antt") && file != "Lib.antt" {
                    files.push(format!("{name}/specs/{file}"));
                }
            }
        }
    }
    files
}

/// The public names that a file of definitions defines, and the constructors of its data types.
fn defined_in(text: &str) -> (BTreeSet<String>, BTreeSet<String>) {
    let mut names = BTreeSet::new();
    let mut constructors = BTreeSet::new();
    let mut in_data = false;
    for line in text.lines() {
        let bare = line.trim_start_matches("pattern ").trim_start_matches("abbrev ").trim_start_matches("unfoldable ");
        if let Some(rest) = bare.strip_prefix("pub ") {
            in_data = rest.starts_with("data ");
            let rest = rest.trim_start_matches("record ").trim_start_matches("data ");
            names.extend(rest.split_whitespace().next().map(str::to_string));
        } else if in_data && line.starts_with("  ") {
            constructors.extend(line.split_whitespace().next().map(str::to_string));
        } else if !line.is_empty() {
            in_data = false;
        }
    }
    (names, constructors)
}

fn is_file_of_definitions(word: &str) -> bool {
    word.contains("/specs/") && word.ends_with(".antt") && !word.starts_with("crates/")
}

/// The citations of a document: a file of definitions, and the names right behind it, a blank or a line's end between.
fn citations(text: &str) -> Vec<(String, Vec<String>)> {
    let mut found: Vec<(String, Vec<String>)> = Vec::new();
    let mut open = false;
    for (word, behind) in quoted(text) {
        if is_file_of_definitions(&word) {
            found.push((word, Vec::new()));
            open = true;
        } else if open {
            let last = found.last_mut().expect("a citation is open");
            last.1.push(word);
        }
        open = open && !behind.is_empty() && behind.trim().is_empty() && !behind.contains("\n\n");
    }
    found
}

#[test]
fn cited_definitions_stand_where_the_documents_say() {
    let mut count = 0;
    for document in ["docs/RULES.md", "docs/GLOSSARY.md"] {
        for (file, names) in citations(&text(document)) {
            let (defined, constructors) = defined_in(&text(&format!("crates/{file}")));
            for name in names {
                let known = defined.contains(&name) || constructors.contains(&name);
                assert!(known, "{document} cites {name}, which {file} does not define");
                count += 1;
            }
        }
    }
    assert!(count > 300, "only {count} citations were read");
    println!("{count} citations");
}

#[test]
fn every_definition_is_cited_by_a_rule() {
    let mut cited: BTreeMap<String, BTreeSet<String>> = BTreeMap::new();
    for (file, names) in citations(&text("docs/RULES.md")) {
        cited.entry(file).or_default().extend(names);
    }
    let mut missing = Vec::new();
    for file in files_of_definitions() {
        let (defined, _) = defined_in(&text(&format!("crates/{file}")));
        let rules = cited.remove(&file).unwrap_or_default();
        missing.extend(defined.difference(&rules).map(|name| format!("{file} {name}")));
    }
    assert!(missing.is_empty(), "not in docs/RULES.md: {missing:#?}");
}

/// The value of a figure in docs/RULES.md, its digits alone.
fn figure(name: &str) -> String {
    let rules = text("docs/RULES.md");
    let line = rules
        .lines()
        .find(|line| line.starts_with(&format!("| {name} |")))
        .unwrap_or_else(|| panic!("docs/RULES.md has no figure {name}"));
    digits(line.split('|').nth(2).expect("a value"))
}

fn digits(words: &str) -> String {
    words.chars().filter(char::is_ascii_digit).collect()
}

/// The number behind the first of these words in a file.
fn number_behind(path: &str, words: &str) -> String {
    let whole = text(path);
    let at = whole.find(words).unwrap_or_else(|| panic!("{path} has no {words}"));
    let rest = &whole[at + words.len()..];
    let end = rest.find(|c: char| !c.is_ascii_digit() && c != '_' && c != ' ').unwrap_or(rest.len());
    digits(&rest[..end])
}

/// The table of the independent judge has as many record types and fields.
#[test]
fn figures_are_those_of_the_independent_table() {
    let table = record_tests::table::Table::read();
    let fields: usize = table.kinds.iter().map(|kind| kind.fields.len()).sum();
    assert_eq!(figure("record types carried"), table.kinds.len().to_string());
    assert_eq!(figure("fields in all"), fields.to_string());
}

#[test]
fn figures_are_those_that_the_checker_computes() {
    let laid = "crates/layout/specs/Laid.antt";
    assert_eq!(figure("record types carried"), number_behind(laid, "length layouts ≡"));
    assert_eq!(figure("fields in all"), number_behind(laid, "fields_of layouts ≡"));
    let reading = "crates/passes/specs/Reading.antt";
    assert_eq!(figure("largest file in bytes"), number_behind(reading, "&& leb (length file)"));
    assert_eq!(figure("numbers in a row"), number_behind(reading, "length (rows_of file) ≡"));
    let answers = text("crates/passes/specs/Answers.antt");
    let faults = answers.lines().filter(|line| line.starts_with("number_of ") && line.contains(" = ")).count();
    assert_eq!(figure("answers"), (faults + 1).to_string());
}

#[test]
fn figures_stand_in_one_place() {
    let kinds = figure("record types carried");
    let fields = figure("fields in all");
    let mut repeated = Vec::new();
    for path in documents() {
        if path == "docs/RULES.md" {
            continue;
        }
        for line in text(&path).lines() {
            let words: Vec<&str> = line.split(|c: char| !c.is_alphanumeric()).collect();
            let counted = words
                .windows(2)
                .any(|pair| pair[0] == kinds && ["kinds", "record", "layouts", "types"].contains(&pair[1]));
            if counted || words.contains(&fields.as_str()) {
                repeated.push(format!("{path}: {line}"));
            }
        }
    }
    assert!(repeated.is_empty(), "these repeat a figure: {repeated:#?}");
}
