//! Cited numbers: every "reading 12", "readings 12 to 14" or "readings 12, 13 and 20" is an entry of docs/READINGS.md, every "decision 3" one of
//! docs/DECISIONS.md or docs/ICL-DECISIONS.md, and nothing cites by "point" any more, which was a list outside the repository.
use crate::repository::*;

/// The places that cite: all but these tests, which tell how a citation looks, and patches, which hold lines that have gone.
fn citing() -> Vec<(String, String)> {
    let cites = |path: &str| !path.starts_with("tests/tests/documents") && !path.ends_with(".patch");
    texts_below(&["."]).into_iter().filter(|(path, _)| cites(path)).collect()
}

/// A text in one line, without the marks that begin a line of a comment, so that a citation may be broken there.
fn in_one_line(text: &str) -> String {
    let bare = |line: &str| line.trim().trim_start_matches(['/', '!', '-', '#', '*', '|', '>', ' ']).to_string();
    text.lines().map(bare).collect::<Vec<_>>().join(" ")
}

/// The number at the start of a text, and what is behind it. A number with a thousands' comma, a decimal point or a unit at it is none that is cited.
fn number(text: &str) -> Option<(usize, &str)> {
    let end = text.find(|c: char| !c.is_ascii_digit()).unwrap_or(text.len());
    let behind = &text[end..];
    let mut next = behind.chars();
    let parted = matches!((next.next(), next.next()), (Some(',' | '.'), Some('0'..='9')));
    let glued = behind.starts_with(|c: char| c.is_alphanumeric() || c == '_' || c == '%');
    if parted || glued {
        return None;
    }
    Some((text[..end].parse().ok()?, behind))
}

/// The numbers of a citation that begins here, behind its word: "12", "12 to 14", "12, 13 and 20", a range standing for all in it.
fn numbers_from(text: &str) -> Vec<usize> {
    let mut found = Vec::new();
    let Some((mut last, mut rest)) = number(text) else {
        return found;
    };
    found.push(last);
    loop {
        let words = [(" to ", true), (" and ", false), (", and ", false), (", ", false), (" or ", false)];
        let next = words
            .iter()
            .find_map(|(word, range)| rest.strip_prefix(word).and_then(number).map(|(n, behind)| (n, behind, *range)));
        let Some((n, behind, range)) = next else {
            return found;
        };
        found.extend(if range { last + 1..=n } else { n..=n });
        (last, rest) = (n, behind);
    }
}

/// The numbers that a text cites by this word, or by its plural.
fn cited(text: &str, word: &str) -> Vec<usize> {
    let line = in_one_line(text);
    let small = line.to_ascii_lowercase();
    let mut found = Vec::new();
    for (at, _) in small.match_indices(word) {
        let alone = !small[..at].ends_with(|c: char| c.is_alphanumeric() || c == '_');
        let behind = &small[at + word.len()..];
        let behind = behind.strip_prefix('s').unwrap_or(behind);
        if let (true, Some(rest)) = (alone, behind.strip_prefix(' ')) {
            found.extend(numbers_from(rest));
        }
    }
    found
}

/// The numbers of a document's entries: of list items ("12. "), headings ("### 12. ") and rows ("| 12 |").
fn entries(path: &str) -> Vec<usize> {
    let mut found = Vec::new();
    for line in text(path).lines() {
        let bare = line.trim_start_matches(['#', ' ', '|', '*']);
        let marked = line.starts_with(|c: char| c.is_ascii_digit() || "#|*".contains(c));
        let end = bare.find(|c: char| !c.is_ascii_digit()).unwrap_or(0);
        if marked && (bare[end..].starts_with('.') || bare[end..].starts_with(" |")) {
            found.extend(bare[..end].parse::<usize>());
        }
    }
    found
}

/// What is cited and is not among the entries, with where.
fn unresolved(word: &str, entries: &[usize]) -> (usize, Vec<String>) {
    let mut missing = Vec::new();
    let mut count = 0;
    for (path, text) in citing() {
        for n in cited(&text, word) {
            count += 1;
            if !entries.contains(&n) {
                missing.push(format!("{path}: {word} {n}"));
            }
        }
    }
    (count, missing)
}

#[test]
fn every_cited_reading_is_written_down() {
    let readings = entries("docs/READINGS.md");
    let (count, missing) = unresolved("reading", &readings);
    assert!(missing.is_empty(), "not in docs/READINGS.md: {missing:#?}");
    assert!(count > 150, "only {count} citations were read");
    println!("{count} citations of {} readings", readings.len());
}

/// One numbering without gaps, each number once, so that a number keeps its meaning.
#[test]
fn readings_are_numbered_through() {
    let readings = entries("docs/READINGS.md");
    let all: Vec<usize> = (1..=readings.len()).collect();
    assert_eq!(readings, all, "docs/READINGS.md leaves a number out, or has one twice");
    assert!(readings.len() >= 71, "docs/READINGS.md ends with {}", readings.len());
}

#[test]
fn every_cited_decision_is_written_down() {
    let mut decisions = entries("docs/DECISIONS.md");
    decisions.extend(entries("docs/ICL-DECISIONS.md"));
    let (count, missing) = unresolved("decision", &decisions);
    assert!(missing.is_empty(), "neither in docs/DECISIONS.md nor in docs/ICL-DECISIONS.md: {missing:#?}");
    println!("{count} citations of {} decisions", decisions.len());
}

#[test]
fn nothing_cites_points() {
    let left: Vec<String> = citing()
        .into_iter()
        .flat_map(|(path, text)| cited(&text, "point").into_iter().map(move |n| format!("{path}: point {n}")))
        .collect();
    assert!(left.is_empty(), "cite a reading or a decision instead: {left:#?}");
}

#[test]
fn citations_are_read_as_they_are_written() {
    assert_eq!(cited("see reading 12.", "reading"), [12]);
    assert_eq!(cited("Readings 12 to 14 and 20, 31", "reading"), [12, 13, 14, 20, 31]);
    assert_eq!(cited("    // as reading\n    // 7 says", "reading"), [7]);
    assert_eq!(cited("(readings 3, 4 and 6 to 8)", "reading"), [3, 4, 6, 7, 8]);
    assert_eq!(cited("reading 200,000 files, reading 3.5 MB, spreading 4, reading 64k", "reading"), [0; 0]);
}
