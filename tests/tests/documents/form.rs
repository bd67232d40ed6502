//! The form of the documents: lines that can be read and compared, and a front page of one screen or two.
use crate::repository::*;

/// No line of a document is longer, in characters: a longer one cannot be followed by eye, nor a change in it be seen.
const LONGEST_LINE: usize = 400;

const LINES_OF_README: usize = 150;

/// Five lines of 160 characters.
const LONGEST_PARAGRAPH: usize = 800;

#[test]
fn no_line_of_a_document_is_too_long() {
    let mut long = Vec::new();
    for (path, text) in all_documents() {
        for (at, line) in text.lines().enumerate() {
            let length = line.chars().count();
            if length > LONGEST_LINE {
                long.push(format!("{path}:{}: {length} characters", at + 1));
            }
        }
    }
    assert!(long.is_empty(), "lines of over {LONGEST_LINE} characters: {long:#?}");
}

/// Whether a line begins a paragraph of its own: a list item, a row of a table, a heading.
fn begins(line: &str) -> bool {
    let numbered = line.split_once(". ").is_some_and(|(n, _)| !n.is_empty() && n.chars().all(|c| c.is_ascii_digit()));
    numbered || ["- ", "* ", "|", "#"].iter().any(|start| line.starts_with(start))
}

/// The lengths of a document's paragraphs, each with its first line. Blocks of code are none.
fn paragraphs(text: &str) -> Vec<(usize, usize)> {
    let mut found: Vec<(usize, usize)> = Vec::new();
    let (mut open, mut fenced) = (false, false);
    for (at, line) in text.lines().enumerate() {
        fenced ^= line.trim_start().starts_with("```");
        let code = fenced || line.starts_with("    ") || line.trim_start().starts_with("```");
        if code || line.trim().is_empty() {
            open = false;
        } else if open && !begins(line.trim_start()) {
            found.last_mut().expect("a paragraph is open").1 += 1 + line.trim().chars().count();
        } else {
            found.push((at + 1, line.trim().chars().count()));
            open = true;
        }
    }
    found
}

#[test]
fn the_front_page_is_short() {
    let readme = text("README.md");
    let lines = readme.lines().count();
    assert!(lines <= LINES_OF_README, "README.md has {lines} lines");
    let long: Vec<_> = paragraphs(&readme).into_iter().filter(|(_, length)| *length > LONGEST_PARAGRAPH).collect();
    assert!(long.is_empty(), "paragraphs of README.md that are too long (line, characters): {long:?}");
}
