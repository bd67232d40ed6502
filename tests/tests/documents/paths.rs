//! No path in a document is stale, and every link leads somewhere.
use std::path::Path;

use crate::repository::*;

/// Whether a word between backquotes looks like a path of the repository, seen from a folder of it.
fn names_a_path(word: &str, folder: &Path) -> bool {
    let plain = |c: char| c.is_ascii_alphanumeric() || "_./-".contains(c);
    let first = word.split('/').next().unwrap_or_default();
    word.contains('/')
        && word.chars().all(plain)
        && !first.is_empty()
        && !word.contains("NAME")
        && !word.contains("target/")
        && (folder.join(first).exists() || root().join("crates").join(first).is_dir())
}

/// Whether there is such a file or folder: in the repository, beside the document, in a crate, or as a crate's must-fail edit.
fn is_there(word: &str, folder: &Path) -> bool {
    let crates = root().join("crates");
    let edit =
        word.split_once('/').map(|(name, label)| crates.join(name).join("must-fail").join(format!("{label}.edit")));
    root().join(word).exists()
        || folder.join(word).exists()
        || crates.join(word).exists()
        || edit.is_some_and(|path| path.exists())
}

#[test]
fn no_path_in_a_document_is_stale() {
    let mut stale = Vec::new();
    let mut count = 0;
    for path in documents() {
        let document = root().join(&path);
        let folder = document.parent().expect("a folder");
        for (word, _) in quoted(&text(&path)) {
            if names_a_path(&word, folder) {
                count += 1;
                if !is_there(&word, folder) {
                    stale.push(format!("{path}: {word}"));
                }
            }
        }
    }
    assert!(stale.is_empty(), "these are not there: {stale:#?}");
    assert!(count > 100, "only {count} paths were read");
    println!("{count} paths");
}

/// What the links of a document lead to: what stands in parentheses behind brackets.
fn links(text: &str) -> Vec<String> {
    let behind = text.split("](").skip(1);
    behind.filter_map(|rest| rest.split_once(')')).map(|(link, _)| link.to_string()).collect()
}

/// The name by which a heading is linked to: small letters, digits, and a dash for each blank.
fn anchor(heading: &str) -> String {
    let kept = |c: &char| c.is_alphanumeric() || " -_".contains(*c);
    heading.to_lowercase().chars().filter(kept).map(|c| if c == ' ' { '-' } else { c }).collect()
}

fn has_heading(text: &str, name: &str) -> bool {
    text.lines().filter(|line| line.starts_with('#')).any(|line| anchor(line.trim_start_matches('#').trim()) == name)
}

#[test]
fn every_link_leads_somewhere() {
    let mut lost = Vec::new();
    let mut count = 0;
    for (path, document) in all_documents() {
        let whole = root().join(&path);
        for link in links(&document).into_iter().filter(|link| !link.contains("://") && !link.contains(' ')) {
            let (file, heading) = link.split_once('#').unwrap_or((&link, ""));
            let target = if file.is_empty() { whole.clone() } else { whole.with_file_name("").join(file) };
            let text = std::fs::read_to_string(&target).unwrap_or_default();
            count += 1;
            if !target.exists() || !heading.is_empty() && !has_heading(&text, heading) {
                lost.push(format!("{path}: {link}"));
            }
        }
    }
    assert!(lost.is_empty(), "links that lead nowhere: {lost:#?}");
    assert!(count > 20, "only {count} links were read");
    println!("{count} links");
}
