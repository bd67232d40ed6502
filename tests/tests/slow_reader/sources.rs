//! The sources of the proved crates as text: without what is no code, as words and marks, and what they declare and name.
use std::collections::BTreeMap;
use std::collections::BTreeSet;
use std::fs;
use std::path::Path;
use std::path::PathBuf;

pub fn root() -> PathBuf {
    Path::new(env!("CARGO_MANIFEST_DIR")).parent().expect("tests/ stands in the repository").to_path_buf()
}

/// A line without its comment and its single characters, as `b'{'`.
fn bare_line(line: &str) -> String {
    let code = line.split("//").next().unwrap_or("");
    let pieces: Vec<&str> = code.split('\'').collect();
    let is_single = |at: usize| at > 0 && at + 1 < pieces.len() && pieces[at].chars().count() == 1;
    let kept = pieces.iter().enumerate().filter(|(at, _)| !is_single(*at));
    kept.map(|(_, piece)| *piece).collect::<Vec<_>>().join(" ")
}

/// What only the prover reads goes: an attribute that names definitions or lemmas, to the bracket that closes it. What stands behind it stays.
fn without_tactics(source: &str) -> String {
    let mut pieces = source.split("#[tactic(");
    let mut kept = pieces.next().unwrap_or("").to_string();
    for piece in pieces {
        kept.push(' ');
        kept += piece.split_once(']').map_or(piece, |(_, behind)| behind);
    }
    kept
}

/// A source without its comments, single characters and tactics.
pub fn bare(source: &str) -> String {
    without_tactics(&source.lines().map(bare_line).collect::<Vec<_>>().join("\n"))
}

pub fn is_slow(name: &str) -> bool {
    name.starts_with("slow_")
}

/// All sources of a crate, in one text without comments.
pub fn sources_of(name: &str) -> String {
    let mut text = String::new();
    let mut folders = vec![root().join("crates").join(name).join("src")];
    while let Some(folder) = folders.pop() {
        for entry in fs::read_dir(&folder).unwrap_or_else(|error| panic!("{}: {error}", folder.display())) {
            let path = entry.expect("a name").path();
            if path.is_dir() {
                folders.push(path);
            } else if path.extension().is_some_and(|ending| ending == "rt") {
                text += &bare(&fs::read_to_string(&path).expect("a source"));
                text.push('\n');
            }
        }
    }
    text
}

/// The crates of `crates.txt`, each with those that it names. A static library says so behind its name.
pub fn crates() -> BTreeMap<String, Vec<String>> {
    let list = fs::read_to_string(root().join("crates.txt")).expect("crates.txt");
    list.lines()
        .filter(|line| !line.starts_with('#'))
        .filter_map(|line| line.split_once(':'))
        .map(|(name, named)| {
            (
                name.split_whitespace().next().expect("a name").to_string(),
                named.split_whitespace().map(str::to_string).collect(),
            )
        })
        .collect()
}

/// The words and marks of a source: names, `::`, and every other character but blanks by itself.
pub fn tokens(source: &str) -> Vec<String> {
    let mut found: Vec<String> = Vec::new();
    let mut word = String::new();
    for c in source.chars().chain([' ']) {
        if c.is_alphanumeric() || c == '_' || c == '·' {
            word.push(c);
            continue;
        }
        if !word.is_empty() {
            found.push(std::mem::take(&mut word));
        }
        if c == ':' && found.last().is_some_and(|last| last == ":") {
            found.pop();
            found.push("::".to_string());
        } else if !c.is_whitespace() {
            found.push(c.to_string());
        }
    }
    found
}

pub fn is_name(token: &str) -> bool {
    token.starts_with(|c: char| c.is_alphabetic() || c == '_')
}

/// The paths of two or more names, and whether each stands in a `use`; the braces of a `use` are taken apart. A `*` counts as a name.
pub fn paths(tokens: &[String]) -> Vec<(Vec<String>, bool)> {
    let mut found = Vec::new();
    let mut at = 0;
    while at < tokens.len() {
        if tokens[at] == "use" && (at == 0 || tokens[at - 1] != "ghost") {
            at = used(tokens, at + 1, &[], &mut found);
        } else if is_name(&tokens[at]) && tokens.get(at + 1).is_some_and(|next| next == "::") {
            let mut path = vec![tokens[at].clone()];
            while tokens.get(at + 1).is_some_and(|next| next == "::")
                && tokens.get(at + 2).is_some_and(|next| is_name(next))
            {
                path.push(tokens[at + 2].clone());
                at += 2;
            }
            found.push((path, false));
        }
        at += 1;
    }
    found
}

/// One tree of a `use` from a place on, behind the names that stand before it; the place of what ends it.
fn used(tokens: &[String], from: usize, before: &[String], found: &mut Vec<(Vec<String>, bool)>) -> usize {
    let mut path = before.to_vec();
    let mut at = from;
    while at < tokens.len() {
        match tokens[at].as_str() {
            "{" => {
                while tokens[at] != "}" {
                    at = used(tokens, at + 1, &path, found);
                }
                return at + 1;
            }
            ";" | "," | "}" => break,
            "::" => {}
            name => path.push(name.to_string()),
        }
        at += 1;
    }
    if path.len() > before.len() {
        found.push((path, true));
    }
    at
}

/// The variants of each enum, and the methods of each type, that a source declares.
pub fn declared(tokens: &[String]) -> (BTreeMap<String, BTreeSet<String>>, BTreeSet<String>) {
    let mut variants: BTreeMap<String, BTreeSet<String>> = BTreeMap::new();
    let mut methods = BTreeSet::new();
    let (mut depth, mut owner, mut kind) = (0, String::new(), "");
    for (at, token) in tokens.iter().enumerate() {
        match token.as_str() {
            "enum" | "impl" if depth == 0 => {
                kind = if token == "enum" { "enum" } else { "impl" };
                owner = tokens.get(at + 1).cloned().unwrap_or_default();
            }
            "{" | "(" => depth += 1,
            "}" | ")" => {
                depth -= 1;
                if depth == 0 && token == "}" {
                    kind = "";
                }
            }
            "fn" if kind == "impl" && depth == 1 => {
                methods.extend(tokens.get(at + 1).cloned());
            }
            name if kind == "enum" && depth == 1 && is_name(name) => {
                variants.entry(owner.clone()).or_default().insert(name.to_string());
            }
            _ => {}
        }
    }
    (variants, methods)
}
