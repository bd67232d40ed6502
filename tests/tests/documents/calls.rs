//! Calls that the documents show: those of the crates (`reader::read(file, table)`) exist with these parameters, those for C have as many arguments as
//! include/x9180.h declares, and the names of the Rust wrapper are there. The landing notes tell of their own day.
use std::collections::BTreeMap;

use crate::repository::*;

/// A call as a document shows it. Without parentheses it has no arguments to compare.
#[derive(Debug)]
pub struct Call {
    pub of: String,
    name: String,
    arguments: Option<Vec<String>>,
}

/// Whether a character may stand in a name.
fn in_name(c: char) -> bool {
    c.is_ascii_alphanumeric() || c == '_'
}

/// The name at the start of a text.
fn name_at(text: &str) -> &str {
    &text[..text.find(|c: char| !in_name(c)).unwrap_or(text.len())]
}

/// The name at the end of a text.
fn name_before(text: &str) -> &str {
    &text[text.rfind(|c: char| !in_name(c)).map_or(0, |at| at + 1)..]
}

/// What stands between the parenthesis that this text begins with and the one that closes it, parted at its own commas. None without a parenthesis, and
/// where the arguments are left out: `()` or `(..)`.
fn arguments(text: &str) -> Option<Vec<String>> {
    let inner = text.strip_prefix('(')?;
    let mut depth = 0;
    let mut parts = vec![String::new()];
    for c in inner.chars() {
        match c {
            ')' if depth == 0 => break,
            ',' if depth == 0 => parts.push(String::new()),
            _ => {
                depth += i32::from("([{".contains(c)) - i32::from(")]}".contains(c));
                parts.last_mut().expect("one part at least").push(c);
            }
        }
    }
    let parts: Vec<String> = parts.iter().map(|part| part.trim().to_string()).filter(|part| !part.is_empty()).collect();
    let left_out = parts.is_empty() || parts.iter().all(|part| part.chars().all(|c| c == '.' || c == '…'));
    (!left_out).then_some(parts)
}

/// The calls of the proved crates in a text. `x9180` is the wrapper there, not the program of that name.
pub fn calls_of_crates(text: &str) -> Vec<Call> {
    let mut found = Vec::new();
    for (at, _) in text.match_indices("::") {
        let of = name_before(&text[..at]);
        let path = text[..at].strip_suffix(of).is_some_and(|before| before.ends_with("::"));
        let name = name_at(&text[at + 2..]);
        let is_call = name.starts_with(|c: char| c.is_ascii_lowercase());
        let behind = &text[at + 2 + name.len()..];
        if !path && is_call && of != "x9180" && !of.is_empty() && root().join("crates").join(of).is_dir() {
            found.push(Call { of: of.to_string(), name: name.to_string(), arguments: arguments(behind) });
        }
    }
    found
}

/// The parameters of a crate's functions of this name, one list for each.
fn parameters(of: &str, name: &str) -> Vec<Vec<String>> {
    let mut found = Vec::new();
    for (_, code) in texts_below(&[&format!("crates/{of}/src")]) {
        for (at, start) in code.match_indices(&format!("fn {name}")) {
            let behind = &code[at + start.len()..];
            if let Some(open) = behind.find('(').filter(|open| behind[..*open].is_empty() || behind.starts_with('<')) {
                let listed = arguments(&behind[open..]).unwrap_or_default();
                found.push(listed.iter().map(|part| name_at(part).to_string()).collect());
            }
        }
    }
    found
}

/// Whether an argument can be the parameter of this name: a plain name must be it; a value or an expression may be any.
fn may_be(argument: &str, parameter: &str) -> bool {
    let bare = argument.split(':').next().unwrap_or_default();
    let bare = bare.trim().trim_start_matches('&').trim_start_matches("mut ").trim_start_matches('*');
    let plain = bare.chars().all(in_name) && !bare.starts_with(|c: char| c.is_ascii_digit());
    !plain || bare == parameter
}

fn fits(arguments: &[String], parameters: &[String]) -> bool {
    arguments.len() == parameters.len() && arguments.iter().zip(parameters).all(|(a, p)| may_be(a, p))
}

#[test]
fn calls_of_the_crates_exist_with_their_parameters() {
    let mut wrong = Vec::new();
    let (mut count, mut with_arguments) = (0, 0);
    for path in documents() {
        for call in calls_of_crates(&text(&path)) {
            let known = parameters(&call.of, &call.name);
            let right = match &call.arguments {
                Some(given) => known.iter().any(|listed| fits(given, listed)),
                None => !known.is_empty() || root().join(format!("crates/{}/src/{}.rt", call.of, call.name)).is_file(),
            };
            count += 1;
            with_arguments += usize::from(call.arguments.is_some());
            if !right {
                wrong.push(format!("{path}: {call:?}, parameters {known:?}"));
            }
        }
    }
    assert!(wrong.is_empty(), "calls that are not there: {wrong:#?}");
    assert!(count > 60 && with_arguments > 5, "only {count} calls were read, {with_arguments} with arguments");
    println!("{count} calls of crates, {with_arguments} with arguments");
}

/// The text without comments of C, which may hold commas and parentheses.
fn without_comments(text: &str) -> String {
    let mut found = String::new();
    for (at, piece) in text.split("/*").enumerate() {
        found.push_str(if at == 0 { piece } else { piece.split_once("*/").map_or("", |(_, behind)| behind) });
    }
    found
}

/// The calls for C in a text, with how many arguments each has, where they are shown.
fn calls_for_c(text: &str) -> Vec<(String, Option<usize>)> {
    let mut found = Vec::new();
    for (at, _) in text.match_indices("x9_") {
        let name = name_at(&text[at..]);
        let behind = &text[at + name.len()..];
        if !text[..at].ends_with(in_name) && !behind.starts_with(['*', '/']) {
            found.push((name.to_string(), arguments(behind).map(|listed| listed.len())));
        }
    }
    found
}

#[test]
fn calls_for_c_have_the_arguments_of_the_header() {
    let declared: BTreeMap<String, Option<usize>> =
        calls_for_c(&without_comments(&text("include/x9180.h"))).into_iter().collect();
    assert!(declared.len() >= 14, "only {declared:?} were read in the header");
    let mut wrong = Vec::new();
    let mut count = 0;
    for path in documents() {
        for (name, given) in calls_for_c(&without_comments(&text(&path))) {
            let known = declared.get(&name);
            count += usize::from(given.is_some());
            if known.is_none() || given.is_some() && known != Some(&given) {
                wrong.push(format!("{path}: {name} with {given:?} arguments, declared {known:?}"));
            }
        }
    }
    assert!(wrong.is_empty(), "calls that the header does not have: {wrong:#?}");
    assert!(count > 10, "only {count} calls with arguments were read");
    println!("{count} calls for C with arguments");
}

/// The names of a path of the wrapper: `x9180::make::{File, Letter}` has make, File and Letter.
fn names_of_path(text: &str) -> Vec<String> {
    let mut found = Vec::new();
    let mut rest = text;
    while let Some(behind) = rest.strip_prefix("::") {
        if let Some(listed) = behind.strip_prefix('{') {
            let listed = listed.split('}').next().unwrap_or_default();
            found.extend(listed.split(|c: char| !in_name(c)).map(str::to_string));
            break;
        }
        let name = name_at(behind);
        found.push(name.to_string());
        rest = &behind[name.len()..];
    }
    found.retain(|name| !name.is_empty() && name != "self");
    found
}

/// Whether the wrapper's sources declare something of this name: a function, a type, a module, a constant or a case of an enum.
fn declared_by_wrapper(sources: &str, name: &str) -> bool {
    let words = ["fn", "struct", "enum", "mod", "const", "trait", "type"];
    let declared = words.iter().any(|word| {
        let start = format!("{word} {name}");
        sources.match_indices(&start).any(|(at, _)| !sources[at + start.len()..].starts_with(in_name))
    });
    let case = sources.lines().any(|line| {
        let line = line.trim_start();
        name_at(line) == name && [",", "(", " {"].iter().any(|behind| line[name.len()..].starts_with(behind))
    });
    declared || case && name.starts_with(|c: char| c.is_ascii_uppercase())
}

#[test]
fn names_of_the_wrapper_are_there() {
    let sources: String = texts_below(&["rust/x9180/src"]).into_iter().map(|(_, code)| code).collect();
    let mut wrong = Vec::new();
    let mut count = 0;
    for path in documents() {
        let document = text(&path);
        for (at, word) in document.match_indices("x9180") {
            if document[..at].ends_with(in_name) {
                continue;
            }
            for name in names_of_path(&document[at + word.len()..]) {
                count += 1;
                if !declared_by_wrapper(&sources, &name) {
                    wrong.push(format!("{path}: {name}"));
                }
            }
        }
    }
    assert!(wrong.is_empty(), "the wrapper has no such name: {wrong:#?}");
    assert!(count > 15, "only {count} names were read");
    println!("{count} names of the wrapper");
}
