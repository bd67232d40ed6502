//! What docs/WHAT-IS-PROVED.md asks its reader to believe: each crate that it names has definitions, and each crate whose definitions the contract of a
//! public call reaches is named. The public face is the crate `abi` and the crates whose calls docs/CALLING.md shows. A contract reaches a file of
//! definitions by a name that it uses, and a file of definitions those that it imports.
use std::collections::BTreeMap;
use std::collections::BTreeSet;

use crate::calls::calls_of_crates;
use crate::repository::*;

/// A file of definitions: the crate, and the module within its `specs/`.
type Module = (String, String);

/// A line that imports from the definitions of a crate: whose, and the names by which it is known from then on. What is declared in a crate's own code
/// (`declared`) is a type and no definition, and what is imported from the toolchain's library is none of ours.
fn import(line: &str) -> Option<(Module, Vec<String>)> {
    let line = line.trim_start_matches("ghost ").strip_prefix("use Rattle.")?.trim_end_matches(';');
    let (name, path) = line.split_once(".specs.")?;
    if !root().join("crates").join(name).is_dir() {
        return None;
    }
    let end = path.find(".{").or(path.find(" as ")).unwrap_or(path.len());
    let module = path[..end].to_string();
    if module == "declared" || module.starts_with("declared.") {
        return None;
    }
    let listed = path[end..].trim_start_matches(".{").trim_end_matches('}');
    let known = listed.split(',').filter_map(|word| word.split_whitespace().last()).map(str::to_string).collect();
    Some(((name.to_string(), module), known))
}

/// The contracts of a file's public functions: from `pub fn` to the brace that opens the body.
fn contracts(code: &str) -> Vec<String> {
    let mut found: Vec<String> = Vec::new();
    let mut open = false;
    for line in code.lines() {
        if line.starts_with("pub fn ") || line.starts_with("pub extern \"C\" fn ") {
            found.push(String::new());
            open = true;
        }
        if line == "{" {
            open = false;
        }
        if let (true, Some(contract)) = (open, found.last_mut()) {
            contract.push_str(line);
            contract.push('\n');
        }
    }
    found
}

/// The files of definitions that the contracts of a crate's public functions name.
fn named_by_contracts(name: &str) -> BTreeSet<Module> {
    let mut found = BTreeSet::new();
    for (_, code) in texts_below(&[&format!("crates/{name}/src")]) {
        let mut known: BTreeMap<String, Module> = BTreeMap::new();
        for (module, words) in code.lines().filter_map(import) {
            known.extend(words.into_iter().map(|word| (word, module.clone())));
        }
        for contract in contracts(&code) {
            let words = contract.split(|c: char| !c.is_alphanumeric() && c != '-' && c != '\'' && c != '_');
            found.extend(words.filter_map(|word| known.get(word).cloned()));
        }
    }
    found
}

/// All files of definitions that are reached from these.
fn reached(mut open: Vec<Module>) -> BTreeSet<Module> {
    let mut found = BTreeSet::new();
    while let Some(module) = open.pop() {
        if found.insert(module.clone()) {
            let path = format!("crates/{}/specs/{}.antt", module.0, module.1.replace('.', "/"));
            open.extend(text(&path).lines().filter_map(import).map(|(next, _)| next));
        }
    }
    found
}

/// The part of a document below a heading that has this word, up to the next heading of that depth.
fn section(document: &str, word: &str) -> String {
    let mut found = String::new();
    let mut inside = false;
    for line in document.lines() {
        if line.starts_with("## ") {
            inside = line.contains(word);
        }
        if inside {
            found.push_str(line);
            found.push('\n');
        }
    }
    found
}

/// The crates that are named as to be believed: in the item that begins with "**The definitions**", by name or by path, and by path in the first cell
/// of the rows of a table.
fn believed() -> BTreeSet<String> {
    let section = section(&text("docs/WHAT-IS-PROVED.md"), "believed");
    let mut found = BTreeSet::new();
    let mut item = false;
    for line in section.lines() {
        let begins =
            line.starts_with("- ") || line.starts_with("**") || line.trim().is_empty() || line.starts_with('#');
        item = if begins { line.contains("**The definitions**") } else { item };
        let row = line.starts_with('|').then(|| line.split('|').nth(1).unwrap_or_default());
        for (word, _) in quoted(row.unwrap_or(if item { line } else { "" })) {
            let bare = word.strip_prefix("crates/").map(|path| path.split('/').next().unwrap_or_default());
            let is_crate = |name: &str| root().join("crates").join(name).is_dir();
            found.extend(bare.or((row.is_none() && is_crate(&word)).then_some(word.as_str())).map(str::to_string));
        }
    }
    found
}

#[test]
fn what_is_to_be_believed_has_definitions() {
    let named = believed();
    let without: Vec<_> =
        named.iter().filter(|name| !root().join("crates").join(name).join("specs").is_dir()).collect();
    assert!(without.is_empty(), "named as to be believed, but without specs/: {without:?}");
    assert!(named.len() > 20, "only {named:?} were read");
}

#[test]
fn what_a_public_contract_reaches_is_named() {
    let mut face: BTreeSet<String> =
        calls_of_crates(&text("docs/CALLING.md")).into_iter().map(|call| call.of).collect();
    face.insert("abi".to_string());
    let named = believed();
    let start = face.iter().flat_map(|name| named_by_contracts(name)).collect();
    let crates: BTreeSet<String> = reached(start).into_iter().map(|(name, _)| name).collect();
    let missing: Vec<_> = crates.difference(&named).collect();
    assert!(missing.is_empty(), "docs/WHAT-IS-PROVED.md does not name {missing:?}, which the calls of {face:?} reach");
    assert!(crates.len() > 25, "only {crates:?} are reached");
}
