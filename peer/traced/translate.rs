//! The slow reader's sources as plain Rust. Nothing is reckoned here: lines of contracts, `ghost use` and the prover's own attributes are dropped, crates
//! become modules, the types that both readers share are copied from where they are declared, and one line is put at the start of each function of the
//! cycle. Every other line stays as it is.

/// The types of other crates that the slow reader names, by the crates that declare them.
pub const SHARED: [(&str, &[&str]); 7] = [
    ("text", &["CharacterSet", "DataType"]),
    ("field", &["Usage", "CodeList", "Forms", "Rule"]),
    ("frame", &["Extent", "Frame"]),
    ("judge", &["Flaw", "Judged"]),
    ("measure", &["Cents", "Items", "Views", "Records", "Sums"]),
    ("standing", &["Standing"]),
    ("passes", &["Fault", "Turn", "Step", "Totals", "Refusal", "Answer"]),
];

/// What each type is made to have, in the place of what it derives itself.
const COPIED: &str = "#[derive(Clone, Copy, Debug, PartialEq, Eq)]\n";

/// The beginning of every module: the others, by the names that the sources call them.
const OTHERS: &str = "use crate::sources::*;\n";

/// A crate of the slow reader as a module, its own modules in it.
pub fn own(name: &str, sources: &[(String, String)]) -> String {
    let mut root = String::new();
    let mut inner = String::new();
    for (module, source) in sources {
        let text = noted(&without_contracts(source).replace("crate::", &format!("crate::sources::{name}::")));
        match module.as_str() {
            "lib" => root = text,
            _ => inner += &format!("mod {module} {{\n{OTHERS}{text}}}\n"),
        }
    }
    // The modules stand below in full.
    let root: String = root.lines().filter(|line| !is_module(line)).map(|line| format!("{line}\n")).collect();
    format!("pub mod {name} {{\n{OTHERS}{root}{inner}}}\n")
}

fn is_module(line: &str) -> bool {
    line.starts_with("mod ") && line.ends_with(';')
}

/// Some types of a crate as a module, with what it takes from the others of them.
pub fn shared(name: &str, types: &[&str], sources: &str) -> String {
    let taken = sources.lines().filter_map(taken);
    let taken: String = taken.chain(types.iter().map(|one| declaration(one, sources))).collect();
    format!("pub mod {name} {{\n{OTHERS}{taken}}}\n")
}

/// Of `use measure::{Cents, ..};` what takes types that are shared.
fn taken(line: &str) -> Option<String> {
    let (name, listed) = line.strip_prefix("use ")?.strip_suffix(';')?.split_once("::")?;
    let (_, types) = SHARED.iter().find(|(of, _)| *of == name)?;
    let listed = listed.trim_start_matches('{').trim_end_matches('}').split(", ");
    let listed: Vec<&str> = listed.filter(|one| types.contains(one)).collect();
    (!listed.is_empty()).then(|| format!("use {name}::{{{}}};\n", listed.join(", ")))
}

/// The declaration of a type, to the line with the brace that ends it, or to the semicolon on its first line.
fn declaration(name: &str, sources: &str) -> String {
    let begins = |line: &str| {
        let rest = ["pub enum ", "pub struct ", "pub type "].iter().find_map(|start| line.strip_prefix(start));
        rest.and_then(|rest| rest.strip_prefix(name)).is_some_and(|rest| rest.starts_with([' ', '(']))
    };
    let mut lines = sources.lines().skip_while(|line| !begins(line));
    let first = lines.next().unwrap_or_else(|| panic!("the type {name} was not found"));
    // A name for another type has what that type has.
    let copied = if first.starts_with("pub type ") { "" } else { COPIED };
    let mut text = format!("{copied}{first}\n");
    if !first.ends_with(';') {
        let rest = lines.by_ref().map(|line| format!("{line}\n"));
        let mut ended = false;
        text.extend(rest.take_while(|line| !std::mem::replace(&mut ended, line == "}\n")));
    }
    text
}

/// A source without what only the prover reads: `ghost use`, its attributes, and the clauses of contracts between a function's head and its body. Each of them
/// stands on a line of its own.
fn without_contracts(source: &str) -> String {
    let mut text = String::new();
    for line in source.lines() {
        let bare = line.trim_start();
        let begins = |starts: &[&str]| starts.iter().any(|start| bare.starts_with(start));
        if begins(&["requires ", "ensures "]) {
            assert!(is_closed(bare, '{', '}'), "a contract that goes over several lines: {line}");
        } else if begins(&["ghost "]) {
            assert!(
                bare.starts_with("ghost use ") && bare.ends_with(';'),
                "a ghost item, or one over several lines: {line}"
            );
        } else if begins(&["#![tactic(", "#[tactic(", "#[cycle(", "#[derive("]) {
            assert!(is_closed(bare, '[', ']'), "an attribute that goes over several lines: {line}");
        } else {
            let code = line.split("//").next().unwrap_or_default();
            assert!(code.is_ascii(), "what is neither Rust nor a line of a contract: {line}");
            if code.starts_with("pub enum ") || code.starts_with("pub struct ") {
                text += COPIED;
            }
            text += line;
            text.push('\n');
        }
    }
    text
}

/// Whether a line ends what it begins.
fn is_closed(line: &str, opens: char, closes: char) -> bool {
    line.ends_with(closes) && line.matches(opens).count() == line.matches(closes).count()
}

/// The source with one line more at the start of each function of the cycle: its name, the figures so far and the offset.
fn noted(source: &str) -> String {
    let mut text = String::new();
    let mut entered = None;
    for line in source.lines() {
        text += line;
        text.push('\n');
        entered = name_in_cycle(line).or(entered);
        if line == "{" {
            if let Some(name) = entered.take() {
                text += &format!("    crate::note(\"{name}\", s, at);\n");
            }
        } else if line == "}" {
            entered = None;
        }
    }
    text
}

/// The name of a function of the cycle, on the line of its head: it is given the file, the figures so far and the offset at which it stands, and answers. So is the one that is
/// called where nothing is called for.
fn name_in_cycle(line: &str) -> Option<&str> {
    let head = line.strip_prefix("pub ").unwrap_or(line).strip_prefix("fn ")?;
    let (name, rest) = head.split_once('(')?;
    (rest == "set: CharacterSet, file: &[u8], s: Standing, at: usize) -> Answer").then_some(name)
}

#[cfg(test)]
mod tests {
    use super::*;

    const SOURCE: &str = "// A comment ≡ stays.
#![tactic(auto)]
mod inner;
ghost use Rattle.std.specs.Prelude.{◌≡◌};
use crate::inner::other;
use standing::Standing;

#[cycle(box_other)]
fn box(set: CharacterSet, file: &[u8], s: Standing, at: usize) -> Answer
    requires { Called set file.now s at false 1 }
    ensures number { IsAnswer set file.now result }
{
    if at == 0 {
        return other(s);
    }
}

fn ended(s: Standing, at: usize) -> Answer
    ensures { result ≡ ended_with s at }
{
    other(s)
}
";

    #[test]
    fn contracts_go_and_notes_come() {
        let text = own(
            "slow_one",
            &[
                ("inner".to_string(), "#[derive(Clone, Copy)]\npub enum E {\n    A,\n}\n".to_string()),
                ("lib".to_string(), SOURCE.to_string()),
            ],
        );
        let expected = "pub mod slow_one {
use crate::sources::*;
// A comment ≡ stays.
use crate::sources::slow_one::inner::other;
use standing::Standing;

fn box(set: CharacterSet, file: &[u8], s: Standing, at: usize) -> Answer
{
    crate::note(\"box\", s, at);
    if at == 0 {
        return other(s);
    }
}

fn ended(s: Standing, at: usize) -> Answer
{
    other(s)
}
mod inner {
use crate::sources::*;
#[derive(Clone, Copy, Debug, PartialEq, Eq)]
pub enum E {
    A,
}
}
}
";
        assert_eq!(text, expected);
    }

    #[test]
    #[should_panic(expected = "a contract that goes over several lines")]
    fn a_contract_over_several_lines_is_refused() {
        without_contracts("fn f() -> u64\n    ensures zero {\n        result == 0\n    }\n{\n    0\n}\n");
    }

    #[test]
    fn of_other_crates_the_shared_types_are_taken() {
        assert_eq!(taken("use measure::Cents;"), Some("use measure::{Cents};\n".to_string()));
        assert_eq!(taken("use measure::{Cents, within, Sums};"), Some("use measure::{Cents, Sums};\n".to_string()));
        assert_eq!(taken("use measure::within;"), None);
        assert_eq!(taken("use order::Order;"), None);
    }

    #[test]
    fn shared_types_are_copied_whole() {
        let sources = "pub enum Frames {\n    Two,\n}\n\n// Why.\npub enum Frame {\n    Cut,\n    Whole(usize, usize),\n}\n\npub struct Cents(pub u64);\n\nimpl Cents {\n}\n";
        assert_eq!(
            declaration("Frame", sources),
            format!("{COPIED}pub enum Frame {{\n    Cut,\n    Whole(usize, usize),\n}}\n")
        );
        assert_eq!(declaration("Cents", sources), format!("{COPIED}pub struct Cents(pub u64);\n"));
    }
}
