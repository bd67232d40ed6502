//! Request 12: the slow reader shares no decision with the first. The sources of every crate named slow_.. are read: of the other crates of the
//! repository they name types and the variants of enums, each on the list below, and call no function, method or constant of them; nor do they reach
//! one without its name, as by a `?` or an operator. What both readers call of the library only hands on. No other crate but `abi` names a slow one.
//! (Contracts and definitions are shared, and are no calls.)
#[path = "slow_reader/functions.rs"]
mod functions;
#[path = "slow_reader/sources.rs"]
mod sources;
#[path = "slow_reader/unnamed.rs"]
mod unnamed;

use functions::without_clauses;
use sources::{bare, crates, declared, is_name, is_slow, paths, sources_of, tokens};
use std::collections::BTreeMap;
use std::collections::BTreeSet;
use unnamed::Unnamed;

/// The types that both readers may name: words of the standard, what is found of a record, measures and answers.
const SHARED: [(&str, &str); 22] = [
    ("text", "CharacterSet"),
    ("text", "DataType"),
    ("field", "Usage"),
    ("field", "CodeList"),
    ("field", "Forms"),
    ("field", "Rule"),
    ("frame", "Extent"),
    ("frame", "Frame"),
    ("judge", "Flaw"),
    ("judge", "Judged"),
    ("measure", "Cents"),
    ("measure", "Items"),
    ("measure", "Views"),
    ("measure", "Records"),
    ("measure", "Sums"),
    ("standing", "Standing"),
    ("passes", "Fault"),
    ("passes", "Turn"),
    ("passes", "Step"),
    ("passes", "Totals"),
    ("passes", "Refusal"),
    ("passes", "Answer"),
];

/// What both readers may call of the library: they go over bytes, or hand on what another call found. None of them tests a character, a field, a
/// place, a link or a sum, or reads a length or a number.
const CARRIERS: [&str; 6] = [".copied", ".enumerate", ".get", ".iter", ".len", ".unwrap_or"];

/// What the crates that are not slow declare: the variants of each enum, by crate, and the names of all methods.
struct First {
    names: BTreeSet<String>,
    variants: BTreeMap<(String, String), BTreeSet<String>>,
    methods: BTreeSet<String>,
    unnamed: Unnamed,
}

fn first() -> First {
    let mut all = First {
        names: BTreeSet::new(),
        variants: BTreeMap::new(),
        methods: BTreeSet::new(),
        unnamed: Unnamed::default(),
    };
    for name in crates().into_keys().filter(|name| is_slow(name)) {
        all.unnamed.slow(&tokens(&sources_of(&name)));
    }
    for name in crates().into_keys().filter(|name| !is_slow(name)) {
        let tokens = tokens(&sources_of(&name));
        all.unnamed.first(&tokens);
        let (variants, methods) = declared(&tokens);
        for (owner, of_it) in variants {
            all.variants.insert((name.clone(), owner), of_it);
        }
        all.methods.extend(methods);
        all.names.insert(name);
    }
    all
}

/// Whether a path into a crate names a shared type, or a variant of a shared enum.
fn is_shared(first: &First, path: &[String]) -> bool {
    let Some(name) = path.get(1) else { return false };
    let listed = SHARED.contains(&(path[0].as_str(), name.as_str()));
    let variants = first.variants.get(&(path[0].clone(), name.clone()));
    match path.len() {
        2 => listed,
        3 => listed && variants.is_some_and(|all| all.contains(&path[2])),
        _ => false,
    }
}

/// What a source of a slow crate takes of the first reader that is not shared.
fn decisions_shared(first: &First, source: &str) -> Vec<String> {
    let tokens = tokens(&bare(source));
    let mut brought: BTreeMap<String, Vec<String>> = BTreeMap::new();
    let mut wrong = Vec::new();
    for (mut path, in_use) in paths(&tokens) {
        if let Some(whole) = brought.get(&path[0]) {
            path.splice(0..1, whole.iter().cloned());
        }
        if !first.names.contains(&path[0]) {
            continue;
        }
        let renamed = path.iter().position(|name| name == "as");
        let name = path.last().cloned().unwrap_or_default();
        path.truncate(renamed.unwrap_or(path.len()));
        if !is_shared(first, &path) {
            wrong.push(path.join("::"));
        } else if in_use {
            brought.insert(name, path);
        }
    }
    let (_, own) = declared(&tokens);
    for three in tokens.windows(3).filter(|three| three[0] == "." && three[2] == "(") {
        if first.methods.contains(&three[1]) && !own.contains(&three[1]) {
            wrong.push(format!(".{}()", three[1]));
        }
    }
    wrong.extend(first.unnamed.reached(&tokens));
    wrong
}

/// A crate with all that it stands on.
fn below(name: &str, all: &BTreeMap<String, Vec<String>>, found: &mut BTreeSet<String>) {
    if found.insert(name.to_string()) {
        for named in &all[name] {
            below(named, all, found);
        }
    }
}

/// Names that begin a path into this repository.
fn is_own(head: &str) -> bool {
    let shared = SHARED.iter().any(|(_, name)| *name == head);
    shared || matches!(head, "crate" | "self" | "super" | "Self") || crates().contains_key(head)
}

/// What a source calls or brings of the library: `.name` of a method, the last two names of a path.
fn called(source: &str) -> BTreeSet<String> {
    let tokens = without_clauses(&tokens(&bare(source)));
    let methods = tokens
        .windows(4)
        .filter(|four| four[0] != "." && four[1] == "." && is_name(&four[2]) && matches!(four[3].as_str(), "(" | "::"));
    let mut found: BTreeSet<String> = methods.map(|four| format!(".{}", four[2])).collect();
    for (path, _) in paths(&tokens).into_iter().filter(|(path, _)| !is_own(&path[0])) {
        found.insert(path[path.len().saturating_sub(2)..].join("::"));
    }
    found
}

/// What the first reader calls of the library.
fn called_by_the_first() -> BTreeSet<String> {
    let mut names = BTreeSet::new();
    below("reader", &crates(), &mut names);
    names.iter().flat_map(|name| called(&sources_of(name))).collect()
}

/// What a source of a slow crate calls of the library as the first reader does, and that does more than hand on.
fn library_shared(of_first: &BTreeSet<String>, source: &str) -> Vec<String> {
    called(source).intersection(of_first).filter(|name| !CARRIERS.contains(&name.as_str())).cloned().collect()
}

#[test]
fn slow_crates_call_nothing_of_the_first_reader() {
    let first = first();
    let slow: Vec<String> = crates().into_keys().filter(|name| is_slow(name)).collect();
    for name in ["slow_field", "slow_record", "slow_text"] {
        assert!(slow.iter().any(|one| one == name), "{name} is not in crates.txt");
    }
    for name in &slow {
        let wrong = decisions_shared(&first, &sources_of(name));
        assert!(wrong.is_empty(), "{name} shares these with the first reader: {wrong:#?}");
    }
    println!("{} crates of the slow reader call nothing of the first", slow.len());
}

#[test]
fn both_readers_call_only_what_hands_on() {
    let of_first = called_by_the_first();
    for name in crates().into_keys().filter(|name| is_slow(name)) {
        let both = library_shared(&of_first, &sources_of(&name));
        assert!(both.is_empty(), "{name} calls these of the library, and the first reader does: {both:#?}");
    }
}

#[test]
fn each_trait_is_known() {
    let unknown = first().unnamed.unknown;
    assert!(unknown.is_empty(), "traits of which this test does not know how they are reached: {unknown:#?}");
}

#[test]
fn no_other_crate_names_a_slow_one() {
    for (name, named) in crates() {
        if is_slow(&name) || name == "abi" {
            continue;
        }
        assert!(!named.iter().any(|one| is_slow(one)), "{name} names a slow crate in crates.txt");
        let found = tokens(&sources_of(&name)).into_iter().find(|token| is_slow(token));
        assert!(found.is_none(), "{name} names {found:?}");
    }
}

/// The check itself, on made-up sources.
#[test]
fn a_shared_decision_is_found() {
    let first = first();
    for source in [
        "fn f(set: text::CharacterSet, s: &[u8]) -> u64 { text::number_in(set, s) }",
        "fn f(body: &[u8]) -> u64 { let kind = judge::type_of(set, body); kind }",
        "use text::number_in;",
        "use judge::{Judged, type_of};",
        "use text::{CharacterSet, number_in as read};",
        "use text::*;",
        "use text as first_text;",
        "use judge::Judged;\nfn f(j: Judged) -> u64 { Judged::number(j) }",
        "use judge::Judged as Found;\nfn f(j: Found) -> u64 { Found::number(j) }",
        "use judge::Judged;\nfn f(j: Judged) -> u64 { j.number() }",
        "use frame::Cursor;",
        "fn f() -> u64 { layout::FileHeader::TYPE }",
        "fn f() -> u64 { text ::\n number_in(set, s) }",
        "fn f() -> [u64; 322] { layout::table() }",
        "#[tactic(auto)] fn f(set: CharacterSet, s: &[u8]) -> u64 { text::number_in(set, s) } #[allow(unused)]",
        "#[tactic(auto,\n    unfolding(text::specs::Number::number))] fn f(s: &[u8]) -> u64 { text::number_in(set, s) }",
    ] {
        assert!(!decisions_shared(&first, source).is_empty(), "not found: {source}");
    }
}

/// What is reached without a name: conversions, operators, comparisons and printing.
#[test]
fn a_decision_without_a_name_is_found() {
    let first = first();
    for source in [
        "fn g() -> Result<u64, Flaw> { Err(Flaw::Length) }\nfn f() -> Result<u64, Fault> { Ok(g()?) }",
        "fn g() -> Judged { Ok(()) }\nfn f() -> Turn { g()?; Ok(1) }",
        "fn f(set: CharacterSet, kind: u64, body: &[u8]) -> Step { slow_record::judge(set, kind, body)?; Ok((kind, 0)) }",
        "use passes::Turn as Told;\nfn f() -> Told { found_in(1)?; Ok(1) }",
        "use passes::Fault as Wrong;\nfn g() -> Judged { Ok(()) }\nfn f() -> Result<(), Wrong> { g()?; Ok(()) }",
        "fn f(judged: Judged) -> Turn { judged?; Ok(1) }",
        "fn f(flaw: Flaw) -> Fault { flaw.into() }",
        "fn f(judged: Judged) -> Turn { judged.map_err(Into::into).map(|_| 1) }",
        "fn f(judged: Judged) -> Turn { judged.map_err(From::from).map(|_| 1) }",
        "use passes::Fault;\nfn f(flaw: Flaw) -> Fault { Fault::from(flaw) }",
        "fn f(flaw: Flaw) -> Fault { <Fault as From<Flaw>>::from(flaw) }",
        "fn f(a: Standing, b: Standing) -> Items { a.items + b.items }",
        "fn f(s: Sums) -> Views { s.views + Views(1) }",
        "fn f(n: u64) -> Items { Items(n) + Items(1) }",
        "fn f(n: u64, s: Sums) -> Items { let more = Items(n); more + s.debits }",
        "fn f(more: Items) -> Items { Items(1) + more }",
        "fn f(mut s: Sums, more: Items) -> Sums { s.credits += more; s }",
        "fn f(more: [Items; 2]) -> Items { (more[0]) + more[1] }",
        "use measure::Items as Count;\nfn f(n: u64) -> Count { Count(n) + Count(1) }",
        "type Count = Items;\nfn f(n: Count, m: Count) -> Count { n + m }",
        "fn f(set: CharacterSet) -> bool { set == CharacterSet::Ascii }",
        "fn f(t: DataType) -> bool { t != DataType::NB }",
        "fn f(a: &[u8], b: &[u8]) -> bool { a == b }",
        "fn f(a: &[u8], b: &[u8]) -> bool { a[1..3] != b[..2] }",
        "fn f(file: &[u8]) -> bool { slow_text::behind(file, 4) == [1, 2] }",
        "fn f(rt: R, set: CharacterSet) { println!(rt; \"{set}\")?; }",
    ] {
        assert!(!decisions_shared(&first, source).is_empty(), "not found: {source}");
    }
}

/// What the first reader calls of the library too, and that tests or reads.
#[test]
fn a_decision_of_the_library_is_found() {
    let of_first = called_by_the_first();
    for source in [
        "fn f(s: [u8; 4]) -> u32 { u32::from_be_bytes(s) }",
        "fn f(n: u64) -> u64 { n.min(5) }",
        "fn f(n: u64) -> u64 { n.saturating_sub(1) }",
        "fn f(s: &[u8]) -> bool { s.iter().any(|x| *x == 0) }",
        "fn f(x: u8) -> u64 { u64::from(x) }",
    ] {
        assert!(!library_shared(&of_first, source).is_empty(), "not found: {source}");
    }
}

#[test]
fn types_and_variants_and_own_functions_are_no_decision() {
    let first = first();
    for source in [
        "use text::CharacterSet;\nfn f() -> CharacterSet { CharacterSet::Ebcdic }",
        "fn f() -> frame::Frame { Some(frame::Extent { start: 4, size: 80 }) }",
        "use judge::Flaw;\nfn f() -> judge::Judged { Err(Flaw::UnknownType) }",
        "#[tactic(auto, unfolding(text::specs::Number::number))]\nfn f() -> u64 { 0 }",
        "use measure::Cents;\nfn f() -> Cents { Cents(5) }",
        "// text::number_in is the first reader's\nfn f() -> u64 { slow_text::number_in(set, s) }",
        "use crate::lines::field_in;\nuse slow_text::{number_in, all_blank};",
        "ghost use Rattle·text.specs.Number.{number};\nfn f(s: &[u8]) -> usize { s.len() }",
        "fn f() -> u64\n    ensures { λ r. ⌜ r ≡ number set (now (s .entry)) ⌝ }\n{ 0 }",
        "fn g() -> Turn { Ok(1) }\nfn f() -> Step { let kind = g()?; Ok((kind, 0)) }",
        "fn f(s: &[u8]) -> Judged { g(s).ok_or(Flaw::Length)?; Ok(()) }",
        "fn f(s: Standing) -> Items { Items(1 + s.items.0) }",
        "fn f(s: Sums, more: Sums) -> Views { Views(more.views.0 + s.views.0) }",
        "fn f(s: &[u8], t: &[u8]) -> bool { s.len() == t.len() && s[0] == t[1] }",
        "fn f(set: CharacterSet, n: u64) -> u64\n    requires { a.items + b.items ≡ n }\n{ n + 1 }",
    ] {
        assert_eq!(decisions_shared(&first, source), Vec::<String>::new(), "{source}");
    }
}
