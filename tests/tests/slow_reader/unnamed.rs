//! What of the first reader a source can reach without its name: a conversion by `?` or `into`, an operator, a comparison that is derived, and how a
//! value is printed. The traits that its types have are read from its sources; one that is not known here fails the test.
use crate::functions::{aliases, closed, fields, functions, opened, typed, without_clauses, Function, Types};
use crate::sources::is_name;
use std::collections::BTreeMap;
use std::collections::BTreeSet;

/// The traits whose functions are reached by their names alone (`.name(`, `Type::name(`), which the test of names finds; and what only copies.
const BY_NAME: [&str; 8] = ["Charset", "Kind", "JudgedExt", "FoundExt", "TagsExt", "Clone", "Copy", "Drop"];

const PRINTED: [&str; 7] = ["format", "write", "writeln", "print", "println", "eprint", "eprintln"];

const CONVERTING: [&str; 4] = ["from", "into", "try_from", "try_into"];

const NUMBERS: [&str; 12] = ["u8", "u16", "u32", "u64", "u128", "usize", "i8", "i16", "i32", "i64", "i128", "isize"];

/// What the crates that are not slow have for their types, and what the slow ones answer.
#[derive(Default, Clone)]
pub struct Unnamed {
    /// What a value is turned into by a `From` that is written out.
    targets: BTreeSet<String>,
    /// Types with a `+` of their own, and types with an `==`.
    added: BTreeSet<String>,
    compared: BTreeSet<String>,
    printed: BTreeSet<String>,
    /// Traits that are none of these, with their types.
    pub unknown: Vec<(String, String)>,
    fields: Types,
    aliases: BTreeMap<String, BTreeSet<Vec<String>>>,
    answers: BTreeMap<String, BTreeSet<Vec<String>>>,
}

/// The last name of a path, in front of its arguments.
fn last_name(path: &[String]) -> Option<&String> {
    let end = path.iter().position(|token| token == "<").unwrap_or(path.len());
    path[..end].iter().rfind(|token| is_name(token))
}

impl Unnamed {
    fn has(&mut self, of: &str, owner: &str) {
        match of {
            "From" | "TryFrom" => self.targets.insert(owner.to_string()),
            "Add" | "AddAssign" => self.added.insert(owner.to_string()),
            "PartialEq" | "Eq" => self.compared.insert(owner.to_string()),
            "Display" | "Debug" => self.printed.insert(owner.to_string()),
            _ if BY_NAME.contains(&of) => true,
            _ => {
                self.unknown.push((of.to_string(), owner.to_string()));
                true
            }
        };
    }

    /// `impl TRAIT for TYPE {`
    fn written_out(&mut self, tokens: &[String]) {
        for at in (0..tokens.len()).filter(|at| tokens[*at] == "impl") {
            let end = tokens[at..].iter().position(|token| token == "{").map_or(at, |end| at + end);
            let mut head = &tokens[at + 1..end.max(at + 1)];
            if head.first().is_some_and(|token| token == "<") {
                let of_names = head.iter().position(|token| token == ">").unwrap_or(0);
                head = &head[of_names + 1..];
            }
            let Some(middle) = head.iter().position(|token| token == "for") else { continue };
            if let (Some(of), Some(owner)) = (last_name(&head[..middle]), last_name(&head[middle + 1..])) {
                self.has(of, owner);
            }
        }
    }

    /// `derive(TRAIT, ..)` and the type behind it
    fn derived(&mut self, tokens: &[String]) {
        for at in (0..tokens.len()).filter(|at| tokens[*at] == "derive") {
            let end = closed(tokens, at);
            let kind = tokens[end..].iter().position(|token| token == "enum" || token == "struct");
            let Some(owner) = kind.and_then(|kind| tokens.get(end + kind + 1)) else { continue };
            for of in tokens[at..end].split(|token| token == ",").filter_map(|path| path.iter().rfind(|t| is_name(t))) {
                self.has(of, owner);
            }
        }
    }

    /// A source of a crate that is not slow.
    pub fn first(&mut self, tokens: &[String]) {
        self.written_out(tokens);
        self.derived(tokens);
        fields(tokens, &mut self.fields);
        aliases(tokens, &mut self.aliases);
    }

    /// A source of a slow crate.
    pub fn slow(&mut self, tokens: &[String]) {
        fields(tokens, &mut self.fields);
        aliases(tokens, &mut self.aliases);
        for function in functions(&without_clauses(tokens)) {
            self.answers.entry(function.name).or_default().insert(function.answer);
        }
    }

    /// The error of an answer's type, where it can be told; "Option" of an option.
    fn error_of(&self, answer: &[String]) -> Option<String> {
        let name = last_name(answer)?;
        match name.as_str() {
            "Option" => Some(name.clone()),
            "Result" => {
                let name = last_name(&answer[outer_comma(answer)? + 1..])?;
                match self.aliases.get(name) {
                    Some(meanings) => one(meanings.iter().map(|meaning| last_name(meaning).cloned())),
                    None => Some(name.clone()),
                }
            }
            _ => one(self.aliases.get(name)?.iter().map(|meaning| self.error_of(meaning))),
        }
    }

    /// The error of what stands in front of a `?`, where that is a call of a slow function.
    fn error_before(&self, body: &[String], at: usize) -> Option<String> {
        let open = opened(body, at.checked_sub(1).filter(|close| body[*close] == ")")?);
        let callee = body.get(open.checked_sub(1)?)?;
        one(self.answers.get(callee)?.iter().map(|answer| self.error_of(answer)))
    }

    /// Each `?` that may turn one error into another by a `From` that is written out.
    fn turned(&self, function: &Function, wrong: &mut Vec<String>) {
        let own = self.error_of(&function.answer);
        if own.as_ref().is_some_and(|own| !self.targets.contains(own)) {
            return;
        }
        for at in (0..function.body.len()).filter(|at| function.body[*at] == "?") {
            if own.is_none() || self.error_before(&function.body, at) != own {
                wrong.push(format!("? in {}", function.name));
            }
        }
    }

    /// Whether what ends at a place is a value of one of the types. `[` stands for a slice.
    fn is_of(&self, types: &BTreeSet<String>, names: &Types, body: &[String], end: usize) -> bool {
        let word = body[end].as_str();
        let is_named = |name: &String| names.get(name).is_some_and(|words| !words.is_disjoint(types));
        match word {
            "?" => end > 0 && self.is_of(types, names, body, end - 1),
            ")" | "]" => self.is_closed(types, names, body, end),
            _ if !is_name(word) => false,
            _ if end >= 2 && body[end - 1] == "::" => types.contains(&body[end - 2]),
            _ => is_named(&body[end]),
        }
    }

    /// The same of what ends with a bracket: a call, an element, a part of a slice, or what stands in parentheses.
    fn is_closed(&self, types: &BTreeSet<String>, names: &Types, body: &[String], end: usize) -> bool {
        let open = opened(body, end);
        let before = open.checked_sub(1).map(|at| &body[at]).filter(|name| is_name(name));
        let Some(before) = before else {
            let is_list = body[end] == "]" && types.contains("[");
            return is_list || (open + 1 < end && self.is_of(types, names, body, end - 1));
        };
        let mut words: BTreeSet<String> = names.get(before).cloned().unwrap_or_default();
        if body[end] == ")" {
            words = self.answers.get(before).into_iter().flatten().flatten().cloned().collect();
            words.insert(before.clone());
        } else if !body[open..end].windows(2).any(|two| two[0] == "." && two[1] == ".") {
            words.remove("[");
        }
        !words.is_disjoint(types)
    }

    /// The names of a function whose types are written, and those that are bound to a value of one of the types.
    fn names_in(&self, types: &BTreeSet<String>, function: &Function) -> Types {
        let mut names = self.fields.clone();
        typed(&function.head, &mut names);
        typed(&function.body, &mut names);
        let body = &function.body;
        for at in (0..body.len()).filter(|at| body[*at] == "let") {
            let end = body[at..].iter().position(|token| token == ";").map_or(body.len(), |end| at + end);
            let Some(equals) = body[at..end].iter().position(|token| token == "=") else { continue };
            if self.is_of(types, &names, body, end - 1) {
                for name in body[at..at + equals].iter().filter(|name| is_name(name)) {
                    names.entry(name.clone()).or_default().extend(types.iter().cloned());
                }
            }
        }
        names
    }

    /// Each operator with a value of one of the types beside it.
    fn operated(&self, types: &BTreeSet<String>, marks: &[&[&str]], function: &Function, wrong: &mut Vec<String>) {
        let names = self.names_in(types, function);
        let body = &function.body;
        for at in 1..body.len() {
            let Some(mark) = marks.iter().find(|mark| is_mark(body, at, mark)) else { continue };
            let behind = end_of(body, at + mark.len());
            if self.is_of(types, &names, body, at - 1) || behind.is_some_and(|end| self.is_of(types, &names, body, end))
            {
                wrong.push(format!("{} in {}", mark.concat(), function.name));
            }
        }
    }

    /// The same, with a source that is looked at: what it declares, and its own names for the types.
    fn with(&self, tokens: &[String]) -> Unnamed {
        let mut all = self.clone();
        all.slow(tokens);
        for types in [&mut all.targets, &mut all.added, &mut all.compared] {
            let renamed = tokens.windows(3).filter(|three| three[1] == "as" && types.contains(&three[0]));
            let renamed: Vec<String> = renamed.map(|three| three[2].clone()).collect();
            let stands_for = |meaning: &Vec<String>| last_name(meaning).is_some_and(|name| types.contains(name));
            let named = all.aliases.iter().filter(|(_, meanings)| meanings.iter().any(stands_for));
            let named: Vec<String> = named.map(|(name, _)| name.clone()).collect();
            types.extend(renamed.into_iter().chain(named));
        }
        all
    }

    /// What a source of a slow crate reaches without a name.
    pub fn reached(&self, tokens: &[String]) -> Vec<String> {
        let all = self.with(tokens);
        let code = without_clauses(tokens);
        let mut wrong = converted(&code, &all.targets);
        if !all.printed.is_empty() {
            wrong.extend(code.windows(2).filter(|two| is_printing(two)).map(|two| two.concat()));
        }
        let slices = all.compared.iter().cloned().chain(["[".to_string()]).collect();
        for function in functions(&code) {
            all.turned(&function, &mut wrong);
            all.operated(&all.added, &[&["+", "="], &["+"]], &function, &mut wrong);
            all.operated(&slices, &[&["=", "="], &["!", "="]], &function, &mut wrong);
        }
        wrong
    }
}

/// The one that all of them are, where they are the same.
fn one(mut all: impl Iterator<Item = Option<String>>) -> Option<String> {
    let first = all.next()??;
    all.all(|other| other.as_ref() == Some(&first)).then_some(first)
}

/// The comma between the two arguments of a `Result`.
fn outer_comma(answer: &[String]) -> Option<usize> {
    let mut depth = 0;
    answer.iter().position(|token| {
        match token.as_str() {
            "<" | "(" | "[" => depth += 1,
            ">" | ")" | "]" => depth -= 1,
            _ => {}
        }
        depth == 1 && token == ","
    })
}

fn is_mark(body: &[String], at: usize, mark: &[&str]) -> bool {
    let stands = body[at..].iter().zip(mark).filter(|(token, mark)| token == mark).count() == mark.len();
    stands && !(mark[0] == "=" && matches!(body[at - 1].as_str(), "=" | "!" | "<" | ">" | "+"))
}

/// Where a value that begins at a place ends: a name, a number or what stands in brackets, with its fields, calls and parts.
fn end_of(body: &[String], from: usize) -> Option<usize> {
    let mut end = (from..body.len()).find(|at| !matches!(body[*at].as_str(), "&" | "*" | "-" | "!" | "mut"))?;
    if matches!(body[end].as_str(), "(" | "[") {
        end = closed(body, end);
    }
    while let Some(next) = body.get(end + 1) {
        match next.as_str() {
            "." | "::" if body.get(end + 2).is_some_and(|word| word != ".") => end += 2,
            "(" | "[" => end = closed(body, end + 1),
            "?" => end += 1,
            _ => break,
        }
    }
    (end < body.len()).then_some(end)
}

/// `.into()` and the like, and `::from` of anything but a number.
fn converted(code: &[String], targets: &BTreeSet<String>) -> Vec<String> {
    let mut wrong = Vec::new();
    for three in code.windows(3).filter(|three| CONVERTING.contains(&three[2].as_str())) {
        let of_number = NUMBERS.contains(&three[0].as_str()) && !targets.contains(&three[0]);
        if three[1] == "." || (three[1] == "::" && !of_number) {
            wrong.push(three.concat());
        }
    }
    wrong
}

fn is_printing(two: &[String]) -> bool {
    (PRINTED.contains(&two[0].as_str()) && two[1] == "!") || (two[0] == "." && two[1] == "to_string")
}
