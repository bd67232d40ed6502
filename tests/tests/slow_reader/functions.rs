//! The functions of a source, without their clauses: what each answers, and what its body says.
use crate::sources::is_name;
use std::collections::BTreeMap;
use std::collections::BTreeSet;

/// The words of a type, by the names that it is written beside or stands for.
pub type Types = BTreeMap<String, BTreeSet<String>>;

pub struct Function {
    pub name: String,
    /// The words of the answer's type.
    pub answer: Vec<String>,
    pub head: Vec<String>,
    pub body: Vec<String>,
}

/// The place of the bracket that closes the first one from a place on; the end where none does.
pub fn closed(tokens: &[String], from: usize) -> usize {
    let mut depth = 0;
    for (at, token) in tokens.iter().enumerate().skip(from) {
        match token.as_str() {
            "(" | "[" | "{" => depth += 1,
            ")" | "]" | "}" if depth <= 1 => return at,
            ")" | "]" | "}" => depth -= 1,
            _ => {}
        }
    }
    tokens.len()
}

/// The place of the bracket that the one at a place closes; 0 where none opens it.
pub fn opened(tokens: &[String], close: usize) -> usize {
    let mut depth = 0;
    for at in (0..=close).rev() {
        match tokens[at].as_str() {
            ")" | "]" | "}" => depth += 1,
            "(" | "[" | "{" if depth == 1 => return at,
            "(" | "[" | "{" => depth -= 1,
            _ => {}
        }
    }
    0
}

/// Clauses are no code: `requires` and `ensures`, each with its braces.
pub fn without_clauses(tokens: &[String]) -> Vec<String> {
    let mut kept = Vec::new();
    let mut at = 0;
    while at < tokens.len() {
        if matches!(tokens[at].as_str(), "requires" | "ensures") {
            at = closed(tokens, at) + 1;
        } else {
            kept.push(tokens[at].clone());
            at += 1;
        }
    }
    kept
}

/// What stands between the arrow of a head and its end or its `where`.
fn answer_in(head: &[String]) -> Vec<String> {
    let arrow = head.windows(2).rposition(|two| two[0] == "-" && two[1] == ">");
    let words = arrow.map_or(&[][..], |at| &head[at + 2..]);
    words.iter().take_while(|word| *word != "where").cloned().collect()
}

/// Where the body of a function begins, or the mark that stands for it. The `;` of an array's type stands in brackets.
fn head_end(tokens: &[String], from: usize) -> usize {
    let mut depth = 0;
    let end = tokens[from..].iter().position(|token| {
        match token.as_str() {
            "(" | "[" => depth += 1,
            ")" | "]" => depth -= 1,
            _ => {}
        }
        depth == 0 && (token == "{" || token == ";")
    });
    end.map_or(tokens.len(), |end| from + end)
}

/// Every function.
pub fn functions(tokens: &[String]) -> Vec<Function> {
    let mut found = Vec::new();
    for at in (0..tokens.len()).filter(|at| tokens[*at] == "fn") {
        let Some(name) = tokens.get(at + 1).filter(|name| is_name(name)) else { continue };
        let end = head_end(tokens, at);
        let head = tokens[at..end].to_vec();
        let has_body = tokens.get(end).is_some_and(|token| token == "{");
        let body = if has_body { tokens[end..closed(tokens, end)].to_vec() } else { Vec::new() };
        found.push(Function { name: name.clone(), answer: answer_in(&head), head, body });
    }
    found
}

/// The words that stand behind `name:`, up to what ends a type, for every such name. A value given to a field counts as its type does: its constructor
/// names it.
pub fn typed(tokens: &[String], into: &mut Types) {
    for at in (0..tokens.len()).filter(|at| is_name(&tokens[*at])) {
        if tokens.get(at + 1).is_none_or(|next| next != ":") {
            continue;
        }
        let mut depth = 0;
        let words = tokens[at + 2..].iter().take_while(|token| {
            match token.as_str() {
                "(" | "[" | "<" => depth += 1,
                ")" | "]" | ">" => depth -= 1,
                "{" | "}" | ";" | "=" => return false,
                _ => {}
            }
            depth >= 0 && !(depth == 0 && *token == ",")
        });
        into.entry(tokens[at].clone()).or_default().extend(words.cloned());
    }
}

/// The fields of the structs that a source declares.
pub fn fields(tokens: &[String], into: &mut Types) {
    for at in (0..tokens.len()).filter(|at| tokens[*at] == "struct") {
        let end = tokens[at..].iter().position(|token| token == "{" || token == ";").map_or(at, |end| at + end);
        if tokens[end] == "{" {
            typed(&tokens[end..closed(tokens, end)], into);
        }
    }
}

/// The names for types that a source declares, each with what it stands for.
pub fn aliases(tokens: &[String], into: &mut BTreeMap<String, BTreeSet<Vec<String>>>) {
    for at in (0..tokens.len()).filter(|at| tokens[*at] == "type") {
        let [name, equals, ..] = &tokens[at + 1..] else { continue };
        if equals == "=" {
            let meaning = tokens[at + 3..].iter().take_while(|token| *token != ";").cloned().collect();
            into.entry(name.clone()).or_default().insert(meaning);
        }
    }
}
