//! The writings of the layouts, line by line: the definitions (crates/layout/specs/Layouts.antt), the numbers of the code
//! (crates/layout/src/packed.rt) and those of the slow reader (crates/slow_record/src/table.rt). The prover refuses the crate where they
//! differ, but says only that they do; this says where.
use std::fs;
use std::path::Path;

fn text(path: &str) -> String {
    let root = Path::new(env!("CARGO_MANIFEST_DIR")).parent().expect("the repository");
    fs::read_to_string(root.join(path)).unwrap_or_else(|error| panic!("{path}: {error}"))
}

/// A field as both writings can say it.
#[derive(Debug, PartialEq)]
struct Written {
    place: String,
    words: Vec<String>,
    name: String,
}

/// `StandardLevel` as `STANDARD_LEVEL`.
fn in_capitals(word: &str) -> String {
    let mut out = String::new();
    for (i, c) in word.chars().enumerate() {
        if c.is_uppercase() && i > 0 && !word[..i].ends_with(char::is_uppercase) {
            out.push('_');
        }
        out.extend(c.to_uppercase());
    }
    out
}

/// `routing (TTTTAAAAC ∷ TTTTT-FFF ∷ [])` as `ROUTING`, `TTTTAAAAC`, `TTTTT_FFF`.
fn routing_in_capitals(forms: &[&str]) -> Vec<String> {
    let listed = forms
        .iter()
        .map(|word| word.trim_matches(|c| c == '(' || c == ')'))
        .filter(|word| !["∷", "[]"].contains(word))
        .map(|form| form.replace('-', "_").replace('b', "B_"));
    std::iter::once("ROUTING".to_string()).chain(listed).collect()
}

/// The rule of a line of the definitions, in the words of the code.
fn rule_in_capitals(rule: &str) -> Vec<String> {
    let words: Vec<&str> = rule.trim_matches(|c| c == '(' || c == ')').split(' ').collect();
    match words[..] {
        ["none" | "any_number" | "not_judged"] => Vec::new(),
        ["only", n] => vec!["NUMBERS".into(), format!("{n} * LOW"), n.into()],
        ["numbers", low, high] => vec!["NUMBERS".into(), format!("{low} * LOW"), high.into()],
        ["clipped_by", position] => vec!["CLIPPED_BY".into(), position.into()],
        ["Code", list] => vec![in_capitals(list)],
        ["routing", ..] => routing_in_capitals(&words[1..]),
        [one] => vec![in_capitals(one)],
        _ => panic!("a rule that this test does not know: {rule}"),
    }
}

/// The mark of a line of the definitions, in the words of the code, which says nothing of what is given.
fn origin_in_capitals(origin: &str) -> Vec<String> {
    if origin == "Given" {
        Vec::new()
    } else {
        vec![in_capitals(origin)]
    }
}

/// `    line 10 C Given 75 75 1 NB (numbers 1 4) ∷  -- MICR Valid Indicator`
fn defined_line(line: &str) -> Option<Written> {
    let (code, name) = line.trim().strip_prefix("line ")?.split_once(" ∷  -- ")?;
    let cells: Vec<&str> = code.splitn(8, ' ').collect();
    let mut words = vec![cells[1].to_string()];
    words.extend(origin_in_capitals(cells[2]));
    words.push(cells[6].to_uppercase());
    words.extend(rule_in_capitals(cells[7]));
    let place = format!("{} * FIRST + {} * SIZE", cells[3], cells[5]);
    Some(Written { place, words, name: format!("{} {name}", cells[0]) })
}

/// `    75 * FIRST + 1 * SIZE + C + NB + NUMBERS + 1 * LOW + 4, // 10 MICR Valid Indicator`
fn coded_line(line: &str) -> Option<Written> {
    let (code, name) = line.trim().split_once(", // ")?;
    let cells: Vec<&str> = code.split(" + ").collect();
    if cells.len() < 4 || !cells[0].ends_with("FIRST") {
        return None;
    }
    let words = cells[2..].iter().map(|word| word.to_string()).collect();
    Some(Written { place: format!("{} + {}", cells[0], cells[1]), words, name: name.to_string() })
}

/// A line of the definitions as the slow reader writes it, which makes out no record and so says nothing of origins.
fn defined_for_reading(line: &str) -> Option<Written> {
    let origin = line.split_whitespace().nth(3)?;
    defined_line(&line.replacen(origin, "Given", 1))
}

/// `    25_10_075_001 * AT + C + NB + NUMBERS + 1 * LOW + 4, // MICR Valid Indicator`
fn slow_line(line: &str) -> Option<Written> {
    let (code, name) = line.trim().split_once(", // ")?;
    let mut cells = code.split(" + ");
    let columns: Vec<&str> = cells.next()?.strip_suffix(" * AT")?.split('_').collect();
    let words: Vec<String> = cells.map(str::to_string).collect();
    if words.is_empty() || !["M", "C"].contains(&words[0].as_str()) {
        return None;
    }
    let number = |at: usize| columns[at].trim_start_matches('0').to_string();
    let place = format!("{} * FIRST + {} * SIZE", number(2), number(3));
    Some(Written { place, words, name: format!("{} {name}", number(1)) })
}

#[test]
fn definition_and_slow_reader_write_the_same_layouts() {
    let definitions = text("crates/layout/specs/Layouts.antt");
    let code = text("crates/slow_record/src/table.rt");
    let defined: Vec<Written> = definitions.lines().filter_map(defined_for_reading).collect();
    let coded: Vec<Written> = code.lines().filter_map(slow_line).collect();
    assert!(defined.len() > 200, "only {} lines were read", defined.len());
    for (one, other) in defined.iter().zip(&coded) {
        assert_eq!(one, other, "the definition (left) and the slow reader (right) write this field differently");
    }
    assert_eq!(defined.len(), coded.len(), "one of the two has more fields in fixed parts");
}

#[test]
fn definition_and_code_write_the_same_layouts() {
    let definitions = text("crates/layout/specs/Layouts.antt");
    let code = text("crates/layout/src/packed.rt");
    let defined: Vec<Written> = definitions.lines().filter_map(defined_line).collect();
    let coded: Vec<Written> = code.lines().filter_map(coded_line).collect();
    assert!(defined.len() > 200, "only {} lines were read", defined.len());
    for (one, other) in defined.iter().zip(&coded) {
        assert_eq!(one, other, "the definition (left) and the code (right) write this field differently");
    }
    assert_eq!(defined.len(), coded.len(), "one of the two has more fields in fixed parts");
    println!("{} fields of fixed parts written alike", defined.len());
}
