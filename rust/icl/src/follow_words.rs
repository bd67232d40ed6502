//! A step of the slow reader in plain words. It decides nothing: the answer is the library's, and what stands in a record is shown as it stands there.

use x9180::follow::{Function, Stated, Step};
use x9180::{Form, Kind, Number, Reading, Refusal, Totals};

use crate::codes;
use crate::meaning;
use crate::words::{amount, counted, grouped};

/// The answer of a reading.
type Answer = Result<Reading, Refusal>;

/// A list goes on in a new line rather than past this column.
const WIDTH: usize = 110;

/// What is told of one step, set in by its level.
pub fn block(steps: &[Step<'_>], at: usize, answer: &Answer) -> String {
    let step = &steps[at];
    let next = steps.get(at + 1);
    let depth = match step.function().is_for_the_rest() {
        true => at.checked_sub(1).map_or(0, |before| steps[before].function().depth),
        false => step.function().depth,
    };
    let margin = "  ".repeat(depth);
    let mut text = format!("{margin}{}\n", head(step));
    let mut line = |label: &str, words: &str| text.push_str(&format!("{margin}    {label:<10}{words}\n"));
    for (place, fact) in found(step, next, answer).iter().enumerate() {
        line(if place == 0 { "found" } else { "" }, fact);
    }
    match (step.calls(), next) {
        (Some(called), Some(next)) => {
            for (place, words) in may_come(step.function(), WIDTH - margin.len() - 14).iter().enumerate() {
                line(if place == 0 { "may come" } else { "" }, words);
            }
            line("comes", &comes(called, next));
        }
        _ => line("answers", &answers(answer)),
    }
    text
}

/// `check stands at record 4, offset 252: Check Detail Record (type 25)`
fn head(step: &Step<'_>) -> String {
    let (name, record, offset) = (step.function().name, step.record(), step.offset());
    match (step.body(), step.kind()) {
        (None, _) if step.bytes_left() == 0 => format!("{name} stands at the end, offset {offset}"),
        (None, _) => format!("{name} stands at offset {offset}"),
        (_, None) => format!("{name} stands at record {record}, offset {offset}: of no type of the standard"),
        (_, Some(kind)) => format!("{name} stands at record {record}, offset {offset}: {kind}"),
    }
}

/// `refused: TOTAL, field 4`
fn answers(answer: &Answer) -> String {
    match answer {
        Ok(_) => "accepted".to_string(),
        Err(refusal) if refusal.field() > 0 => {
            format!("refused: {}, field {}", refusal.number().name(), refusal.field())
        }
        Err(refusal) => format!("refused: {}", refusal.number().name()),
    }
}

/// The name of a kind without the word Record, which all end with, and its type.
fn short(kind: &Kind) -> String {
    let name = kind.name.strip_suffix(" Record").unwrap_or(kind.name);
    format!("{name} ({:02})", kind.number)
}

/// What a function calls for, in lines of at most so many characters.
fn may_come(function: &Function, width: usize) -> Vec<String> {
    let kinds: Vec<String> = function.calls.iter().filter_map(|(number, _)| Kind::of(*number)).map(short).collect();
    let Some((last, others)) = kinds.split_last() else { return vec!["nothing more".to_string()] };
    let mut words: Vec<String> = others.iter().map(|kind| format!("{kind}, ")).collect();
    words.push(if others.is_empty() { last.clone() } else { format!("or {last}") });
    let mut lines: Vec<String> = Vec::new();
    for word in words {
        match lines.last_mut() {
            Some(line) if line.len() + word.trim_end().len() <= width => line.push_str(&word),
            _ => lines.push(word),
        }
    }
    lines.iter().map(|line| line.trim_end().to_string()).collect()
}

/// What stands behind the record, and the function that is called for it.
fn comes(called: &Function, next: &Step<'_>) -> String {
    let (offset, left) = (next.offset(), next.bytes_left());
    let what = match (next.body(), next.kind()) {
        (None, _) if left == 0 => format!("the end of the bytes, at offset {offset}"),
        (None, _) => format!("{} at offset {offset}, no whole record", counted(left, "byte")),
        (_, None) => format!("a record of no type of the standard at offset {offset}"),
        (_, Some(kind)) => format!("{} at offset {offset}", short(kind)),
    };
    let not_looked_for = if called.is_for_the_rest() && next.body().is_some() { ", not looked for" } else { "" };
    format!("{what}{not_looked_for}: it calls {}", called.name)
}

fn found(step: &Step<'_>, next: Option<&Step<'_>>, answer: &Answer) -> Vec<String> {
    if step.function().is_for_the_rest() {
        return vec![left(step, answer)];
    }
    let mut facts: Vec<String> = key_fields(step.function().record_type)
        .iter()
        .filter_map(|field| fact(step, *field))
        .chain(step.stated().iter().map(|stated| stated_told(step, stated)))
        .collect();
    facts.extend(before_told(step));
    // What is asked against earlier records, and what the record adds: where it has no fault.
    if step.calls().is_some() {
        facts.extend(linked(step));
        facts.extend(next.and_then(|next| adds(step, next)));
    }
    facts
}

/// What stands where none of the records stands that were called for.
fn left(step: &Step<'_>, answer: &Answer) -> String {
    match answer.as_ref().map_err(Refusal::number) {
        // Without memory for the rows the way is the same.
        Ok(_) | Err(Number::ROOM) => "the end of the bytes, behind the File Control Record",
        Err(Number::OPEN) => "the end of the bytes, and no File Control Record before it",
        Err(Number::CUT) => "bytes, but fewer than a length and the record that it frames",
        Err(Number::AFTER) => "bytes behind the File Control Record, where none may be",
        Err(Number::LENGTH) => "a record too short for a type",
        Err(Number::TYPE) => "a record of no type that is read here",
        Err(_) if step.record() == 1 => "a record that no file begins with",
        Err(_) => "a record that may not stand here",
    }
    .to_string()
}

/// The fields that tell most of a record; those of a control record are told with what they come to.
fn key_fields(record_type: u64) -> &'static [u64] {
    match record_type {
        1 => &[3, 4, 5, 6],
        10 => &[2, 3, 4, 5, 8],
        20 => &[2, 3, 4, 5, 9],
        25 => &[4, 6, 7, 10, 12],
        31 => &[4, 6, 7, 8],
        26 | 32 => &[2, 4, 8],
        27 | 34 => &[2, 3],
        28 | 35 => &[2, 3, 4],
        33 => &[2, 8],
        50 => &[5, 8, 10],
        52 => &[2, 3, 4, 5, 20],
        54 => &[2, 3],
        61 => &[2, 5, 7, 8],
        _ => &[],
    }
}

/// `Item Amount 125.50`; a code with its words, `View Side Indicator 0 (front image view)`. A blank field tells nothing, nor does one that cannot be read.
fn fact(step: &Step<'_>, number: u64) -> Option<String> {
    let field = step.kind()?.field(number)?;
    let text = step.text(number).filter(|text| !text.trim().is_empty())?;
    let (trimmed, meaning) = (text.trim(), meaning::of(field, &text));
    let is_code = codes::words(field.name, &text).is_some();
    Some(match field.form {
        Form::Routing(_) => format!("{} {trimmed}", field.name),
        _ if is_code => format!("{} {trimmed} ({meaning})", field.name),
        _ if meaning.is_empty() => format!("{} \"{trimmed}\"", field.name),
        _ => format!("{} {meaning}", field.name),
    })
}

/// `Bundle Debit Item Count states 2, and 2 came`
fn stated_told(step: &Step<'_>, stated: &Stated) -> String {
    let name = stated.field.name;
    let is_amount = name.ends_with("Amount");
    let told = if is_amount { amount } else { grouped };
    let came = match name {
        _ if !is_amount => format!("{} came", told(stated.comes_to)),
        "MICR Valid Debit Total Amount" => {
            format!("those with MICR Valid Indicator 1 come to {}", told(stated.comes_to))
        }
        _ if name.contains("Credit") => format!("the credits come to {}", told(stated.comes_to)),
        _ => format!("the debits come to {}", told(stated.comes_to)),
    };
    match stated.stated {
        Some(number) if number == stated.comes_to => format!("{name} states {}, and {came}", told(number)),
        Some(number) => format!("{name} states {}, but {came}", told(number)),
        None => match step.text(stated.field.number).filter(|text| !text.trim().is_empty()) {
            Some(text) => format!("{name} states \"{text}\"; {came}"),
            None => format!("{name} states nothing; {came}"),
        },
    }
}

/// Which one of its kind the record is.
fn before_told(step: &Step<'_>) -> Option<String> {
    let so_far = step.so_far();
    let item = step.item().map_or_else(String::new, |record| format!(", record {record}"));
    Some(match step.function().record_type {
        10 => format!("it begins cash letter {} of the file", so_far.file.letters + 1),
        20 => format!("it begins bundle {} of the cash letter", so_far.letter.bundles + 1),
        25 | 31 => format!("it is item {} of the bundle", so_far.bundle.items + 1),
        61 if step.function().depth == 3 => format!("it is item {} of the bundle", so_far.bundle.items + 1),
        61 => "it stands directly in the cash letter".to_string(),
        26..=28 | 32..=35 => {
            let stated = so_far.stated_addenda.unwrap_or(0);
            format!("it is addendum {} of {stated} that its item{item}, states", so_far.item.addenda + 1)
        }
        50 => format!("it is view {} of its item{item}", so_far.item.views + 1),
        _ => return None,
    })
}

/// What agrees with earlier records.
fn linked(step: &Step<'_>) -> Vec<String> {
    let (Some(header), Some(item)) = (step.header(), step.item()) else { return Vec::new() };
    match (step.function().record_type, step.function().depth) {
        (52, 4) => vec![
            format!("routing number, date and cycle are those of the bundle header, record {header}"),
            format!("the sequence number is that of its item, record {item}"),
        ],
        (52, _) => vec![
            format!("routing number and date are those of the cash letter header, record {header}"),
            format!("the sequence number is that of its item, record {item}"),
        ],
        _ => Vec::new(),
    }
}

/// What the level comes to with an item.
fn adds(step: &Step<'_>, next: &Step<'_>) -> Option<String> {
    let so_far = next.so_far();
    let (level, totals): (&str, Totals) = match (step.function().record_type, step.function().depth) {
        (25 | 31 | 61, 3) => ("the bundle", so_far.bundle),
        (61, _) => ("the cash letter", so_far.letter),
        _ => return None,
    };
    let debits = format!("{} of {}", counted(totals.debit_items(), "debit"), amount(totals.debit));
    let credits = format!("{} of {}", counted(totals.credit_items, "credit"), amount(totals.credit));
    Some(format!("{level} comes to {debits} and {credits} so far"))
}
