//! `icl show`: one record, field by field.

use std::ffi::OsStr;

use x9180::{CharacterSet, DataType, Kind, Reading, Refusal, Row};

use crate::args::{number, Args};
use crate::input;
use crate::meaning;
use crate::screen::{coloured, print, Colour};
use crate::stop::{Stop, DONE, REFUSED};
use crate::verdicts::{self, Verdict};
use crate::walk::{self, Framed};
use crate::words::{self, counted};

/// The most bytes of a field that are shown.
const SHOWN: usize = 64;
/// A column is not made wider than this for one long text.
const WIDEST: usize = 32;

pub fn run(args: Args) -> Result<u8, Stop> {
    let [file, place] = args.exactly(["FILE", "RECORD or OFFSET"])?;
    let wanted = Wanted::of(place)?;
    let bytes = input::within_limit(file)?;
    let judged = input::judged(file, &bytes);
    let (framed, also) = wanted.find(&bytes).ok_or_else(|| nowhere(file, &bytes, &wanted, &judged))?;
    let set = CharacterSet::of(&bytes);
    let mut text = heading(&framed, set, also);
    words::set_told(set).iter().for_each(|line| text.push_str(&format!("    {line}\n")));
    text.push_str(&standing(&framed, &judged));
    let whole = judged.as_ref().err().is_none_or(|refusal| framed.record < refusal.record());
    let holds = if whole { "holds" } else { "holds alone" };
    text.push_str(&fields(&framed, set, own_fault(&framed, &judged), holds));
    print(&text)?;
    Ok(if judged.is_ok() { DONE } else { REFUSED })
}

/// Which record is asked for: a number counts the records, or else is an offset; with an @ before it, it is an offset.
enum Wanted {
    Either(u64),
    Offset(u64),
}

impl Wanted {
    fn of(word: &OsStr) -> Result<Wanted, Stop> {
        match word.to_str().and_then(|word| word.strip_prefix('@')) {
            Some(offset) => number(OsStr::new(offset), "offset").map(Wanted::Offset),
            None => number(word, "record or offset").map(Wanted::Either),
        }
    }

    /// The record, and another that begins at an offset of the same number.
    fn find<'f>(&self, file: &'f [u8]) -> Option<(Framed<'f>, Option<Framed<'f>>)> {
        let at = |offset: u64| {
            walk::records(file)
                .take_while(move |framed| framed.offset <= offset)
                .find(move |framed| framed.offset == offset)
        };
        match self {
            Wanted::Offset(offset) => at(*offset).map(|framed| (framed, None)),
            Wanted::Either(number) => {
                let by_number = walk::records(file).find(|framed| framed.record == *number);
                match by_number {
                    Some(framed) => Some((framed, at(*number))),
                    None => at(*number).map(|framed| (framed, None)),
                }
            }
        }
    }
}

/// There is no such record: told with what there is.
fn nowhere(file: &OsStr, bytes: &[u8], wanted: &Wanted, judged: &Result<Reading, Refusal>) -> Stop {
    let last = walk::records(bytes).last();
    let framed = match (last, judged) {
        (None, Err(refusal)) => return input::refused(file, bytes, refusal),
        (last, _) => {
            let (count, end) = last.map_or((0, 0), |last| (last.record, last.end()));
            format!("the lengths frame {}, up to offset {end}", counted(count, "record"))
        }
    };
    let what = match wanted {
        Wanted::Offset(offset) => format!("no record begins at offset {offset}"),
        Wanted::Either(number) => format!("there is no record {number}, and none begins at offset {number}"),
    };
    Stop::trouble(format!("{}: {what}: {framed}", words::spoken(file)))
}

fn heading(framed: &Framed<'_>, set: CharacterSet, also: Option<Framed<'_>>) -> String {
    let (record, offset, length) = (framed.record, framed.offset, counted(framed.body.len() as u64, "byte"));
    let kind = match framed.kind(set) {
        Some(kind) => kind.to_string(),
        None => "of no type of the standard".to_string(),
    };
    let also = also.filter(|also| also.record != record);
    let also = also.map_or_else(String::new, |also| {
        format!("    at offset {} begins record {}: @{} shows it\n", also.offset, also.record, also.offset)
    });
    format!("record {record}, at offset {offset}: {kind}, {length}\n{also}")
}

/// The fault that the reading found in this very record.
fn own_fault<'j>(framed: &Framed<'_>, judged: &'j Result<Reading, Refusal>) -> Option<&'j Refusal> {
    judged.as_ref().err().filter(|refusal| refusal.record() == framed.record)
}

/// How the record stands in its file.
fn standing(framed: &Framed<'_>, judged: &Result<Reading, Refusal>) -> String {
    match judged {
        Ok(reading) => {
            let row = reading.rows().get(framed.record as usize - 1);
            format!("{}    every rule holds: the file is accepted\n", row.map_or_else(String::new, place))
        }
        // What is wrong with a field stands below it.
        Err(refusal) if framed.record == refusal.record() && refusal.field() > 0 => {
            format!("    the file is {}, here\n", coloured(&refusal.line(), Colour::Red))
        }
        Err(refusal) if framed.record == refusal.record() => {
            let lines: String = format!("{refusal:#}").lines().map(|line| format!("        {line}\n")).collect();
            format!("    the file is {}, here:\n{lines}", coloured(&refusal.line(), Colour::Red))
        }
        Err(refusal) => {
            let here = match framed.record < refusal.record() {
                true => "no fault was found up to this record",
                false => "this record is judged alone",
            };
            format!("    {here}: the file is {}\n", coloured(&refusal.line(), Colour::Red))
        }
    }
}

/// What a record of an accepted file lies in.
fn place(row: &Row) -> String {
    let parts = [("cash letter", row.letter), ("bundle", row.bundle), ("item", row.item)];
    let parts: Vec<String> =
        parts.iter().filter(|part| part.1 > 0).map(|(name, ordinal)| format!("{name} {ordinal}")).collect();
    match parts.is_empty() {
        true => String::new(),
        false => format!("    {}\n", parts.join(", ")),
    }
}

fn fields(framed: &Framed<'_>, set: CharacterSet, own_fault: Option<&Refusal>, holds: &str) -> String {
    let Some(kind) = framed.kind(set).filter(|kind| kind.is_carried()) else {
        let why = "    records of this type are not read here; its bytes:\n";
        return format!("{why}{}", raw(set, framed.body));
    };
    let (mut verdicts, whole) = verdicts::of(set, kind, framed.body);
    // What the reading faults beyond the record alone: a link, a sum.
    if let Some(fault) = own_fault.filter(|fault| fault.field() > 0) {
        let place = kind.fields.iter().position(|field| field.number == fault.field());
        place.into_iter().for_each(|place| verdicts[place] = Verdict::Broken(fault.clone()));
    }
    let mut text = String::new();
    if let Some(whole) = whole.filter(|_| own_fault.is_none()) {
        let lines: String = format!("{whole:#}").lines().map(|line| format!("        {line}\n")).collect();
        text.push_str(&format!("    judged alone, the record is refused:\n{lines}"));
    }
    let lines: Vec<Line> = kind
        .fields
        .iter()
        .zip(verdicts)
        .map(|(field, verdict)| line(framed, set, kind, field, told(verdict, holds)))
        .collect();
    text.push_str(&table(&lines));
    text
}

/// A field as it is shown.
struct Line {
    cells: [String; 5],
    meaning: String,
    below: Vec<String>,
}

const HEADS: [&str; 5] = ["field", "position", "name", "characters", "rule"];

fn line(framed: &Framed<'_>, set: CharacterSet, kind: &Kind, field: &x9180::Field, told: (&str, Vec<String>)) -> Line {
    let range = kind.range(set, framed.body, field.number);
    let bytes = range.clone().and_then(|range| framed.body.get(range));
    let position = match &range {
        Some(range) if range.is_empty() => "none".to_string(),
        Some(range) if range.len() == 1 => range.end.to_string(),
        Some(range) => format!("{}-{}", range.start + 1, range.end),
        None => "?".to_string(),
    };
    let (characters, meaning) = match bytes {
        None => ("not there".to_string(), String::new()),
        Some(bytes) if field.data_type == DataType::Binary => {
            let start = framed.offset + 4 + range.map_or(0, |range| range.start as u64);
            let bytes = counted(bytes.len() as u64, "byte");
            (bytes, format!("from offset {start}{}", picture(framed, kind, field.number)))
        }
        Some([]) => ("none".to_string(), String::new()),
        Some(bytes) => {
            (characters(set, bytes), set.text(bytes).map_or_else(String::new, |text| meaning::of(field, &text)))
        }
    };
    let (rule, below) = told;
    Line {
        cells: [field.number.to_string(), position, field.name.to_string(), characters, rule.to_string()],
        meaning,
        below,
    }
}

/// Whether a field's rule holds, and what is asked of it where it does not.
fn told(verdict: Verdict, holds: &str) -> (&str, Vec<String>) {
    match verdict {
        Verdict::Holds => (holds, Vec::new()),
        Verdict::NotJudged => ("not judged", Vec::new()),
        Verdict::Broken(refusal) => ("broken", asked(&refusal)),
    }
}

/// How to take the picture out.
fn picture(framed: &Framed<'_>, kind: &Kind, field: u64) -> String {
    match (kind.number, field) {
        (52, 27) => format!("; icl picture takes it out by offset {}", framed.offset),
        _ => String::new(),
    }
}

/// What is said of a fault beyond what the table shows: not which record and field it is, nor what was found.
fn asked(refusal: &Refusal) -> Vec<String> {
    let text = format!("{refusal:#}");
    let is_said =
        |line: &&str| ["the record, ", "record ", "field ", "found "].iter().any(|start| line.starts_with(start));
    let lines: Vec<String> = text
        .lines()
        .enumerate()
        .filter(|(place, line)| *place == 0 || !is_said(line))
        .map(|(_, line)| line.to_string())
        .collect();
    lines
}

/// Bytes as text; one that is no character by its number.
fn characters(set: CharacterSet, bytes: &[u8]) -> String {
    let shown: String = bytes
        .iter()
        .take(SHOWN)
        .map(|byte| match set.character(*byte) {
            Some(character) => character.to_string(),
            None => format!("\\x{byte:02X}"),
        })
        .collect();
    match bytes.len() > SHOWN {
        true => format!("\"{shown}\" (the first {SHOWN} of {} bytes)", words::grouped(bytes.len() as u64)),
        false => format!("\"{shown}\""),
    }
}

/// The bytes of a record that is not read here, some on a line.
fn raw(set: CharacterSet, body: &[u8]) -> String {
    let most = 16 * SHOWN;
    let lines = body.chunks(SHOWN).take(16).enumerate();
    let lines: String =
        lines.map(|(place, bytes)| format!("    {:>5}  {}\n", place * SHOWN + 1, characters(set, bytes))).collect();
    match body.len() > most {
        true => format!("{lines}    and {} more\n", counted((body.len() - most) as u64, "byte")),
        false => lines,
    }
}

fn table(lines: &[Line]) -> String {
    let mut widths = HEADS.map(str::len);
    for line in lines {
        for (width, cell) in widths.iter_mut().zip(&line.cells) {
            *width = (*width).max(cell.chars().count().min(WIDEST));
        }
    }
    widths[2] = lines.iter().map(|line| line.cells[2].len()).max().unwrap_or(0).max(HEADS[2].len());
    let row = |cells: [&str; 5], last: &str| {
        let [number, position, name, characters, rule] = cells;
        let rule = match (rule, widths[4].saturating_sub(rule.len())) {
            ("broken", pad) => format!("{}{:pad$}", coloured(rule, Colour::Red), ""),
            _ => format!("{rule:<width$}", width = widths[4]),
        };
        let [first, second, third, fourth, _] = widths;
        let text =
            format!("{number:>first$}  {position:>second$}  {name:<third$}  {characters:<fourth$}  {rule}  {last}");
        format!("{}\n", text.trim_end())
    };
    let mut text = row(HEADS, "meaning");
    for line in lines {
        text.push_str(&row(line.cells.each_ref().map(String::as_str), &line.meaning));
        line.below.iter().for_each(|below| text.push_str(&format!("           {below}\n")));
    }
    text
}
