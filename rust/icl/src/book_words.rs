//! What the commands of `icl book` share: whose entries are asked for, and what is said of a book that is refused or could not be read.

use std::ffi::OsStr;
use std::io::{Error, ErrorKind};
use std::path::Path;

use x9180::book::{Owner, Refused, Want};
use x9180::{Book, Number};

use crate::args::{number, Args};
use crate::book_file::{Fault, VERSION};
use crate::input;
use crate::output::trouble;
use crate::stop::{Stop, REFUSED};
use crate::words::{self, grouped};

/// The owner that is asked for. The library says whether there is such a one.
pub fn owner(args: &Args) -> Result<Owner, Stop> {
    let word = args.option("--owner").ok_or_else(|| Stop::Usage("--owner N is missing, N being 1 or 2".to_string()))?;
    number(word, "owner").map(Owner)
}

/// The book's name as it is printed.
pub fn shown(book_path: &Path) -> String {
    words::name(book_path.as_os_str())
}

/// The rows and places that are free.
pub fn free(book_path: &Path, book: &Book) -> Result<String, Stop> {
    let rows = book.free_rows().map_err(|refused| told(book_path, &refused))?;
    let places = book.free_places().map_err(|refused| told(book_path, &refused))?;
    let lines = [("rows", rows, book.capacity()), ("places", places, book.places())];
    Ok(lines.map(|(what, free, all)| format!("free {what}: {} of {}", grouped(free), grouped(all))).join("\n"))
}

/// The line for a refusal by the book.
pub fn told(book_path: &Path, refused: &Refused) -> Stop {
    Stop::Message(REFUSED, format!("{}: {}: {refused}", shown(book_path), refused.line()))
}

/// The line for a file that was not entered, and, for want of rows or places, how more are had.
pub fn not_entered(book_path: &Path, file: &OsStr, bytes: &[u8], book: &Book, refused: &Refused) -> Stop {
    if let Refused::File(refusal) = refused {
        return input::refused(file, bytes, refusal);
    }
    let rows = match refused {
        Refused::Full(Some(Want::Rows { letters, free })) => {
            Some(("--rows", (book.capacity() - free).saturating_add(*letters)))
        }
        Refused::Full(Some(Want::Places { .. })) => None,
        _ => return told(book_path, refused),
    };
    let places = (book.free_places() == Ok(0)).then(|| ("--places", book.places().saturating_add(1)));
    let (mut options, mut least) = (String::new(), Vec::new());
    for ((option, count), letter) in rows.into_iter().chain(places).zip(["N", "M"]) {
        options.push_str(&format!(" {option} {letter}"));
        least.push(format!("{letter} being {count} or more"));
    }
    let (name, least) = (shown(book_path), least.join(" and "));
    let hint = format!("icl book grow {name}{options} makes room, {least}");
    Stop::Message(REFUSED, format!("{name}: {}: {refused}; {hint}", refused.line()))
}

/// The line for a file that holds no book of today.
pub fn faulty(book_path: &Path, fault: Fault) -> Stop {
    let (name, number) = (shown(book_path), Number::BOOK);
    let refused = |words: String| {
        let line = format!("refused {} record 0 field 0 offset 0: {}", number.0, number.name());
        Stop::Message(REFUSED, format!("{name}: {line}: {words}"))
    };
    match fault {
        Fault::Damaged(words) => refused(format!("{}; {words}", number.meaning())),
        Fault::Older(version) => refused(format!("{}; {}", outdated(version), anew(&name, version))),
        Fault::OfToday => Stop::Usage(format!("{name} is of version {VERSION} already, and needs no conversion")),
        Fault::NoMemory => no_memory(book_path),
    }
}

/// What a book of an older version lacks.
fn outdated(version: u64) -> String {
    let lacks = match version {
        1 => "whose entries have no owner",
        2 => "which has no net positions",
        _ => "which has no list of the file numbers taken",
    };
    format!("it is of version {version}, {lacks}, and this icl keeps version {VERSION}")
}

/// How a book of an older version is written anew.
fn anew(name: &str, version: u64) -> String {
    match version {
        1 => format!(
            "icl book convert {name} NEW --owner N writes it anew as NEW, with all its entries given to owner N, which is 1 or 2"
        ),
        _ => format!("icl book convert {name} NEW writes it anew as NEW"),
    }
}

pub fn no_memory(book_path: &Path) -> Stop {
    trouble(book_path, &ErrorKind::OutOfMemory.into())
}

/// Of a book that should be there.
pub fn missing(book_path: &Path, error: &Error) -> Stop {
    match error.kind() {
        ErrorKind::NotFound => {
            Stop::trouble(format!("{}: there is no such file; icl book new makes a day book", shown(book_path)))
        }
        _ => trouble(book_path, error),
    }
}
