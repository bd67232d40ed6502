//! `icl book`: a day book in a file of its own, into which the cash letters of accepted files are entered, and from which they are withdrawn.

use std::ffi::OsString;
use std::io::{stdout, BufWriter, Write};
use std::path::Path;

use x9180::book::{Entry, Owner};
use x9180::Book;

use crate::args::{number, Args};
use crate::book_convert;
use crate::book_file::{self, MOST_BYTES, MOST_PLACES, MOST_ROWS};
use crate::book_list::{csv, json, table};
use crate::book_words::{faulty, free, missing, no_memory, not_entered, owner, shown, told};
use crate::durable::{self, Held};
use crate::input::{self, Input};
use crate::output::{self, trouble};
use crate::screen::{print, with_clock};
use crate::stop::{Stop, DONE, REFUSED};
use crate::words::{self, counted, figures, grouped, signed_amount};

/// The rows of a new book unless told otherwise, and as many places for file numbers as rows. What is free takes no room in the file.
const ROWS: u64 = 10_000;

pub fn run(mut words: Vec<OsString>) -> Result<u8, Stop> {
    if words.is_empty() {
        return Err(Stop::Usage(
            "new, enter, withdraw, tidy, show, list, totals, grow or convert is asked behind icl book".to_string(),
        ));
    }
    let command = words.remove(0);
    match command.to_str() {
        Some("new") => new(Args::of(words, &[], &["--rows", "--places"])?),
        Some("enter") => enter(Args::of(words, &[], &["--number", "--owner"])?),
        Some("withdraw") => withdraw(Args::of(words, &[], &["--owner"])?),
        Some("tidy") => tidy(Args::of(words, &[], &[])?),
        Some("show") => show(Args::of(words, &[], &["--owner"])?),
        Some("list") => list(Args::of(words, &["--csv", "--json"], &["--owner"])?),
        Some("totals") => totals(Args::of(words, &[], &["--owner"])?),
        Some("grow") => grow(Args::of(words, &[], &["--rows", "--places"])?),
        Some("convert") => book_convert::run(Args::of(words, &[], &["--owner"])?),
        _ => Err(Stop::Usage(format!("{} is no command of icl book", words::name(&command)))),
    }
}

fn new(args: Args) -> Result<u8, Stop> {
    let [book_path] = args.exactly(["BOOK"])?;
    let book_path = Path::new(book_path);
    let rows = asked(&args, "--rows", MOST_ROWS)?.unwrap_or(ROWS);
    let places = asked(&args, "--places", MOST_PLACES)?.unwrap_or(rows);
    let (folder, name) = output::place(book_path)?;
    let book = Book::with_rows_and_places(rows as usize, places as usize).map_err(|_| no_memory(book_path))?;
    durable::create(folder, name, &book_file::bytes_of(&book)).map_err(|error| trouble(book_path, &error))?;
    let (rows, places) = (counted(rows, "row"), counted(places, "place"));
    print(&format!("an empty day book of {rows} and {places} for file numbers written to {}\n", shown(book_path)))?;
    Ok(DONE)
}

fn enter(args: Args) -> Result<u8, Stop> {
    let [book_path, file] = args.exactly(["BOOK", "FILE"])?;
    let book_path = Path::new(book_path);
    let file_number = args.option("--number").ok_or_else(|| Stop::Usage("--number N is missing".to_string()))?;
    let (file_number, owner) = (number(file_number, "file number")?, owner(&args)?);
    // Before the book is held: a pipe may take its time.
    let input = input::bytes(file)?;
    let (held, mut book) = hold(book_path)?;
    // An owner that is none is told before anything of the file, as is a book that is none.
    book.totals(owner).map_err(|refused| told(book_path, &refused))?;
    let bytes = match input {
        Input::Bytes(bytes) => bytes,
        Input::TooLarge(_, line) => return Err(Stop::Message(REFUSED, line)),
    };
    let entering = format!("entering {}", words::spoken(file));
    let entered = with_clock(&entering, || book.enter(&bytes, file_number, owner));
    let entered = entered.map_err(|refused| not_entered(book_path, file, &bytes, &book, &refused))?;
    // All at once, since each look-up goes through the whole book.
    let mut entries = entries_of(book_path, &book, owner)?;
    entries.retain(|entry| entry.file_number == file_number && entered.numbers().contains(&entry.number));
    held.replace(&book_file::bytes_of(&book)).map_err(|error| trouble(book_path, &error))?;
    let letters = counted(entries.len() as u64, "cash letter");
    let mut text = format!("{letters} entered into {} for {owner}\n", shown(book_path));
    entries.iter().for_each(|entry| text.push_str(&format!("  {}\n", line(entry))));
    print(&text)?;
    Ok(DONE)
}

fn withdraw(args: Args) -> Result<u8, Stop> {
    let [book_path, entry] = args.exactly(["BOOK", "ENTRY"])?;
    let (book_path, entry, owner) = (Path::new(book_path), number(entry, "entry number")?, owner(&args)?);
    let (held, mut book) = hold(book_path)?;
    let withdrawn = book.withdraw(owner, entry).map_err(|refused| told(book_path, &refused))?;
    held.replace(&book_file::bytes_of(&book)).map_err(|error| trouble(book_path, &error))?;
    let name = shown(book_path);
    print(&format!("1 cash letter withdrawn from {name} for {owner}\n  {}\n", line(&withdrawn)))?;
    Ok(DONE)
}

fn tidy(args: Args) -> Result<u8, Stop> {
    let [book_path] = args.exactly(["BOOK"])?;
    let book_path = Path::new(book_path);
    let (held, mut book) = hold(book_path)?;
    let gaps = book.tidy().map_err(|refused| told(book_path, &refused))?;
    held.replace(&book_file::bytes_of(&book)).map_err(|error| trouble(book_path, &error))?;
    let (gaps, free) = (counted(gaps, "gap"), free(book_path, &book)?);
    print(&format!("{gaps} closed in {}\n{free}\n", shown(book_path)))?;
    Ok(DONE)
}

fn show(args: Args) -> Result<u8, Stop> {
    let [book_path, entry] = args.exactly(["BOOK", "ENTRY"])?;
    let (book_path, entry, owner) = (Path::new(book_path), number(entry, "entry number")?, owner(&args)?);
    let entry = read(book_path)?.find(owner, entry).map_err(|refused| told(book_path, &refused))?;
    print(&format!("{}\n", line(&entry)))?;
    Ok(DONE)
}

fn list(args: Args) -> Result<u8, Stop> {
    let [book_path] = args.exactly(["BOOK"])?;
    let (book_path, owner) = (Path::new(book_path), owner(&args)?);
    let write = match (args.has("--csv"), args.has("--json")) {
        (true, true) => return Err(Stop::Usage("--csv and --json exclude each other".to_string())),
        (true, _) => csv,
        (_, true) => json,
        _ => table,
    };
    let entries = entries_of(book_path, &read(book_path)?, owner)?;
    let mut out = BufWriter::new(stdout().lock());
    write(&entries, &mut out).and_then(|()| out.flush()).map_err(Stop::output)?;
    Ok(DONE)
}

fn totals(args: Args) -> Result<u8, Stop> {
    let [book_path] = args.exactly(["BOOK"])?;
    let (book_path, owner) = (Path::new(book_path), owner(&args)?);
    let book = read(book_path)?;
    let totals = book.totals(owner).map_err(|refused| told(book_path, &refused))?;
    let (entries, figures) = (words::entries(totals.entries), figures(&totals.figures));
    let (net, free) = (signed_amount(totals.net), free(book_path, &book)?);
    print(&format!("{entries} of {owner}: {figures}\nnet position: {net}\n{free}\n"))?;
    Ok(DONE)
}

fn grow(args: Args) -> Result<u8, Stop> {
    let [book_path] = args.exactly(["BOOK"])?;
    let book_path = Path::new(book_path);
    let rows = asked(&args, "--rows", MOST_ROWS)?;
    let places = asked(&args, "--places", MOST_PLACES)?;
    if rows.or(places).is_none() {
        return Err(Stop::Usage("--rows N or --places N is missing".to_string()));
    }
    let (held, mut book) = hold(book_path)?;
    for (wanted, had, noun) in [(rows, book.capacity(), "row"), (places, book.places(), "place")] {
        if wanted.is_some_and(|wanted| wanted <= had) {
            let (name, had) = (shown(book_path), counted(had, noun));
            return Err(Stop::Usage(format!("{name} has {had} already, and none are taken away")));
        }
    }
    let [rows, places] = [rows, places].map(|wanted| wanted.unwrap_or(0) as usize);
    book.grow_to(rows, places).map_err(|_| no_memory(book_path))?;
    held.replace(&book_file::bytes_of(&book)).map_err(|error| trouble(book_path, &error))?;
    print(&format!("{}\n", free(book_path, &book)?))?;
    Ok(DONE)
}

/// The book as it stands at this moment.
fn read(book_path: &Path) -> Result<Book, Stop> {
    let bytes = durable::bytes_at(book_path, MOST_BYTES).map_err(|error| missing(book_path, &error))?;
    taken_apart(book_path, &bytes)
}

/// The book, which no other process changes until it is let go.
fn hold(book_path: &Path) -> Result<(Held, Book), Stop> {
    let waiting = format!("waiting for {}, which another process holds", shown(book_path));
    let held = with_clock(&waiting, || Held::of(book_path));
    let held = held.map_err(|error| missing(book_path, &error))?;
    let bytes = held.bytes(MOST_BYTES).map_err(|error| trouble(book_path, &error))?;
    Ok((held, taken_apart(book_path, &bytes)?))
}

/// The book in these bytes. Whatever is asked of it, the library has judged both its table and its list.
fn taken_apart(book_path: &Path, bytes: &[u8]) -> Result<Book, Stop> {
    let book = book_file::book_in(bytes).map_err(|fault| faulty(book_path, fault))?;
    book.check().map_err(|refused| told(book_path, &refused))?;
    Ok(book)
}

/// The entries of an owner by their numbers. In the table a later one may stand before an earlier one, in a row that was freed.
fn entries_of(book_path: &Path, book: &Book, owner: Owner) -> Result<Vec<Entry>, Stop> {
    let mut entries: Vec<Entry> = book.entries(owner).map_err(|refused| told(book_path, &refused))?.collect();
    entries.sort_by_key(|entry| entry.number);
    Ok(entries)
}

/// Of an entry: its number, its owner, its file number and its figures.
fn line(Entry { owner, number, file_number, figures: own, .. }: &Entry) -> String {
    format!("entry {number} of {owner}, file number {file_number}: {}", figures(own))
}

/// How many rows or places are asked for, where any are.
fn asked(args: &Args, option: &str, most: u64) -> Result<Option<u64>, Stop> {
    let Some(word) = args.option(option) else { return Ok(None) };
    let count = number(word, &format!("number of {}", option.trim_start_matches('-')))?;
    match (1..=most).contains(&count) {
        true => Ok(Some(count)),
        false => Err(Stop::Usage(format!("{option} is a number from 1 to {}", grouped(most)))),
    }
}
