//! `icl book convert`: a day book of an older version, written anew as one of today. It does so only when a person asks, and leaves the old one as it is.

use std::path::Path;

use x9180::book::{Owner, Refused};
use x9180::Book;

use crate::args::Args;
use crate::book_file::{self, MOST_BYTES, VERSION};
use crate::book_words::{faulty, free, missing, owner, shown, told};
use crate::durable::Watched;
use crate::output::{self, trouble};
use crate::screen::{print, with_clock};
use crate::stop::{Stop, DONE};
use crate::words;

pub fn run(args: Args) -> Result<u8, Stop> {
    let [old_path, new_path] = args.exactly(["OLD", "NEW"])?;
    let (old_path, new_path) = (Path::new(old_path), Path::new(new_path));
    let named = args.option("--owner").map(|_| owner(&args)).transpose()?;
    let (folder, name) = output::place(new_path)?;
    let waiting = format!("waiting for {}, which another process holds", shown(old_path));
    let old = with_clock(&waiting, || Watched::of(old_path)).map_err(|error| missing(old_path, &error))?;
    let bytes = old.bytes(MOST_BYTES).map_err(|error| trouble(old_path, &error))?;
    let (version, numbers) = book_file::older_in(&bytes).map_err(|fault| faulty(old_path, fault))?;
    let book = book_of(old_path, version, numbers, named)?;
    let (entries, free) = (entries(old_path, &book)?, free(old_path, &book)?);
    old.create_alike(folder, name, &book_file::bytes_of(&book)).map_err(|error| trouble(new_path, &error))?;
    let (old_name, new_name) = (shown(old_path), shown(new_path));
    print(&format!(
        "{new_name}, version {VERSION}, written from {old_name}, version {version}, which stays as it is\n{entries}\n{free}\n"
    ))?;
    Ok(DONE)
}

/// The book of today with the entries of an older one, and the list of their file numbers. Those of version 1 have no owner yet, all others have.
fn book_of(old_path: &Path, version: u64, numbers: Vec<u64>, named: Option<Owner>) -> Result<Book, Stop> {
    let name = shown(old_path);
    let book = match (version, named) {
        (1, Some(owner)) => given_to(owner, numbers),
        (1, None) => {
            let words =
                format!("{name} is of version 1, whose entries have no owner: --owner N is missing, N being 1 or 2");
            return Err(Stop::Usage(words));
        }
        (_, Some(_)) => {
            let words =
                format!("{name} is of version {version}, whose entries have owners: --owner is for version 1 alone");
            return Err(Stop::Usage(words));
        }
        (2, None) => checked(Book::with_nets(numbers)),
        (_, None) => checked(Book::with_list(numbers)),
    };
    book.map_err(|refused| told(old_path, &refused))
}

/// The book of a table without owners. The library judges it whole before it says whether there is such an owner.
fn given_to(owner: Owner, numbers: Vec<u64>) -> Result<Book, Refused> {
    let book = Book::given_to(Owner::ONE, numbers);
    book.totals(owner)?;
    Ok(Book::given_to(owner, book.into_memory().0))
}

fn checked(book: Book) -> Result<Book, Refused> {
    book.check().map(|()| book)
}

/// How many entries each owner has.
fn entries(old_path: &Path, book: &Book) -> Result<String, Stop> {
    let of = |owner: Owner| -> Result<String, Refused> {
        Ok(format!("{} of {owner}", words::entries(book.totals(owner)?.entries)))
    };
    let both = Owner::BOTH.into_iter().map(of).collect::<Result<Vec<_>, _>>();
    both.map(|both| both.join(", ")).map_err(|refused| told(old_path, &refused))
}
