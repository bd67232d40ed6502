//! The proved reader and writer of X9.100-180 image cash letters (ANS X9.100-180-2006), called safely from Rust.
//!
//! What is right or wrong in a file is decided by the proved static library `libx9180.a` alone (`.ci/library` in the
//! repository builds it). This crate lends it the bytes, keeps the rows that come back, and says refusals in plain words.
//!
//! [`read`] reads a file and [`picture`] finds a picture in it; [`read_slowly`] is a second proved reader, whose way through a file [`follow`] shows;
//! [`tags`] judges the tags of a TIFF picture, one that came in or one that is to go out; [`make`] makes a file out from nothing, and [`Draft`] changes
//! one and writes it again; [`salvage`] makes out what is sound of a torn one. [`Book`] is a day book that files are entered into, which two bureaus may
//! share.
//!
//! ```
//! # fn main() -> Result<(), Box<dyn std::error::Error>> {
//! let file = std::fs::read("../../peer/samples/sound-2-checks.x9")?;
//! match x9180::read(&file) {
//!     Ok(reading) => assert_eq!(reading.totals().debit, 350),
//!     Err(refusal) => println!("{refusal}"),
//! }
//! # Ok(())
//! # }
//! ```
//!
//! A cash letter holds bundles, and credits between them ([`Letter::contents`]); the items of a bundle are checks or returns, and credits among
//! them ([`Bundle::items`]). Every item is a debit or a credit ([`Item::is_debit`]), and every level has the sums of both ([`Totals`]).
//!
//! The characters of a file are ASCII or EBCDIC ([`CharacterSet`]), which the file itself tells. Rows, totals and pictures come alike from
//! both; [`Row::text`] gives a field as text from either.
//!
//! No call panics, whatever the bytes. The words of a refusal are not proved: they tell what stands in the file, the draft or the picture, at the
//! place that the proved library names.
#![warn(missing_docs)]

// Imports go one way. This root imports the modules, and no module imports the root; among themselves each imports only those that stand
// right of it on a line below. `tests/imports.rs` fails where that is not so, and if two of them come to import each other.
//
//     make → make_items → make_addenda → entry → given → fit → value → kinds → digits → character_set
//     make → make_items → make_view → entry → given → fit → value
//     make → draft → given → fit → value
//     make → draft → given → fit → misfit → kinds
//     make → entry → misfit
//     make → draft → explain_draft → explain → more_bytes → refusal → kinds → digits → character_set
//     draft → explain_draft → explain → before → shown → character_set
//     draft → ffi → draft_row → kinds
//     draft → room
//     explain_draft → draft_row
//     explain → before → sums
//     salvage → explain_salvage → explain → more_bytes → refusal → kinds → digits → character_set
//     salvage → explain_salvage → ffi → listed → refusal → kinds
//     salvage → explain_salvage → torn → listed
//     salvage → explain_salvage → walked → digits → character_set
//     salvage → reading
//     salvage → room
//     explain_tags → tag_fault → refusal → kinds
//     explain_tags → tag_fault → tag
//     explain_tags → shown → character_set
//     explain_tags → directory
//     before → kinds → digits → character_set
//     follow → before → sums → reading → row → kinds → digits → character_set
//     follow → refusal → kinds
//     book → explain_book → book_refusal → refusal → kinds
//     book → explain_book → book_refusal → figures
//     book → explain_book → book_refusal → owner
//     book → explain_book → book_table → figures
//     book → explain_book → book_table → owner
//     book → explain_book → taken → owner
//     book → explain → more_bytes → refusal
//     book → reading → row
//     book → ffi → row
//     book → room
//     ffi → row → kinds → digits → character_set
//     reading → row → kinds → digits → character_set
mod before;
pub mod book;
mod book_refusal;
mod book_table;
mod character_set;
mod digits;
mod directory;
mod draft;
mod draft_row;
mod entry;
mod explain;
mod explain_book;
mod explain_draft;
mod explain_salvage;
mod explain_tags;
mod ffi;
mod figures;
mod fit;
pub mod follow;
mod given;
mod kinds;
mod listed;
pub mod make;
mod make_addenda;
mod make_items;
mod make_view;
mod misfit;
mod more_bytes;
mod owner;
mod reading;
mod refusal;
mod room;
mod row;
mod salvage;
mod shown;
mod sums;
mod tag;
mod tag_fault;
mod taken;
mod torn;
mod value;
mod walked;

pub use book::Book;
pub use character_set::CharacterSet;
pub use draft::Draft;
pub use explain_salvage::Why;
pub use given::Record;
pub use kinds::{DataType, Field, Form, Kind, Place, RoutingForm, Usage, KINDS};
pub use listed::{Listed, Status};
pub use misfit::Misfit;
pub use more_bytes::{LIMIT, SLOW_LIMIT};
pub use reading::{Bundle, Content, Item, ItemKind, Letter, Reading, Totals, View};
pub use refusal::{Number, Refusal};
pub use row::Row;
pub use salvage::Salvage;
pub use tag::{Tag, TAGS};
pub use tag_fault::TagFault;
pub use torn::{Part, Sort};
pub use value::{Date, Time, Value};

/// The version of this crate, which the C header (`X9180_VERSION`), the tool and pkg-config share.
pub const VERSION: &str = env!("CARGO_PKG_VERSION");

/// Reads a whole file.
///
/// ```
/// # fn main() -> Result<(), Box<dyn std::error::Error>> {
/// let file = std::fs::read("../../peer/samples/sound-6-two-letters.x9")?;
/// let reading = x9180::read(&file)?;
/// assert_eq!((reading.totals().letters, reading.totals().items), (2, 3));
/// assert_eq!(reading.rows().len(), 21);
/// assert!(x9180::read(&file[1..]).is_err());
/// # Ok(())
/// # }
/// ```
pub fn read(file: &[u8]) -> Result<Reading, Refusal> {
    read_by(ffi::read, explain::reading, file)
}

/// Reads a whole file of at most [`SLOW_LIMIT`] bytes by the slow reader: another proved reader, which shares no decision with that of [`read`] and is proved to give the same answer and
/// the same rows. Its sources (`crates/slow_cycle`) are written to be followed by eye: a function for each box of the standard's figures, which calls for what may come next. A
/// file of more bytes, or of none, is refused with `SIZE`.
///
/// Every record is a call deeper, so it wants more stack than [`read`]: one MiB is enough.
///
/// ```
/// # fn main() -> Result<(), Box<dyn std::error::Error>> {
/// let file = std::fs::read("../../peer/samples/sound-6-two-letters.x9")?;
/// assert_eq!(x9180::read_slowly(&file), x9180::read(&file));
/// let refusal = x9180::read_slowly(&vec![0; x9180::SLOW_LIMIT + 1]).unwrap_err();
/// assert_eq!(
///     refusal.to_string(),
///     "SIZE: the file has no byte, or more than the 65536 that are read slowly; found 65537 bytes"
/// );
/// # Ok(())
/// # }
/// ```
pub fn read_slowly(file: &[u8]) -> Result<Reading, Refusal> {
    read_by(ffi::read_slowly, explain::slow_reading, file)
}

/// Reads a file by one of the two readers, with its words for a refusal.
fn read_by(
    call: fn(&[u8], &mut [Row]) -> [u64; 12],
    refusal: fn(&[u8], Number, u64, u64, u64) -> Refusal,
    file: &[u8],
) -> Result<Reading, Refusal> {
    let mut rows = Vec::new();
    loop {
        let [number, record, field, offset, totals @ ..] = call(file, &mut rows);
        match Number(number) {
            Number::ACCEPTED => {
                let totals = Totals::of_answer(totals);
                let no_memory = || refusal(file, Number::ROOM, totals.records, 0, 0);
                return Reading::of(file, rows, totals).ok_or_else(no_memory);
            }
            // The first call, with no rows, tells how many are needed; the second has them.
            Number::ROOM if rows.is_empty() && room::room(&mut rows, record) => {}
            refused => return Err(refusal(file, refused, record, field, offset)),
        }
    }
}

/// The picture in the Image View Data Record (type 52) whose four-byte length stands at an offset: the caller's own bytes. The record is
/// judged alone; an Image Data part of length 0 is an empty picture.
///
/// ```
/// # fn main() -> Result<(), Box<dyn std::error::Error>> {
/// let file = std::fs::read("../../peer/samples/sound-5-returns-with-views.x9")?;
/// for row in x9180::read(&file)?.rows().iter().filter(|row| row.record_type == 52) {
///     let picture = x9180::picture(&file, row.offset)?;
///     assert_eq!(picture, b"R");
///     assert!(file.as_ptr_range().contains(&picture.as_ptr())); // no copy
/// }
/// assert_eq!(x9180::picture(&file, 0).unwrap_err().number(), x9180::Number::TYPE);
/// # Ok(())
/// # }
/// ```
pub fn picture(file: &[u8], offset: u64) -> Result<&[u8], Refusal> {
    let [number, field, start, length] = ffi::picture(file, offset);
    let part = || file.get(usize::try_from(start).ok()?..usize::try_from(start.checked_add(length)?).ok()?);
    match Number(number) {
        // The library's contract puts the part inside the file; were it not, nothing would be handed out.
        Number::ACCEPTED => part().ok_or_else(|| explain::picture(file, Number::CUT, 0, offset)),
        refused => Err(explain::picture(file, refused, field, offset)),
    }
}

/// Salvages a torn file: makes out, as a new file, what is sound of it, and lists what became of each of its records (request 11).
///
/// The records are walked by their lengths from the start, until the bytes end or are cut off, a length is below 2, or behind the first File Control Record
/// (type 99). Kept are the file header, each cash letter header that is sound, its sound bundles, and the sound credits directly under it; a cash letter that
/// has to hold a bundle and has no sound one left is dropped whole. The controls of cash letters and file are made new, with the counts and sums of what is kept. A sound
/// file loses nothing: the new one has its bytes (of one in EBCDIC, those of its copy in ASCII).
///
/// Refused with `NOTHING` where the file header is not sound or no cash letter is left; with `SIZE` for a file of no byte or too many, or where the new one
/// would have too many; with `TOTAL` where a sum outgrows its field of a new control.
///
/// ```
/// use x9180::{Number, Status};
///
/// # fn main() -> Result<(), Box<dyn std::error::Error>> {
/// let file = std::fs::read("../../samples/two-letters-with-pictures.x9")?;
/// assert_eq!(x9180::salvage(&file)?.into_file(), file);
///
/// let torn = &file[..2_900]; // the line dropped in the second bundle
/// assert!(x9180::read(torn).is_err());
/// let salvage = x9180::salvage(torn)?;
/// assert_eq!((salvage.totals().bundles, salvage.totals().debit), (1, 16_550));
/// assert_eq!(x9180::read(salvage.file())?.totals(), salvage.totals());
/// let dropped: Vec<u64> =
///     salvage.list().iter().filter(|listed| listed.status() == Status::Dropped).map(|listed| listed.offset).collect();
/// assert_eq!(dropped, [2_450, 2_534, 2_618]);
///
/// assert_eq!(x9180::salvage(&file[..500]).unwrap_err().number(), Number::NOTHING);
/// # Ok(())
/// # }
/// ```
pub fn salvage(file: &[u8]) -> Result<Salvage, Refusal> {
    Salvage::of(file)
}

/// Judges the tags of one TIFF picture by X9.100-181 (ANS X9.100-181-2007): the header, the first directory, the order of its entries, the nine tags
/// that a picture must have with their types, counts and values, and that every part lies within the picture. Optional and other tags are not
/// judged, nor is the image itself. A variance of its Table 3 in a tag that is judged is wrong here, since variances are flagged outside the picture.
///
/// Reading a letter does not ask it. Of an accepted one, the views that are declared so ([`View::is_tiff`]):
///
/// ```
/// # fn main() -> Result<(), Box<dyn std::error::Error>> {
/// let file = std::fs::read("../../samples/two-letters-with-pictures.x9")?;
/// let reading = x9180::read(&file)?;
/// let items = reading.letters().flat_map(|letter| letter.bundles()).flat_map(|bundle| bundle.items());
/// for view in items.flat_map(|item| item.views()).filter(|view| view.is_tiff(&file)) {
///     x9180::tags(x9180::picture(&file, view.offset())?)?;
/// }
/// # Ok(())
/// # }
/// ```
///
/// Of a picture that is to go out, before it is lent to [`make::View::new`]:
///
/// ```
/// let fault = x9180::tags(b"MM\0\x2A\0\0\0\x08").unwrap_err();
/// assert_eq!(
///     fault.to_string(),
///     "TAGVALUE: the header is wrong; the byte order mark, at offset 0 of the picture; found \"MM\"; \
///      asked: \"II\" (the least significant byte first)"
/// );
/// ```
pub fn tags(image: &[u8]) -> Result<(), TagFault> {
    let [number, tag] = ffi::tiff(image);
    match Number(number) {
        Number::ACCEPTED => Ok(()),
        refused => Err(explain_tags::fault(image, refused, tag)),
    }
}

/// Judges one record alone, from its body (the bytes after the four-byte length), in the character set of its file, which a body does not
/// tell. The answer is `TYPE`, `LENGTH` or `FIELD` where it is refused.
///
/// ```
/// use x9180::{CharacterSet, Number};
///
/// # fn main() -> Result<(), Box<dyn std::error::Error>> {
/// let file = std::fs::read("../../samples/ebcdic-with-pictures.x9")?;
/// let reading = x9180::read(&file)?;
/// for body in reading.rows().iter().filter_map(|row| row.body(&file)) {
///     x9180::record(reading.character_set(), body)?;
///     let refusal = x9180::record(CharacterSet::Ascii, body).unwrap_err();
///     assert_eq!(refusal.number(), Number::TYPE);
/// }
/// # Ok(())
/// # }
/// ```
pub fn record(set: CharacterSet, body: &[u8]) -> Result<(), Refusal> {
    let [number, field] = ffi::record(body, set.number());
    match Number(number) {
        Number::ACCEPTED => Ok(()),
        refused => Err(explain::record(set, body, refused, field)),
    }
}

/// The refusal of a file by its length alone, for those who would rather not load a file that is too long.
///
/// ```
/// assert_eq!(x9180::refused_by_size(300 << 20).map(|refusal| refusal.number()), Some(x9180::Number::SIZE));
/// assert_eq!(x9180::refused_by_size(x9180::LIMIT as u64), None);
/// ```
pub fn refused_by_size(length: u64) -> Option<Refusal> {
    let fits = (1..=LIMIT as u64).contains(&length);
    (!fits).then(|| explain::size(length))
}
