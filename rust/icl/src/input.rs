//! A file's bytes, read once, never more than may be read.

use std::ffi::OsStr;
use std::fs::File;
use std::io::{stdin, Read};

use x9180::{CharacterSet, Reading, Refusal, LIMIT};

use crate::screen::{with_clock, Progress};
use crate::stop::{Stop, REFUSED};
use crate::words;

/// What came of reading a file.
pub enum Input {
    Bytes(Vec<u8>),
    /// More bytes than may be read: the refusal, and the line that tells it.
    TooLarge(Refusal, String),
}

/// How many bytes are read between two looks at the clock.
const PIECE: u64 = 4 << 20;

/// Reads the named file, or standard input for `-`.
pub fn bytes(file: &OsStr) -> Result<Input, Stop> {
    let trouble = |error: std::io::Error| Stop::trouble(format!("{}: {}", words::spoken(file), words::plain(&error)));
    if file == "-" {
        return gather(stdin().lock(), None, file).map_err(trouble);
    }
    let opened = File::open(file).map_err(trouble)?;
    let about = opened.metadata().map_err(trouble)?;
    // Files of the system that are made when read tell a length of 0.
    let length = Some(about.len()).filter(|length| about.is_file() && *length > 0);
    match length.and_then(above_limit) {
        Some(refusal) => Ok(too_large(file, refusal, &format!("it has {}", about.len()))),
        None => match gather(opened, length, file).map_err(trouble)? {
            // Such as /dev/zero.
            Input::TooLarge(..) if is_device(&about) => {
                let words = format!("it is a device, not a file, and gives more than {LIMIT} bytes");
                Err(Stop::trouble(format!("{}: {words}", words::spoken(file))))
            }
            input => Ok(input),
        },
    }
}

#[cfg(unix)]
fn is_device(about: &std::fs::Metadata) -> bool {
    use std::os::unix::fs::FileTypeExt;
    about.file_type().is_char_device() || about.file_type().is_block_device()
}

#[cfg(not(unix))]
fn is_device(_: &std::fs::Metadata) -> bool {
    false
}

/// Reads to the end, or one byte past the limit, which tells that there is too much.
fn gather(mut source: impl Read, length: Option<u64>, file: &OsStr) -> std::io::Result<Input> {
    let mut bytes = Vec::new();
    bytes.try_reserve_exact(length.map_or(0, |length| length as usize + 1))?;
    let mut progress = Progress::new();
    loop {
        let left = (LIMIT as u64 + 1) - bytes.len() as u64;
        let read = source.by_ref().take(left.min(PIECE)).read_to_end(&mut bytes)?;
        if let Some(refusal) = above_limit(bytes.len() as u64) {
            return Ok(too_large(file, refusal, "it has more"));
        }
        if read == 0 {
            return Ok(Input::Bytes(bytes));
        }
        progress.show(|| match length {
            Some(length) => format!("reading {}: {} %", words::spoken(file), bytes.len() as u64 * 100 / length),
            None => format!("reading {}: {} MiB", words::spoken(file), bytes.len() >> 20),
        });
    }
}

/// Has the proved library judge the bytes.
pub fn judged(file: &OsStr, bytes: &[u8]) -> Result<Reading, Refusal> {
    with_clock(&format!("judging {}", words::spoken(file)), || x9180::read(bytes))
}

/// The refusal by a length above the limit. A length of 0 is for the library to refuse.
fn above_limit(length: u64) -> Option<Refusal> {
    x9180::refused_by_size(length).filter(|_| length > 0)
}

fn too_large(file: &OsStr, refusal: Refusal, found: &str) -> Input {
    let line = format!("{}: too large: at most {LIMIT} bytes are read, and {found}", words::spoken(file));
    Input::TooLarge(refusal, line)
}

/// The bytes of a file that is not too large.
pub fn within_limit(file: &OsStr) -> Result<Vec<u8>, Stop> {
    match bytes(file)? {
        Input::Bytes(bytes) => Ok(bytes),
        Input::TooLarge(_, line) => Err(Stop::Message(REFUSED, line)),
    }
}

/// The bytes of an accepted file, and what they hold.
pub fn accepted(file: &OsStr) -> Result<(Vec<u8>, Reading), Stop> {
    let bytes = within_limit(file)?;
    match judged(file, &bytes) {
        Ok(reading) => Ok((bytes, reading)),
        Err(refusal) => Err(refused(file, &bytes, &refusal)),
    }
}

/// The line for a refusal where its numbers are not what was asked for.
pub fn refused(file: &OsStr, bytes: &[u8], refusal: &Refusal) -> Stop {
    let set = words::set_told(CharacterSet::of(bytes)).map_or_else(String::new, |set| format!("; {set}"));
    Stop::Message(REFUSED, format!("{}: {}: {refusal}{set}", words::spoken(file), refusal.line()))
}
