//! Writes a file in the other character set to standard output: convert_file ebcdic|ascii [FILE]; without FILE it reads standard input.
//! To ASCII gives the copy of reading 36. Exit status 1 if the file is of the set already, or would not be told as EBCDIC by its bytes 5 and 6;
//! nothing is written then.

use std::io::{Read, Write};
use std::process::ExitCode;

use peer_reader::charset::Set;
use peer_reader::copy::{copy, to_ebcdic};

fn main() -> ExitCode {
    let mut words = std::env::args_os().skip(1);
    let wanted = match words.next().as_deref().and_then(|word| word.to_str()) {
        Some("ebcdic") => Set::Ebcdic,
        Some("ascii") => Set::Ascii,
        _ => return stop("use: convert_file ebcdic|ascii [FILE]", 2),
    };
    let mut file = Vec::new();
    let read = match words.next() {
        Some(path) => std::fs::read(path).map(|bytes| file = bytes),
        None => std::io::stdin().lock().read_to_end(&mut file).map(|_| ()),
    };
    if let Err(error) = read {
        return stop(&error.to_string(), 2);
    }
    if Set::of(&file) == wanted {
        return stop("the file is of this set already", 1);
    }
    let made = match wanted {
        Set::Ebcdic => to_ebcdic(&file),
        Set::Ascii => copy(&file).into_owned(),
    };
    if Set::of(&made) != wanted {
        return stop("the file does not begin with a record of type 01, so that its set would not be told", 1);
    }
    match std::io::stdout().lock().write_all(&made) {
        Ok(()) => ExitCode::SUCCESS,
        Err(error) => stop(&error.to_string(), 2),
    }
}

fn stop(message: &str, status: u8) -> ExitCode {
    eprintln!("convert_file: {message}");
    ExitCode::from(status)
}
