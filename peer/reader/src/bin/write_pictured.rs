//! Writes the file of two cash letters with real pictures to standard output. Use: write_pictured > FILE

use std::io::Write;
use std::process::ExitCode;

use peer_reader::line::line;
use peer_reader::pictures::{pictured, LINE};

fn main() -> ExitCode {
    let bytes = pictured();
    let read = line(&bytes);
    if read != LINE {
        eprintln!("read as {read}, by hand {LINE}");
        return ExitCode::from(1);
    }
    match std::io::stdout().lock().write_all(&bytes) {
        Ok(()) => ExitCode::SUCCESS,
        Err(error) => {
            eprintln!("write_pictured: {error}");
            ExitCode::from(2)
        }
    }
}
