//! Writes the sample with credits and pictures to standard output. Use: write_pictured_credits > FILE

use std::io::Write;
use std::process::ExitCode;

#[path = "../tests/common/pictured_credits.rs"]
mod pictured_credits;

fn main() -> ExitCode {
    let bytes = pictured_credits::pictured_credits();
    // The independent reader has the line, too, that was worked out by hand.
    let read = peer_reader::line::line(&bytes);
    if read != pictured_credits::LINE {
        eprintln!("read as {read}, by hand {}", pictured_credits::LINE);
        return ExitCode::from(1);
    }
    match std::io::stdout().lock().write_all(&bytes) {
        Ok(()) => ExitCode::SUCCESS,
        Err(error) => {
            eprintln!("write_pictured_credits: {error}");
            ExitCode::from(2)
        }
    }
}
