//! Judges the tags of images by the independent judge alone: a line for each, with the number, the tag and what the answer rests on.
//! Use: judge_tiff FILE...; exit status 1 if the second opinion is another on one of them.

use std::process::ExitCode;

use peer_tiff::faults::opinion;
use peer_tiff::judge::examine;

fn main() -> ExitCode {
    let names: Vec<String> = std::env::args().skip(1).collect();
    match judged(&names) {
        Ok(alike) => ExitCode::from(u8::from(!alike)),
        Err(error) => {
            eprintln!("judge_tiff: {error}");
            ExitCode::from(2)
        }
    }
}

/// Prints the lines; whether the second opinion is always the same.
fn judged(names: &[String]) -> std::io::Result<bool> {
    let mut alike = true;
    for name in names {
        let image = std::fs::read(name)?;
        let (verdict, other) = (examine(&image), opinion(&image));
        println!("{name}: {verdict}");
        if other != (verdict.number, u64::from(verdict.tag)) {
            println!("{name}: second opinion {other:?}");
            alike = false;
        }
    }
    Ok(alike)
}
