//! Tells what the independent salvage makes of a torn file: the answer, and a line for each record walked. Use: salvage_file FILE [OUT]; OUT gets
//! what is written.

use std::process::ExitCode;

use peer_salvage::salvage::outcome;

fn main() -> ExitCode {
    let paths: Vec<String> = std::env::args().skip(1).collect();
    let (Some(path), true) = (paths.first(), paths.len() <= 2) else {
        eprintln!("use: salvage_file FILE [OUT]");
        return ExitCode::from(2);
    };
    let file = match std::fs::read(path) {
        Ok(file) => file,
        Err(error) => {
            eprintln!("salvage_file: {path}: {error}");
            return ExitCode::from(2);
        }
    };
    let found = outcome(&file);
    println!("answer {:?}", found.answer);
    for [offset, kind, status, number] in &found.list {
        let words = match status {
            0 => "kept".to_string(),
            1 => "made new".to_string(),
            _ => format!("dropped {number}"),
        };
        println!("offset {offset} type {kind:02} {words}");
    }
    if let Some(out) = paths.get(1).filter(|_| found.is_written()) {
        if let Err(error) = std::fs::write(out, &found.file) {
            eprintln!("salvage_file: {out}: {error}");
            return ExitCode::from(2);
        }
    }
    ExitCode::from(u8::from(!found.is_written()))
}
