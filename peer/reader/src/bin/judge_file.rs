//! Prints the line of document 01 for one file, by the independent reader alone.
//! Use: judge_file [FILE]; without FILE it reads standard input.

use std::io::Read;
use std::process::ExitCode;

use peer_reader::line::line;

fn main() -> ExitCode {
    let mut file = Vec::new();
    let read = match std::env::args_os().nth(1) {
        Some(path) => std::fs::read(path).map(|bytes| file = bytes),
        None => std::io::stdin().lock().read_to_end(&mut file).map(|_| ()),
    };
    if let Err(error) = read {
        eprintln!("judge_file: {error}");
        return ExitCode::from(2);
    }
    println!("{}", line(&file));
    ExitCode::SUCCESS
}
