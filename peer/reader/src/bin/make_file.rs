//! Writes one generated file to standard output.
//! Use: make_file --seed S [--kind SHAPE] [--turn N]; a shape is one of peer_reader::stream::SHAPES or peer_reader::ebcdic::SHAPES, the turn
//! its target.

use std::io::Write;
use std::process::ExitCode;

use peer_reader::ebcdic;
use peer_reader::random::Random;
use peer_reader::stream::{rare, shaped, SHAPES};

fn main() -> ExitCode {
    match made() {
        Ok(bytes) => {
            if std::io::stdout().lock().write_all(&bytes).is_err() {
                return ExitCode::from(2);
            }
            ExitCode::SUCCESS
        }
        Err(message) => {
            eprintln!("make_file: {message}");
            eprintln!("use: make_file --seed S [--kind SHAPE] [--turn N]");
            eprintln!("shapes: {} rare, and of two sets: {}", SHAPES.join(" "), ebcdic::SHAPES.join(", "));
            ExitCode::from(2)
        }
    }
}

fn made() -> Result<Vec<u8>, String> {
    let (mut seed, mut kind, mut turn) = (1u64, "sound".to_string(), None);
    let mut words = std::env::args().skip(1);
    while let Some(word) = words.next() {
        let next = words.next().ok_or_else(|| format!("{word} wants a value"))?;
        let number = || next.parse::<u64>().map_err(|_| format!("{next} is no number"));
        match word.as_str() {
            "--seed" => seed = number()?,
            "--turn" => turn = Some(number()? as usize),
            "--kind" => kind = next,
            _ => return Err(format!("{word} is not known")),
        }
    }
    let mut random = Random::new(seed);
    let turn = turn.unwrap_or_else(|| random.below(1_000_000));
    if kind == "rare" {
        return Ok(rare(&mut random, turn).bytes);
    }
    if ebcdic::SHAPES.contains(&kind.as_str()) {
        return Ok(ebcdic::shaped(&mut random, &kind, turn).bytes);
    }
    if !SHAPES.contains(&kind.as_str()) {
        return Err(format!("{kind} is no shape"));
    }
    Ok(shaped(&mut random, &kind, turn).bytes)
}
