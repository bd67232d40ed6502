//! Saves one draft of the stream, and prints what the independent writer answers. Use: make_draft SEED INDEX [FOLDER]; the folder is the
//! current one unless given.

use std::path::Path;

use peer_writer::generate::draft;
use peer_writer::write::judge;

fn main() -> std::io::Result<()> {
    let words: Vec<String> = std::env::args().skip(1).collect();
    let number = |place: usize| words.get(place).and_then(|word| word.parse::<u64>().ok());
    let (Some(seed), Some(index)) = (number(0), number(1)) else {
        eprintln!("use: make_draft SEED INDEX [FOLDER]");
        std::process::exit(2);
    };
    let made = draft(seed, index);
    let verdict = judge(&made.text, &made.numbers);
    println!("{}: {:?} ({})", made.shape, verdict.answer.listed(), verdict.why);
    let folder = words.get(2).map_or(".", String::as_str);
    made.save(Path::new(folder), &format!("seed{seed}-draft{index}"))
}
