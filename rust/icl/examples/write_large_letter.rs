//! Writes a sound file of so many items with two views each, to measure with (docs/ICL.md): 500 items to a bundle, 100 bundles to a cash letter, and
//! pictures of 500 bytes. Or so many small files of about 200 KB into a folder.
//!
//!     cargo run --release --offline --locked --manifest-path rust/Cargo.toml -p icl --example write_large_letter -- FILE 150000
//!     cargo run --release --offline --locked --manifest-path rust/Cargo.toml -p icl --example write_large_letter -- FOLDER 1000 files

use std::path::Path;

use peer_reader::plain::*;

const IN_BUNDLE: usize = 500;
const IN_LETTER: usize = 100 * IN_BUNDLE;
const PICTURE: usize = 500;

/// A sound file of so many checks, each with its sequence number and two views.
fn letters(items: usize) -> Vec<u8> {
    let mut records = vec![file_header()];
    let numbers: Vec<usize> = (1..=items).collect();
    let picture = vec![b'P'; PICTURE];
    for in_letter in numbers.chunks(IN_LETTER) {
        records.push(letter_header('I'));
        for in_bundle in in_letter.chunks(IN_BUNDLE) {
            records.push(bundle_header());
            for number in in_bundle {
                let sequence = format!("{number:015}");
                records.push(put(check(*number as u64, ' ', 0), 58, &sequence));
                for _ in 0..2 {
                    records.extend([view_detail('0'), put(view_data(&picture), 22, &sequence)]);
                }
            }
            let count = in_bundle.len() as u64;
            records.push(bundle_control(count, cents(in_bundle), NOT_STATED, 2 * count));
        }
        let (bundles, count) = (in_letter.len().div_ceil(IN_BUNDLE) as u64, in_letter.len() as u64);
        records.push(letter_control(bundles, count, cents(in_letter), 2 * count));
    }
    let (letters, count) = (items.div_ceil(IN_LETTER) as u64, items as u64);
    records.push(file_control(letters, records.len() as u64 + 1, count, cents(&numbers)));
    file(&records)
}

fn cents(numbers: &[usize]) -> u64 {
    numbers.iter().map(|number| *number as u64).sum()
}

fn main() -> std::io::Result<()> {
    let words: Vec<String> = std::env::args().skip(1).collect();
    let [place, count, files @ ..] = words.as_slice() else { panic!("FILE ITEMS, or FOLDER COUNT files") };
    let count: usize = count.parse().expect("a number");
    if files.is_empty() {
        return std::fs::write(place, letters(count));
    }
    std::fs::create_dir_all(place)?;
    // 130 items of 1,538 bytes.
    let bytes = letters(130);
    (1..=count).try_for_each(|number| std::fs::write(Path::new(place).join(format!("{number:04}.x9")), &bytes))
}
