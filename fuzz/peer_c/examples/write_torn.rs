//! Writes the seeds of the target `salvage`: torn files of every shape of the generator, the samples cut in their middle, and two edge inputs.
//! Use: write_torn OUT SAMPLES...

use std::collections::BTreeMap;
use std::path::Path;

use peer_salvage::generate;

/// So many of each shape, none of them larger.
const EACH: usize = 6;
const LARGEST: usize = 4_000;

/// So many files of the generator have that many of every shape.
const FILES: u64 = 1_000;

fn main() -> std::io::Result<()> {
    let mut words = std::env::args().skip(1);
    let Some(out) = words.next() else {
        eprintln!("use: write_torn OUT SAMPLES...");
        std::process::exit(2);
    };
    let out = Path::new(&out);
    std::fs::create_dir_all(out)?;
    let put = |name: String, turn: usize, file: &[u8]| {
        std::fs::write(out.join(name.replace(' ', "-")), [&control(turn), file].concat())
    };
    let mut of_shape: BTreeMap<&str, usize> = BTreeMap::new();
    for index in 0..FILES {
        let made = generate::file(11, index);
        let count = of_shape.entry(made.shape).or_insert(0);
        if *count < EACH && made.bytes.len() <= LARGEST {
            *count += 1;
            put(format!("{}-{count}", made.shape), index as usize, &made.bytes)?;
        }
    }
    for folder in words {
        let mut samples: Vec<_> = std::fs::read_dir(folder)?.collect::<Result<_, _>>()?;
        samples.sort_by_key(|entry| entry.file_name());
        for (turn, sample) in
            samples.iter().enumerate().filter(|(_, sample)| sample.path().extension() == Some("x9".as_ref()))
        {
            let (file, name) = (std::fs::read(sample.path())?, sample.file_name());
            let name = name.to_string_lossy();
            // In the middle of their records, and one in three whole.
            let end = if turn % 3 == 0 { file.len() } else { file.len() * 3 / 5 };
            put(format!("sample-{}", name.trim_end_matches(".x9")), turn, &file[..end])?;
        }
    }
    std::fs::write(out.join("control-only"), control(5))?;
    std::fs::write(out.join("empty"), [])
}

/// Control bytes by turn.
fn control(turn: usize) -> [u8; 16] {
    let drawn = |factor: usize| (turn * factor) as u8;
    let mut control = [0; 16];
    (control[0], control[1], control[3], control[4]) = (drawn(1), drawn(5), drawn(11), drawn(3));
    (control[5], control[7]) = (drawn(7), drawn(1));
    control
}
