//! Writes the samples and expected.txt into a folder, and those in EBCDIC, with a list of their own, into its folder ebcdic.
//! Use: write_samples DIR

use std::path::{Path, PathBuf};
use std::process::ExitCode;

use peer_reader::line::line;
use peer_reader::samples::{samples, Sample};
use peer_reader::samples_ebcdic;

fn main() -> ExitCode {
    let Some(folder) = std::env::args_os().nth(1).map(PathBuf::from) else {
        eprintln!("use: write_samples DIR");
        return ExitCode::from(2);
    };
    let written = write(&folder, &samples()).and_then(|()| write(&folder.join("ebcdic"), &samples_ebcdic::samples()));
    match written {
        Ok(()) => ExitCode::SUCCESS,
        Err(message) => {
            eprintln!("{message}");
            ExitCode::from(1)
        }
    }
}

/// Writes each sample, whose line must be that worked out by hand, and the list of the lines.
fn write(folder: &Path, samples: &[Sample]) -> Result<(), String> {
    std::fs::create_dir_all(folder).map_err(|error| format!("{}: {error}", folder.display()))?;
    let mut expected = String::new();
    for sample in samples {
        let read = line(&sample.bytes);
        if read != sample.line {
            return Err(format!("{}: read as {read}, by hand {}", sample.name, sample.line));
        }
        expected.push_str(&format!("{}\t{read}\n", sample.name));
        std::fs::write(folder.join(sample.name), &sample.bytes).map_err(|error| format!("{}: {error}", sample.name))?;
    }
    std::fs::write(folder.join("expected.txt"), expected).map_err(|error| format!("expected.txt: {error}"))
}
