//! Puts images from files to the proved library and to the independent judge: a line for each, with the number, the tag and what the answer rests
//! on. Use: compare_images FILE...; exit status 1 if the two sides differ on one of them.

use std::process::ExitCode;

use peer_tiff::judge::examine;

use proved::images::differs;

fn main() -> ExitCode {
    let names: Vec<String> = std::env::args().skip(1).collect();
    match compared(&names) {
        Ok(alike) => ExitCode::from(u8::from(!alike)),
        Err(error) => {
            eprintln!("compare_images: {error}");
            ExitCode::from(2)
        }
    }
}

/// Prints the lines; whether the two sides agree on all images.
fn compared(names: &[String]) -> std::io::Result<bool> {
    let mut alike = true;
    for name in names {
        let image = std::fs::read(name)?;
        println!("{name}: {}", examine(&image));
        if let Some(difference) = differs(&image) {
            println!("DIFFERENCE in {name} ({} bytes): {difference}", image.len());
            alike = false;
        }
    }
    Ok(alike)
}
