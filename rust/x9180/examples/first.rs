//! Reads the file that is named: its line, then its items, each with the sizes of its pictures.
fn main() -> Result<(), Box<dyn std::error::Error>> {
    let file = std::fs::read(std::env::args().nth(1).ok_or("use: first FILE")?)?;
    let reading = x9180::read(&file)?; // or the refusal, in plain words
    println!("{}", reading.line());
    for item in reading.letters().flat_map(|letter| letter.bundles()).flat_map(|bundle| bundle.items()) {
        print!("{:?} of {} cents:", item.kind(), item.amount());
        for view in item.views() {
            let picture: &[u8] = x9180::picture(&file, view.offset())?; // the file's own bytes, no copy
            print!(" {} bytes", picture.len());
        }
        println!();
    }
    Ok(())
}
