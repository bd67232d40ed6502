//! Makes docs/CHARACTERS.md from what the program `characters` prints: standard input to standard output.
use std::io::Read;

fn main() {
    let mut lines = String::new();
    std::io::stdin().read_to_string(&mut lines).expect("the lines of the program `characters`");
    print!("{}", record_tests::characters::page(&lines));
}
