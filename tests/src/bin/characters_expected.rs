//! Makes crates/characters/stdout, what the program `characters` has to print, from Tables 1 and 2 and code page 037: to standard output.

fn main() {
    print!("{}", record_tests::characters::expected_lines());
}
