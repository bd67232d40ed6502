//! Links the proved library.

#[path = "../rust/x9180/find_library.rs"]
mod find_library;

fn main() {
    println!("cargo::rustc-link-search=native={}", find_library::folder("..").display());
    println!("cargo::rustc-link-lib=static=x9180");
}
