//! With the feature `library`, links the proved library, into `compare_book` alone: the tests and `cover_book` stand without it.

#[path = "../../rust/x9180/find_library.rs"]
mod find_library;

fn main() {
    if std::env::var_os("CARGO_FEATURE_LIBRARY").is_some() {
        let library = find_library::folder("../..").join(find_library::LIBRARY);
        println!("cargo::rustc-link-arg-bin=compare_book={}", library.display());
    }
}
