//! The documents against the code, a module for each matter. None of it looks at what the library answers: the other tests do.
#[path = "documents/believed.rs"]
mod believed;
#[path = "documents/calls.rs"]
mod calls;
#[path = "documents/definitions.rs"]
mod definitions;
#[path = "documents/form.rs"]
mod form;
#[path = "documents/numbers.rs"]
mod numbers;
#[path = "documents/paths.rs"]
mod paths;
#[path = "documents/repository.rs"]
mod repository;
#[path = "documents/version.rs"]
mod version;
