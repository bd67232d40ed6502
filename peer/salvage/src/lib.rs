//! The independent salvage of torn files (request 11), written from document 02, readings 60 to 67 and, below it, the
//! independent reader's judge of single records and the independent writer. It shares no table and no code with the proved library.

pub mod asked;
pub mod generate;
pub mod large;
pub mod opinion;
pub mod pieces;
pub mod points;
pub mod promises;
pub mod put;
pub mod runs;
pub mod salvage;
pub mod sound;
pub mod survey;
pub mod walk;
