//! The independent writer of X9.100-180 files (request 4), written from documents 01 and 02, readings 41 to 47 and the
//! standard's text. It shares no table and no code with the proved library.

pub mod asked;
pub mod complete;
pub mod draft;
pub mod generate;
pub mod large;
pub mod links;
pub mod order;
pub mod outgrow;
pub mod points;
pub mod promises;
pub mod sheet;
pub mod source;
pub mod state;
pub mod sums;
pub mod write;
