//! The independent side of requests 6 and 8 to 10, the day book: written from documents 01 and 02, readings 52 to 59 and
//! the layout of the book in the C header, over the independent reader. It shares no table and no code with the proved library.

pub mod apart;
pub mod call;
pub mod files;
pub mod generate;
pub mod grow;
pub mod later;
pub mod layout;
pub mod list;
pub mod model;
pub mod opinion;
pub mod paper;
pub mod points;
pub mod put;
pub mod sheet;
pub mod table;
pub mod tamper;
