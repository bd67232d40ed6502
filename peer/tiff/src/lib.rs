//! The independent side of request 13, the tags of a picture: written from document 004 (X9.100-181), document 02 and
//! readings 48 to 51. It shares no table and no code with the proved library.

pub mod faults;
pub mod generate;
pub mod harm;
pub mod judge;
pub mod points;
pub mod sheet;
