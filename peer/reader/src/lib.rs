//! The independent side: a reader of X9.100-180 files written from the standard's text and documents 01 and 02 alone,
//! and a generator of sound and damaged files. It shares no table and no code with the proved library.

pub mod asked;
pub mod books;
pub mod brim;
pub mod charset;
pub mod copy;
pub mod credits;
pub mod descent;
pub mod ebcdic;
pub mod harm;
pub mod judge;
pub mod layout;
pub mod line;
pub mod make;
pub mod picture;
pub mod pictures;
pub mod plain;
pub mod random;
pub mod routing;
pub mod samples;
pub mod samples_ebcdic;
pub mod sets;
pub mod stream;
pub mod tails;
pub mod tally;
