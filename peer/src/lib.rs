//! What the comparing programs share: the proved library's calls, what stands around the bytes that they read, a run from its arguments to its
//! end, what is asked about an accepted file as the text of its own draft and about an image, and the shrinking of a file on which the sides differ.

pub mod abi;
pub mod again;
pub mod amid;
pub mod images;
pub mod run;
pub mod shrink;

/// A difference, in words.
pub type Difference = String;
