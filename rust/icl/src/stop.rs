//! How a command ends: the exit statuses, and why it ended before its work was done.

use std::io::{Error, ErrorKind};

use crate::words;

/// All accepted, all done.
pub const DONE: u8 = 0;
/// A file or a picture was refused.
pub const REFUSED: u8 = 1;
/// Something could not be read or written, or the command was not understood.
pub const TROUBLE: u8 = 2;

/// Why a command ended before its work was done.
pub enum Stop {
    /// One line for standard error, and the exit status.
    Message(u8, String),
    /// The command line was not understood.
    Usage(String),
    /// Whoever read our output has closed it, as `head` does: nothing more to say.
    PipeClosed,
}

impl Stop {
    pub fn trouble(message: String) -> Stop {
        Stop::Message(TROUBLE, message)
    }

    /// From an error in writing to standard output.
    pub fn output(error: Error) -> Stop {
        match error.kind() {
            ErrorKind::BrokenPipe => Stop::PipeClosed,
            _ => Stop::trouble(format!("standard output: {}", words::plain(&error))),
        }
    }
}
