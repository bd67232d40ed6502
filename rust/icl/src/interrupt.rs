//! Being told to stop while something is written. Without this what is not in its place yet would stay behind.

use std::io::{Error, Result};
use std::sync::atomic::{AtomicBool, Ordering};

static STOPPED: AtomicBool = AtomicBool::new(false);

/// From now on signals to stop are noted instead of ending the process at once.
#[cfg(unix)]
pub fn watch() {
    extern "C" {
        fn signal(number: i32, handler: usize) -> usize;
    }
    extern "C" fn note(_: i32) {
        STOPPED.store(true, Ordering::Relaxed);
    }
    const IGNORED: usize = 1;
    // Hang-up, interrupt, terminate, and a file that outgrows the limit set for it (Linux), where the write then fails.
    for number in [1, 2, 15, 25] {
        // SAFETY: `signal` of the C library, which the standard library links; the handler only stores to an atomic. A signal that
        // was ignored, as under nohup, stays so.
        unsafe {
            if signal(number, note as *const () as usize) == IGNORED {
                signal(number, IGNORED);
            }
        }
    }
}

#[cfg(not(unix))]
pub fn watch() {}

pub fn heed() -> Result<()> {
    match STOPPED.load(Ordering::Relaxed) {
        true => Err(Error::other("stopped before the end; nothing was left behind")),
        false => Ok(()),
    }
}
