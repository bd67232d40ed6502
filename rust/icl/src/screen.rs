//! What is written to standard output and standard error: colours and progress on a terminal only.

use std::cell::Cell;
use std::io::{stderr, stdout, IsTerminal, Write};
use std::sync::mpsc::{channel, RecvTimeoutError};
use std::time::{Duration, Instant};

use crate::stop::Stop;

/// Work that takes less time than this shows no progress.
const PATIENCE: Duration = Duration::from_millis(500);
pub const TICK: Duration = Duration::from_millis(200);

thread_local! {
    static QUIET: Cell<bool> = const { Cell::new(false) };
}

/// From now on this thread shows no progress: it is one of several, and one other tells how far all have come.
pub fn be_quiet() {
    QUIET.with(|quiet| quiet.set(true));
}

fn shows_progress() -> bool {
    stderr().is_terminal() && !QUIET.with(Cell::get)
}

#[derive(Clone, Copy)]
pub enum Colour {
    Green,
    Red,
}

/// A text in a colour, where standard output is a terminal and NO_COLOR is not set.
pub fn coloured(text: &str, colour: Colour) -> String {
    paint(text, colour, stdout().is_terminal())
}

fn paint(text: &str, colour: Colour, terminal: bool) -> String {
    let refused = std::env::var_os("NO_COLOR").is_some_and(|value| !value.is_empty());
    let code = match colour {
        Colour::Green => 32,
        Colour::Red => 31,
    };
    match terminal && !refused {
        true => format!("\x1b[{code}m{text}\x1b[0m"),
        false => text.to_string(),
    }
}

/// One line on standard error. Were that closed, there would be no one to tell.
pub fn complain(message: &str) {
    let start = paint("icl:", Colour::Red, stderr().is_terminal());
    let _ = writeln!(stderr(), "{start} {message}");
}

/// Writes a text to standard output.
pub fn print(text: &str) -> Result<(), Stop> {
    let mut out = stdout().lock();
    out.write_all(text.as_bytes()).and_then(|()| out.flush()).map_err(Stop::output)
}

/// A line on the terminal of standard error that tells how far long work has come; elsewhere nothing.
pub struct Progress {
    terminal: bool,
    started: Instant,
    shown: Option<Instant>,
}

impl Progress {
    pub fn new() -> Progress {
        Progress { terminal: shows_progress(), started: Instant::now(), shown: None }
    }

    /// The same, but nothing where standard output is a terminal too: there the output itself is seen.
    pub fn beside_output() -> Progress {
        let mut progress = Progress::new();
        progress.terminal &= !stdout().is_terminal();
        progress
    }

    /// Shows the words, now and then.
    pub fn show(&mut self, words: impl FnOnce() -> String) {
        let now = Instant::now();
        let early = now - self.started < PATIENCE || self.shown.is_some_and(|shown| now - shown < TICK);
        if self.terminal && !early {
            let _ = write!(stderr(), "\r\x1b[K{}", words());
            self.shown = Some(now);
        }
    }

    /// Wipes the line.
    pub fn wipe(&mut self) {
        if self.shown.take().is_some() {
            let _ = write!(stderr(), "\r\x1b[K");
        }
    }
}

impl Drop for Progress {
    fn drop(&mut self) {
        self.wipe();
    }
}

/// Does work that cannot tell how far it has come, and shows the seconds meanwhile.
pub fn with_clock<T>(words: &str, work: impl FnOnce() -> T) -> T {
    if !shows_progress() {
        return work();
    }
    std::thread::scope(|scope| {
        let (done, wait) = channel::<()>();
        let clock = scope.spawn(move || {
            let mut progress = Progress::new();
            while wait.recv_timeout(TICK) == Err(RecvTimeoutError::Timeout) {
                let seconds = progress.started.elapsed().as_secs();
                progress.show(|| format!("{words}: {seconds} s"));
            }
        });
        let result = work();
        drop(done);
        let _ = clock.join();
        result
    })
}
