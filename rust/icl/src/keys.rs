//! Single keys from the terminal of standard input, without waiting for a whole line. Imports no module.

use std::io::{stdin, IsTerminal, Read, Write};

/// What a key asks for.
#[derive(Clone, Copy, Debug, PartialEq, Eq)]
pub enum Key {
    Next,
    ToTheEnd,
    Quit,
}

/// The keys, for the line at the bottom.
pub const KEYS: &str = "space or enter: next step   e: to the end   q: quit";

impl Key {
    /// Any other key asks for nothing. Interrupt (3) and end of input (4) come as bytes while a key is waited for.
    fn of(byte: u8) -> Option<Key> {
        match byte {
            b' ' | b'\r' | b'\n' => Some(Key::Next),
            b'e' | b'E' => Some(Key::ToTheEnd),
            b'q' | b'Q' | 3 | 4 => Some(Key::Quit),
            _ => None,
        }
    }
}

/// Whether keys can be read: standard input is a terminal that can be had without lines.
pub fn can_be_read() -> bool {
    stdin().is_terminal() && raw::Raw::on().is_some()
}

/// Shows the keys on the last line and waits for one of them; then the line is wiped.
pub fn wait(out: &mut dyn Write) -> std::io::Result<Key> {
    // Lines again when it is let go of.
    let _raw = raw::Raw::on();
    write!(out, "{KEYS}")?;
    out.flush()?;
    let key = loop {
        let mut byte = [0];
        match stdin().lock().read(&mut byte)? {
            0 => break Key::Quit,
            _ => match Key::of(byte[0]) {
                Some(key) => break key,
                None => continue,
            },
        }
    };
    write!(out, "\r\x1b[K")?;
    out.flush()?;
    Ok(key)
}

#[cfg(unix)]
mod raw {
    /// Room for `struct termios` of the C library, which has no more than 72 bytes on the systems that Rust knows; only the library looks into it.
    #[repr(C, align(16))]
    #[derive(Clone, Copy)]
    struct Settings([u8; 256]);

    extern "C" {
        fn tcgetattr(terminal: i32, settings: *mut Settings) -> i32;
        fn tcsetattr(terminal: i32, when: i32, settings: *const Settings) -> i32;
        fn cfmakeraw(settings: *mut Settings);
    }

    const STANDARD_INPUT: i32 = 0;
    /// When all that was written has been shown.
    const DRAINED: i32 = 1;

    /// The terminal without lines and echo, until it is let go of.
    pub struct Raw(Settings);

    impl Raw {
        pub fn on() -> Option<Raw> {
            let mut before = Settings([0; 256]);
            // SAFETY: calls of the C library, which the standard library links, with a pointer to room enough for its settings.
            unsafe {
                if tcgetattr(STANDARD_INPUT, &mut before) != 0 {
                    return None;
                }
                let mut without_lines = before;
                cfmakeraw(&mut without_lines);
                (tcsetattr(STANDARD_INPUT, DRAINED, &without_lines) == 0).then_some(Raw(before))
            }
        }
    }

    impl Drop for Raw {
        fn drop(&mut self) {
            // SAFETY: as above; the settings are those that the library gave.
            unsafe { tcsetattr(STANDARD_INPUT, DRAINED, &self.0) };
        }
    }
}

#[cfg(not(unix))]
mod raw {
    /// Not known here: all is shown at once.
    pub struct Raw;

    impl Raw {
        pub fn on() -> Option<Raw> {
            None
        }
    }
}

#[cfg(test)]
mod tests {
    use super::*;

    #[test]
    fn keys() {
        for (byte, key) in
            [(b' ', Key::Next), (b'\r', Key::Next), (b'e', Key::ToTheEnd), (b'q', Key::Quit), (3, Key::Quit)]
        {
            assert_eq!(Key::of(byte), Some(key));
        }
        // An arrow is an escape and two characters.
        assert!(b"\x1b[Bx".iter().all(|byte| Key::of(*byte).is_none()));
    }
}
