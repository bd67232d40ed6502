//! Colours and progress: on a terminal, and nowhere else.
#![cfg(target_os = "linux")]

mod common;

use std::ffi::{c_char, CStr};
use std::fs::File;
use std::io::{Read, Write};
use std::os::fd::FromRawFd;
use std::process::{Command, Stdio};
use std::time::Duration;

use common::{icl, read, run, Folder};

extern "C" {
    fn posix_openpt(flags: i32) -> i32;
    fn grantpt(terminal: i32) -> i32;
    fn unlockpt(terminal: i32) -> i32;
    fn ptsname(terminal: i32) -> *const c_char;
}

/// A terminal: the side that a program writes to, and the side that shows what was written.
fn terminal() -> (File, File) {
    const READ_WRITE_NO_CONTROL: i32 = 0o2 | 0o400;
    // `ptsname` keeps its answer in one place, so only one test at a time may ask.
    static ONE: std::sync::Mutex<()> = std::sync::Mutex::new(());
    let _one = ONE.lock().unwrap();
    // SAFETY: calls of the C library as their manual says; the descriptor is new and belongs to the file made of it.
    let (shown, name) = unsafe {
        let number = posix_openpt(READ_WRITE_NO_CONTROL);
        assert!(number >= 0 && grantpt(number) == 0 && unlockpt(number) == 0);
        (File::from_raw_fd(number), CStr::from_ptr(ptsname(number)).to_str().unwrap().to_string())
    };
    (File::options().read(true).write(true).open(name).unwrap(), shown)
}

/// What a terminal shows until the last program has let go of it.
fn text(mut shown: File) -> String {
    let mut bytes = Vec::new();
    let _ = shown.read_to_end(&mut bytes); // ends with an error when the other side is closed
    String::from_utf8(bytes).unwrap()
}

/// Standard output of a command on a terminal.
fn on_terminal(mut command: Command) -> String {
    let (written, shown) = terminal();
    let mut child = command.stdout(written).stderr(Stdio::null()).spawn().unwrap();
    drop(command); // it holds the terminal
    let text = text(shown);
    child.wait().unwrap();
    text
}

const ACCEPTED: &str = "accepted records 12 letters 1 bundles 1 items 2 views 0 debit 350";
const REFUSED: &str = "refused 9 record 10 field 2 offset 818";

#[test]
fn colours() {
    let check = || icl(["check", "peer/samples/sound-2-checks.x9", "peer/samples/damaged-06-item-count.x9"]);
    let lines = |green: &str, red: &str, end: &str| {
        let (sound, damaged) = ("peer/samples/sound-2-checks.x9", "peer/samples/damaged-06-item-count.x9");
        format!("{sound}: {green}{ACCEPTED}{end}\r\n{damaged}: {red}{REFUSED}{end}\r\n")
    };
    assert_eq!(on_terminal(check()), lines("\x1b[32m", "\x1b[31m", "\x1b[0m"));
    let mut without = check();
    without.env("NO_COLOR", "1");
    assert_eq!(on_terminal(without), lines("", "", ""));
    // The convention: an empty NO_COLOR is none.
    let mut empty = check();
    empty.env("NO_COLOR", "");
    assert_eq!(on_terminal(empty), lines("\x1b[32m", "\x1b[31m", "\x1b[0m"));
    assert_eq!(String::from_utf8(check().output().unwrap().stdout).unwrap(), lines("", "", "").replace('\r', ""));
}

#[test]
fn colours_of_tags() {
    let tags = || icl(["tags", "samples/two-letters-with-pictures.x9"]);
    let right = on_terminal(tags());
    assert!(
        right.starts_with("cash letter 1, bundle 1, item 1, view 1, at offset 623: \x1b[32mok\x1b[0m\r\n"),
        "{right}"
    );
    let wrong = on_terminal(icl(["tags", "--tiff", "/dev/null"]));
    assert!(wrong.starts_with("\x1b[31mrefused 3 tag 0\x1b[0m\r\n  CUT: "), "{wrong}");
    let mut without = tags();
    without.env("NO_COLOR", "1");
    assert!(on_terminal(without).starts_with("cash letter 1, bundle 1, item 1, view 1, at offset 623: ok\r\n"));
}

/// Two pieces of four MiB with a pause between them: long work, which is shown on a terminal and wiped at its end.
#[test]
fn progress() {
    let slowly = |mut input: std::process::ChildStdin| {
        input.write_all(&vec![0; 4 << 20]).unwrap();
        std::thread::sleep(Duration::from_millis(700));
        input.write_all(&vec![0; 4 << 20]).unwrap();
    };
    let (written, shown) = terminal();
    let mut command = icl(["check", "-"]);
    let mut child = command.stdin(Stdio::piped()).stdout(Stdio::piped()).stderr(written).spawn().unwrap();
    drop(command);
    slowly(child.stdin.take().unwrap());
    let output = child.wait_with_output().unwrap();
    assert_eq!(text(shown), "\r\x1b[Kreading standard input: 8 MiB\r\x1b[K");
    assert_eq!(output.stdout, b"refused 4 record 1 field 0 offset 0\n");

    let mut child =
        icl(["check", "-"]).stdin(Stdio::piped()).stderr(Stdio::piped()).stdout(Stdio::null()).spawn().unwrap();
    slowly(child.stdin.take().unwrap());
    assert_eq!(child.wait_with_output().unwrap().stderr, b"");
}

/// Several files, the first of which comes slowly: how many are done is shown, by one line for all, and wiped before anything is told.
#[test]
fn progress_of_several_files() {
    let (written, shown) = terminal();
    let mut command = icl(["check", "-", "peer/samples/sound-2-checks.x9"]);
    let mut child = command.stdin(Stdio::piped()).stdout(Stdio::piped()).stderr(written).spawn().unwrap();
    drop(command);
    std::thread::sleep(Duration::from_millis(1500));
    child.stdin.take().unwrap().write_all(&read("peer/samples/damaged-06-item-count.x9")).unwrap();
    let output = child.wait_with_output().unwrap();
    let lines = format!("-: {REFUSED}\npeer/samples/sound-2-checks.x9: {ACCEPTED}\n");
    assert_eq!(String::from_utf8(output.stdout).unwrap(), lines);
    let shown = text(shown);
    assert!(shown.starts_with("\r\x1b[K0 of 2 files") && shown.ends_with("\r\x1b[K"), "{shown:?}");
}

/// Short work shows nothing, not even on a terminal.
#[test]
fn no_progress_for_short_work() {
    let (written, shown) = terminal();
    let mut command = icl(["tree", "-"]);
    let mut child = command.stdin(Stdio::piped()).stdout(Stdio::null()).stderr(written).spawn().unwrap();
    drop(command);
    child.stdin.take().unwrap().write_all(&read("peer/samples/sound-2-checks.x9")).unwrap();
    assert!(child.wait().unwrap().success());
    assert_eq!(text(shown), "");
}

/// A day book that another process holds: that it is waited for is shown, and nothing is entered before.
#[test]
fn waiting_for_a_book() {
    let folder = Folder::new("waiting");
    let book = folder.path("day.book");
    assert_eq!(run(&format!("book new {book}")).0, 0);
    let held = File::options().read(true).write(true).open(&book).unwrap();
    held.lock().unwrap();
    // Let go of when the words have been seen, or after a minute.
    let (let_go, wait) = std::sync::mpsc::channel::<()>();
    let holder = std::thread::spawn(move || {
        let _ = wait.recv_timeout(Duration::from_secs(60));
        drop(held);
    });
    let (written, mut shown) = terminal();
    let mut command = icl(["book", "enter", &book, "peer/samples/sound-2-checks.x9", "--number", "1", "--owner", "1"]);
    let mut child = command.stdout(Stdio::null()).stderr(written).spawn().unwrap();
    drop(command);
    let words = format!("\r\x1b[Kwaiting for {book}, which another process holds: ");
    let mut begin = vec![0; words.len()];
    shown.read_exact(&mut begin).unwrap();
    assert_eq!(String::from_utf8(begin).unwrap(), words);
    assert!(child.try_wait().unwrap().is_none());
    assert_eq!(run(&format!("book show {book} 1 --owner 1")).0, 1);
    let_go.send(()).unwrap();
    assert!(child.wait().unwrap().success());
    assert!(text(shown).ends_with("\r\x1b[K"));
    assert_eq!(run(&format!("book show {book} 1 --owner 1")).0, 0);
    holder.join().unwrap();
}

/// A step at a key press: the keys stand on the last line, which is wiped; other keys ask for nothing.
#[test]
fn steps_by_keys() {
    const FILE: &str = "peer/samples/damaged-03-place.x9";
    const KEYS: &str = "space or enter: next step   e: to the end   q: quit";
    let whole = run(&format!("follow {FILE}")).1.replace('\n', "\r\n");
    let at = |words: &str| whole.find(words).unwrap();
    let (second, answer) = (at("not_called_for stands"), at("\r\nrefused 6"));
    let [first, second, last] = [&whole[..second], &whole[second..answer], &whole[answer..]];
    let wiped = format!("{KEYS}\r\x1b[K");
    // What is shown until the keys are, and then all that is left once these keys have been pressed.
    for (keys, left) in [
        (" \r", format!("{wiped}{second}{wiped}{last}")),
        ("x\x1b[B e", format!("{wiped}{second}{wiped}{last}")),
        ("e", format!("{wiped}{second}{last}")),
        (" q", format!("{wiped}{second}{wiped}")),
        ("q", wiped.clone()),
        ("\x03", wiped.clone()),
    ] {
        let (written, mut shown) = terminal();
        let mut command = icl(["follow", FILE]);
        command.env("NO_COLOR", "1").stdin(written.try_clone().unwrap()).stdout(written.try_clone().unwrap());
        let mut child = command.stderr(Stdio::null()).spawn().unwrap();
        drop((command, written));
        let mut begin = vec![0; first.len() + KEYS.len()];
        shown.read_exact(&mut begin).unwrap();
        assert_eq!(String::from_utf8(begin).unwrap(), format!("{first}{KEYS}"));
        shown.write_all(keys.as_bytes()).unwrap();
        assert_eq!(format!("{KEYS}{}", text(shown)), left, "{keys:?}");
        // The answer's own status, however it ended.
        assert_eq!(child.wait().unwrap().code(), Some(1), "{keys:?}");
    }
}

/// With `--all`, and where no key can be read, all at once.
#[test]
fn steps_at_once() {
    let whole = run("follow peer/samples/damaged-03-place.x9").1.replace('\n', "\r\n");
    let mut command = icl(["follow", "peer/samples/damaged-03-place.x9"]);
    command.env("NO_COLOR", "1");
    assert_eq!(on_terminal(command), whole);
    let (written, shown) = terminal();
    let mut command = icl(["follow", "--all", "peer/samples/damaged-03-place.x9"]);
    command.env("NO_COLOR", "1").stdin(written.try_clone().unwrap()).stdout(written.try_clone().unwrap());
    let mut child = command.stderr(Stdio::null()).spawn().unwrap();
    drop((command, written));
    assert_eq!(text(shown), whole);
    assert_eq!(child.wait().unwrap().code(), Some(1));
}
