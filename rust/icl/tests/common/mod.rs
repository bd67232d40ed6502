//! What the end-to-end tests share: running `icl`, folders that go away again, and files to give it.
#![allow(dead_code)] // Each test program uses its part.

pub mod pictured_credits;

use std::ffi::OsStr;
use std::fs;
use std::io::{Seek, SeekFrom, Write};
use std::path::{Path, PathBuf};
use std::process::{Command, Stdio};

use peer_reader::plain::*;

/// A command that runs `icl`.
pub fn icl<Word: AsRef<OsStr>>(words: impl IntoIterator<Item = Word>) -> Command {
    let mut command = Command::new(env!("CARGO_BIN_EXE_icl"));
    command.args(words).current_dir(root()).env_remove("NO_COLOR").stdin(Stdio::null());
    command
}

/// Exit status, standard output and standard error of a command.
pub fn outcome(command: &mut Command) -> (i32, String, String) {
    let output = command.output().unwrap();
    let text = |bytes| String::from_utf8(bytes).unwrap();
    (output.status.code().unwrap(), text(output.stdout), text(output.stderr))
}

/// Runs `icl` on words that are parted by blanks.
pub fn run(words: &str) -> (i32, String, String) {
    outcome(&mut icl(words.split(' ')))
}

/// Runs `icl` with bytes on standard input, through a pipe.
pub fn piped(words: &str, bytes: &[u8]) -> (i32, String, String) {
    let mut child =
        icl(words.split(' ')).stdin(Stdio::piped()).stdout(Stdio::piped()).stderr(Stdio::piped()).spawn().unwrap();
    // The tool may stop reading before the end.
    let _ = child.stdin.take().unwrap().write_all(bytes);
    let output = child.wait_with_output().unwrap();
    let text = |bytes| String::from_utf8(bytes).unwrap();
    (output.status.code().unwrap(), text(output.stdout), text(output.stderr))
}

/// The root of the repository, where every command is run.
pub fn root() -> PathBuf {
    Path::new(env!("CARGO_MANIFEST_DIR")).join("../..").canonicalize().unwrap()
}

pub fn read(name: &str) -> Vec<u8> {
    fs::read(root().join(name)).unwrap()
}

/// A folder for one test, gone at its end.
pub struct Folder(pub PathBuf);

impl Folder {
    pub fn new(test: &str) -> Folder {
        let folder = std::env::temp_dir().join(format!("icl-{test}-{}", std::process::id()));
        fs::create_dir(&folder).unwrap();
        Folder(folder)
    }

    pub fn path(&self, name: &str) -> String {
        self.0.join(name).to_str().unwrap().to_string()
    }

    pub fn with(&self, name: &str, bytes: &[u8]) -> String {
        fs::write(self.0.join(name), bytes).unwrap();
        self.path(name)
    }

    /// A file of zeros that takes no room on the disk.
    pub fn sparse(&self, name: &str, length: u64) -> String {
        fs::File::create(self.0.join(name)).unwrap().set_len(length).unwrap();
        self.path(name)
    }

    /// The names in it, in order.
    pub fn names(&self, below: &str) -> Vec<String> {
        let entries = fs::read_dir(self.0.join(below)).unwrap();
        let mut names: Vec<String> = entries.map(|entry| entry.unwrap().file_name().into_string().unwrap()).collect();
        names.sort();
        names
    }
}

impl Folder {
    /// The files in it and in its folders, in the order of their paths, which are told from `below` on.
    pub fn all(&self, below: &str) -> Vec<String> {
        let mut paths = Vec::new();
        gather(&self.0.join(below), "", &mut paths);
        paths.sort();
        paths
    }
}

fn gather(folder: &Path, before: &str, paths: &mut Vec<String>) {
    for entry in fs::read_dir(folder).unwrap() {
        let path = entry.unwrap().path();
        let name = format!("{before}{}", path.file_name().unwrap().to_str().unwrap());
        match path.is_dir() {
            true => gather(&path, &format!("{name}/"), paths),
            false => paths.push(name),
        }
    }
}

impl Drop for Folder {
    fn drop(&mut self) {
        let _ = fs::remove_dir_all(&self.0);
    }
}

/// A check sum as the XZ format has it, bit by bit.
pub fn check_sum(bytes: &[u8]) -> u64 {
    let bit = |sum: u64| (sum >> 1) ^ if sum & 1 == 1 { 0xC96C_5795_D787_0F42 } else { 0 };
    !bytes.iter().fold(!0, |sum, byte| (0..8).fold(sum ^ u64::from(*byte), |sum, _| bit(sum)))
}

/// The file of a day book of today, as `docs/BOOK-FILE.md` has it: how many numbers its table has and the first of them, and the same of its list.
pub fn book_file(length: u64, numbers: &[u64], list_length: u64, list: &[u64]) -> Vec<u8> {
    file_of_version(4, &[(length, numbers), (list_length, list)])
}

/// The file of a day book of version 1, 2 or 3, which has no list.
pub fn older_file(version: u64, length: u64, numbers: &[u64]) -> Vec<u8> {
    file_of_version(version, &[(length, numbers)])
}

fn file_of_version(version: u64, arrays: &[(u64, &[u64])]) -> Vec<u8> {
    let stored = |numbers: &[u64]| numbers.iter().rposition(|number| *number != 0).map_or(0, |last| last + 1);
    let mut bytes = format!("icl day book, version {version}\n").into_bytes();
    let counts = arrays.iter().flat_map(|(length, numbers)| [*length, stored(numbers) as u64]);
    let numbers = arrays.iter().flat_map(|(_, numbers)| numbers[..stored(numbers)].iter().copied());
    counts.chain(numbers).for_each(|number| bytes.extend(number.to_le_bytes()));
    bytes.extend(check_sum(&bytes).to_le_bytes());
    bytes
}

/// A number below zero in two's complement.
pub fn below_zero(number: u64) -> u64 {
    u64::MAX - number + 1
}

/// A sound file of 9,999 checks of one cent.
pub fn many_checks() -> Vec<u8> {
    let mut records = vec![file_header(), letter_header('E'), bundle_header()];
    records.extend(std::iter::repeat_n(check(1, ' ', 0), 9_999));
    records.push(bundle_control(9_999, 9_999, NOT_STATED, 0));
    records.push(letter_control(1, 9_999, 9_999, 0));
    records.push(file_control(1, 10_005, 9_999, 9_999));
    file(&records)
}

/// A sound file of exactly 268,435,456 bytes, mostly holes on the disk: one check with 27 views whose pictures are zeros, 26 of
/// 9,999,999 bytes and one of 8,428,760.
///
/// With their lengths 01, 10, 20, 25, 70 and 99 take 84 bytes each, the 90 takes 89, a 50 takes 84, a 52 takes 143 and its picture:
/// 6 x 84 + 89 + 27 x 227 + 26 x 9,999,999 + 8,428,760 = 268,435,456. Records: 7 + 54 = 61.
pub fn write_largest(folder: &Folder, name: &str) -> String {
    let mut out = fs::File::create(folder.0.join(name)).unwrap();
    out.write_all(&file(&[file_header(), letter_header('I'), bundle_header(), check(1, ' ', 0)])).unwrap();
    for view in 1..=27 {
        let picture: u32 = if view < 27 { 9_999_999 } else { 8_428_760 };
        let mut data = view_data(b"");
        data[127..134].copy_from_slice(format!("{picture:07}").as_bytes()); // field 20, positions 128 to 134
        out.write_all(&file(&[view_detail('0')])).unwrap();
        out.write_all(&(139 + picture).to_be_bytes()).unwrap();
        out.write_all(&data).unwrap();
        out.seek(SeekFrom::Current(i64::from(picture))).unwrap();
    }
    let end = file(&[bundle_control(1, 1, NOT_STATED, 27), letter_control(1, 1, 1, 27), file_control(1, 61, 1, 1)]);
    out.write_all(&end).unwrap();
    assert_eq!(out.metadata().unwrap().len(), 268_435_456);
    folder.path(name)
}
