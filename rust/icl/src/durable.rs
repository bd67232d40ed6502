//! A file that is changed as a whole and by one at a time. Whatever happens at any instant, its old bytes or its new ones are there, and who changes it
//! starts from the newest.

use std::ffi::OsString;
use std::fs::{self, File, Permissions};
use std::io::{Error, ErrorKind, Read, Result, Write};
use std::os::unix::fs::{fchown, MetadataExt, OpenOptionsExt, PermissionsExt};
use std::path::{Path, PathBuf};

use crate::interrupt;

/// A file that no other process changes meanwhile.
pub struct Held {
    /// Where it stands, with no link on the way: a link to it stays one.
    place: PathBuf,
    folder: File,
    /// Locked until it is dropped.
    file: File,
}

impl Held {
    /// Waits until no other process holds the file, and holds it.
    pub fn of(path: &Path) -> Result<Held> {
        let place = fs::canonicalize(path)?;
        plain(&place)?;
        let folder = File::open(place.parent().unwrap_or(Path::new("/")))?;
        // To be written too, though another file takes its place: so one that is marked read-only is left alone.
        let file = locked(&place, File::options().read(true).write(true), File::lock)?;
        Ok(Held { place, folder, file })
    }

    /// Its bytes, or one more than the most that are wanted.
    pub fn bytes(&self, most: usize) -> Result<Vec<u8>> {
        let bytes = some_bytes(&self.file, most)?;
        point("read");
        Ok(bytes)
    }

    /// Puts new bytes in the place of the old ones: written beside them, made safe on the disk, and then renamed.
    pub fn replace(self, bytes: &[u8]) -> Result<()> {
        interrupt::watch();
        // Only who holds the file writes beside it: what is there was left by a process that was killed.
        let mut beside = Beside::of(&self.place, "");
        let _ = fs::remove_file(&beside.path);
        point("beside is free");
        let mut new = File::options().write(true).create_new(true).mode(0o600).open(&beside.path)?;
        point("created");
        write_all(&mut new, bytes)?;
        keep_rights(&self.file, &new)?;
        point("written");
        new.sync_all()?;
        point("synced");
        interrupt::heed()?;
        if !is_at(&self.file, &self.place)? {
            return Err(Error::other("another file was put in its place meanwhile"));
        }
        fs::rename(&beside.path, &self.place)?;
        // From here on another process may hold the file and write beside it.
        beside.placed = true;
        point("renamed");
        sync_folder(&self.folder).map_err(uncertain)?;
        point("folder synced");
        Ok(())
    }
}

/// A file that is looked at only, while no other process changes it.
pub struct Watched {
    /// Locked until it is dropped.
    file: File,
}

impl Watched {
    /// Waits until no other process holds the file, and keeps them all from it.
    pub fn of(path: &Path) -> Result<Watched> {
        let place = fs::canonicalize(path)?;
        plain(&place)?;
        Ok(Watched { file: locked(&place, File::options().read(true), File::lock_shared)? })
    }

    /// Its bytes, or one more than the most that are wanted.
    pub fn bytes(&self, most: usize) -> Result<Vec<u8>> {
        let bytes = some_bytes(&self.file, most)?;
        point("read");
        Ok(bytes)
    }

    /// Writes a file as [`create`] does, for those who may read and write this one, and to be written by its owner.
    pub fn create_alike(&self, folder: &Path, name: &Path, bytes: &[u8]) -> Result<()> {
        create_with(folder, name, bytes, 0o600, |new| {
            keep_rights(&self.file, new)?;
            new.set_permissions(Permissions::from_mode(new.metadata()?.mode() & 0o7777 | 0o200))
        })
    }
}

/// The file at a place, opened and locked.
fn locked(place: &Path, options: &fs::OpenOptions, lock: fn(&File) -> Result<()>) -> Result<File> {
    loop {
        let file = options.open(place)?;
        point("opened");
        lock(&file).map_err(|error| Error::other(format!("it cannot be locked: {error}")))?;
        point("locked");
        // Who held it before has put another in its place, which is the one to lock.
        if is_at(&file, place)? {
            return Ok(file);
        }
    }
}

/// Writes a file into a folder that has none of its name: all of it or nothing.
pub fn create(folder: &Path, name: &Path, bytes: &[u8]) -> Result<()> {
    create_with(folder, name, bytes, 0o666, |_| Ok(()))
}

/// The same, with a mode to begin with and the rights that are given last.
fn create_with(
    folder: &Path,
    name: &Path,
    bytes: &[u8],
    mode: u32,
    give_rights: impl Fn(&File) -> Result<()>,
) -> Result<()> {
    let path = folder.join(name);
    let folder = File::open(folder)?;
    let there = || Error::new(ErrorKind::AlreadyExists, "it is there already, and stays as it is");
    if fs::symlink_metadata(&path).is_ok() {
        return Err(there());
    }
    interrupt::watch();
    // Two may make the same file at once, and nothing is there yet to hold.
    let beside = Beside::of(&path, &format!("-{}", std::process::id()));
    let mut new = File::options().write(true).create_new(true).mode(mode).open(&beside.path)?;
    point("created");
    write_all(&mut new, bytes)?;
    give_rights(&new)?;
    new.sync_all()?;
    point("synced");
    interrupt::heed()?;
    match fs::hard_link(&beside.path, &path) {
        Err(error) if error.kind() == ErrorKind::AlreadyExists => return Err(there()),
        // A file system without links. The name is taken first, since a rename would go over a file that has come meanwhile.
        Err(_) => {
            File::create_new(&path).map_err(|_| there())?;
            fs::rename(&beside.path, &path)?;
        }
        Ok(()) => {}
    }
    point("linked");
    sync_folder(&folder).map_err(uncertain)?;
    point("folder synced");
    Ok(())
}

/// The bytes of a file as they stand at this moment, or one more than the most that are wanted.
pub fn bytes_at(path: &Path, most: usize) -> Result<Vec<u8>> {
    plain(path)?;
    some_bytes(&File::open(path)?, most)
}

fn some_bytes(file: &File, most: usize) -> Result<Vec<u8>> {
    let mut bytes = Vec::new();
    let length = usize::try_from(file.metadata()?.len()).unwrap_or(usize::MAX);
    bytes.try_reserve_exact(length.min(most) + 1)?;
    file.take(most as u64 + 1).read_to_end(&mut bytes)?;
    Ok(bytes)
}

/// Anything but a plain file, such as a pipe, could keep a reader waiting for ever.
fn plain(path: &Path) -> Result<()> {
    match fs::metadata(path)? {
        about if about.is_dir() => Err(ErrorKind::IsADirectory.into()),
        about if about.is_file() => Ok(()),
        _ => Err(Error::other("it is no plain file")),
    }
}

/// Whether this is still the file at its place.
fn is_at(file: &File, place: &Path) -> Result<bool> {
    let (held, there) = (file.metadata()?, fs::metadata(place)?);
    Ok((held.dev(), held.ino()) == (there.dev(), there.ino()))
}

/// Bytes beside their place, under a name that is out of sight. Dropped before they have been renamed, they are gone.
struct Beside {
    path: PathBuf,
    placed: bool,
}

impl Beside {
    fn of(place: &Path, more: &str) -> Beside {
        let mut name = OsString::from(".");
        name.push(place.file_name().unwrap_or_default());
        name.push(".icl-new");
        name.push(more);
        Beside { path: place.with_file_name(name), placed: false }
    }
}

impl Drop for Beside {
    fn drop(&mut self) {
        if !self.placed {
            let _ = fs::remove_file(&self.path);
        }
    }
}

fn write_all(file: &mut File, bytes: &[u8]) -> Result<()> {
    for piece in bytes.chunks(1 << 20) {
        interrupt::heed()?;
        file.write_all(piece)?;
        point("piece written");
    }
    Ok(())
}

/// Gives the new file the group and the mode of the old one, and the owner where that is allowed: who could read and write it still can, and no one else.
fn keep_rights(old: &File, new: &File) -> Result<()> {
    let (old, about) = (old.metadata()?, new.metadata()?);
    if old.uid() != about.uid() {
        let _ = fchown(new, Some(old.uid()), None);
    }
    if old.gid() != about.gid() {
        fchown(new, None, Some(old.gid()))
            .map_err(|error| Error::other(format!("its group cannot be kept: {error}")))?;
    }
    new.set_permissions(Permissions::from_mode(old.mode() & 0o7777))
}

/// Makes a name in a folder safe on the disk.
fn sync_folder(folder: &File) -> Result<()> {
    match folder.sync_all() {
        // A file system on which folders cannot be synced has nothing more to offer.
        Err(error) if matches!(error.kind(), ErrorKind::InvalidInput | ErrorKind::Unsupported) => Ok(()),
        synced => synced,
    }
}

/// The new bytes are in their place; only a crash of the machine could still undo it.
fn uncertain(error: Error) -> Error {
    Error::other(format!(
        "it is changed, but a crash of the machine could undo that: its folder cannot be synced: {error}"
    ))
}

/// A point between two steps, at which tests stop the process.
#[cfg(not(test))]
fn point(_: &str) {}

#[cfg(test)]
fn point(name: &str) {
    tests::reached(name);
}

#[cfg(test)]
mod tests {
    use std::process::Command;
    use std::sync::Mutex;

    use super::*;

    /// The points that this process has come by.
    static SEEN: Mutex<Vec<String>> = Mutex::new(Vec::new());

    /// In the environment of a process that is to end: at which of the points, counted from 1.
    const END_AT: &str = "ICL_TEST_END_AT";
    /// The words that it runs, parted by line ends.
    const WORDS: &str = "ICL_TEST_WORDS";
    /// The status of a process that has ended at its point.
    const ENDED: i32 = 99;

    /// Ends the process where it is told to: at once, with nothing put in order, as a kill would.
    pub fn reached(name: &str) {
        let mut seen = SEEN.lock().unwrap();
        seen.push(name.to_string());
        if std::env::var(END_AT).is_ok_and(|at| at == seen.len().to_string()) {
            std::process::exit(ENDED);
        }
    }

    /// In a process of its own: runs `icl`, and tells the points that it came by.
    #[test]
    #[ignore = "the tests below run it"]
    fn runs_and_ends() {
        let Ok(words) = std::env::var(WORDS) else { return };
        let status = crate::run(words.lines().map(OsString::from).collect());
        assert!(matches!(status, Ok(0)));
        println!("points: {}", SEEN.lock().unwrap().join(", "));
    }

    /// Runs `icl` in a process that ends at a point, counted from 1. The points it came by, or `None` where it has ended.
    fn run_until(point: usize, words: &[&str]) -> Option<String> {
        let mut command = Command::new(std::env::current_exe().unwrap());
        command.args(["--exact", "durable::tests::runs_and_ends", "--ignored", "--nocapture"]);
        let output = command.env(END_AT, point.to_string()).env(WORDS, words.join("\n")).output().unwrap();
        let text = String::from_utf8(output.stdout).unwrap();
        match output.status.code() {
            Some(ENDED) => None,
            Some(0) => Some(text.lines().find_map(|line| line.strip_prefix("points: ")).unwrap().to_string()),
            other => panic!("{words:?}: {other:?}: {text}"),
        }
    }

    /// Runs `icl` to its end.
    fn run(words: &[&str]) -> String {
        run_until(0, words).unwrap()
    }

    struct Folder(PathBuf);

    impl Folder {
        fn new(test: &str) -> Folder {
            let folder = std::env::temp_dir().join(format!("icl-durable-{test}-{}", std::process::id()));
            fs::create_dir(&folder).unwrap();
            Folder(folder)
        }

        fn path(&self, name: &str) -> String {
            self.0.join(name).to_str().unwrap().to_string()
        }

        fn names(&self) -> Vec<OsString> {
            let mut names: Vec<OsString> =
                fs::read_dir(&self.0).unwrap().map(|entry| entry.unwrap().file_name()).collect();
            names.sort();
            names
        }
    }

    impl Drop for Folder {
        fn drop(&mut self) {
            let _ = fs::remove_dir_all(&self.0);
        }
    }

    fn sample(name: &str) -> String {
        format!("{}/../../{name}", env!("CARGO_MANIFEST_DIR"))
    }

    const CREATED: &str = "created, piece written, synced, linked, folder synced";
    const CHANGED: &str =
        "opened, locked, read, beside is free, created, piece written, written, synced, renamed, folder synced";

    const WRITTEN_ANEW: &str = "opened, locked, read, created, piece written, synced, linked, folder synced";

    /// An empty book of one row of version 1: its 26 numbers are zeros, and left out. The check sum was worked out by another program (xz).
    fn version_1() -> Vec<u8> {
        let counts = [26_u64, 0].map(u64::to_le_bytes).concat();
        [b"icl day book, version 1\n", &counts[..], &0xda21_72d3_f850_4188_u64.to_le_bytes()].concat()
    }

    /// The new bytes are safe on the disk before they are put in the place of the old ones, and the folder after that.
    #[test]
    fn steps_in_their_order() {
        let folder = Folder::new("order");
        let (book, file) = (folder.path("day.book"), sample("samples/two-letters-with-pictures.x9"));
        assert_eq!(run(&["book", "new", &book]), CREATED);
        assert_eq!(run(&["book", "enter", &book, &file, "--number", "1", "--owner", "1"]), CHANGED);
        assert_eq!(run(&["book", "grow", &book, "--rows", "20000"]), CHANGED);
        assert_eq!(run(&["book", "withdraw", &book, "2", "--owner", "1"]), CHANGED);
        assert_eq!(run(&["book", "tidy", &book]), CHANGED);
        for words in [vec!["show", &book, "1"], vec!["totals", &book], vec!["list", &book]] {
            assert_eq!(run(&[&["book"], &words[..], &["--owner", "1"]].concat()), "");
        }
        let (old, new) = (folder.path("old.book"), folder.path("new.book"));
        fs::write(&old, version_1()).unwrap();
        assert_eq!(run(&["book", "convert", &old, &new, "--owner", "1"]), WRITTEN_ANEW);
        assert_eq!(folder.names(), ["day.book", "new.book", "old.book"]);
    }

    /// A process that ends at any point leaves the old book or the new one, and the next goes on from there.
    #[test]
    fn the_old_or_the_new_at_every_point() {
        let second = sample("samples/credits-with-pictures.x9");
        old_or_new("entered", &["enter", "BOOK", &second, "--number", "2", "--owner", "2"]);
        old_or_new("withdrawn", &["withdraw", "BOOK", "2", "--owner", "1"]);
        old_or_new("tidied", &["tidy", "BOOK"]);
    }

    /// The same of one command, on a book with a gap.
    fn old_or_new(test: &str, command: &[&str]) {
        let folder = Folder::new(&format!("points-{test}"));
        let (book, fine) = (folder.path("day.book"), folder.path("fine.book"));
        let first = sample("samples/two-letters-with-pictures.x9");
        let on = |book: &str| -> Vec<String> {
            let words = command.iter().map(|word| if *word == "BOOK" { book } else { word });
            ["book"].into_iter().chain(words).map(str::to_string).collect()
        };
        run(&["book", "new", &fine]);
        run(&["book", "enter", &fine, &first, "--number", "1", "--owner", "1"]);
        run(&["book", "withdraw", &fine, "1", "--owner", "1"]);
        let old = fs::read(&fine).unwrap();
        run(&on(&fine).iter().map(String::as_str).collect::<Vec<_>>());
        let new = fs::read(&fine).unwrap();
        assert_ne!(old, new);
        let words = on(&book);
        let words: Vec<&str> = words.iter().map(String::as_str).collect();
        let mut left = Vec::new();
        for point in 1.. {
            fs::write(&book, &old).unwrap();
            if run_until(point, &words).is_some() {
                break;
            }
            let found = fs::read(&book).unwrap();
            assert!(found == old || found == new, "point {point}");
            left.push(if found == old { "old" } else { "new" });
            // The next one finds its way past what was left behind, and leaves nothing itself.
            match found == old {
                true => run(&words),
                false => run(&["book", "grow", &book, "--rows", "20000"]),
            };
            assert_eq!(folder.names(), ["day.book", "fine.book"], "point {point}");
            assert!(found == new || fs::read(&book).unwrap() == new, "point {point}");
        }
        // Ten points, and the book is the new one from the rename on.
        assert_eq!(left, [["old"; 8].as_slice(), &["new"; 2]].concat());
    }

    #[test]
    fn a_new_book_is_there_whole_or_not_at_all() {
        let folder = Folder::new("new");
        let (book, fine) = (folder.path("day.book"), folder.path("fine.book"));
        run(&["book", "new", &fine]);
        let whole = fs::read(&fine).unwrap();
        let mut left = Vec::new();
        for point in 1.. {
            let _ = fs::remove_file(&book);
            if run_until(point, &["book", "new", &book]).is_some() {
                break;
            }
            left.push(fs::read(&book).ok().map(|bytes| bytes == whole));
        }
        assert_eq!(left, [None, None, None, Some(true), Some(true)]);
    }

    /// The old book stays as it is whenever the process ends, and the new one is there whole or not at all.
    #[test]
    fn a_book_written_anew_is_there_whole_or_not_at_all() {
        let folder = Folder::new("anew");
        let [old, new, fine] = ["old.book", "new.book", "fine.book"].map(|name| folder.path(name));
        fs::write(&old, version_1()).unwrap();
        run(&["book", "convert", &old, &fine, "--owner", "2"]);
        let whole = fs::read(&fine).unwrap();
        let mut left = Vec::new();
        for point in 1.. {
            let _ = fs::remove_file(&new);
            if run_until(point, &["book", "convert", &old, &new, "--owner", "2"]).is_some() {
                break;
            }
            left.push(fs::read(&new).ok().map(|bytes| bytes == whole));
            assert_eq!(fs::read(&old).unwrap(), version_1(), "point {point}");
        }
        assert_eq!(left, [[None; 6].as_slice(), &[Some(true); 2]].concat());
    }

    /// Who waits for the file goes on with the one that has come in its place meanwhile.
    #[test]
    fn the_newest_is_held() {
        let folder = Folder::new("newest");
        let path = folder.0.join("file");
        create(&folder.0, Path::new("file"), b"first").unwrap();
        let first = Held::of(&path).unwrap();
        let waiting = std::thread::spawn({
            let path = path.clone();
            move || {
                let held = Held::of(&path).unwrap();
                let bytes = held.bytes(10).unwrap();
                held.replace(&[&bytes[..], b", third"].concat()).unwrap();
            }
        });
        // It has come to wait, or will find the second at once.
        std::thread::sleep(std::time::Duration::from_millis(50));
        first.replace(b"second").unwrap();
        waiting.join().unwrap();
        assert_eq!(fs::read(&path).unwrap(), b"second, third");
    }

    /// A file that someone has put in the place of the one held is not overwritten.
    #[test]
    fn another_file_in_its_place() {
        let folder = Folder::new("another");
        let path = folder.0.join("file");
        create(&folder.0, Path::new("file"), b"first").unwrap();
        let held = Held::of(&path).unwrap();
        fs::remove_file(&path).unwrap();
        create(&folder.0, Path::new("file"), b"another").unwrap();
        let error = held.replace(b"second").unwrap_err();
        assert_eq!(error.to_string(), "another file was put in its place meanwhile");
        assert_eq!(fs::read(&path).unwrap(), b"another");
        assert_eq!(folder.names(), ["file"]);
    }

    /// Mode and group stay, and so does a link to the file. One that may not be written is left alone.
    #[test]
    fn rights_and_links() {
        let folder = Folder::new("rights");
        let (path, link) = (folder.0.join("file"), folder.0.join("link"));
        create(&folder.0, Path::new("file"), b"first").unwrap();
        std::os::unix::fs::symlink(&path, &link).unwrap();
        for mode in [0o640, 0o600, 0o664] {
            fs::set_permissions(&path, Permissions::from_mode(mode)).unwrap();
            let before = fs::metadata(&path).unwrap();
            Held::of(&link).unwrap().replace(&mode.to_le_bytes()).unwrap();
            let after = fs::metadata(&path).unwrap();
            assert_eq!((after.mode(), after.uid(), after.gid()), (before.mode(), before.uid(), before.gid()));
            assert_eq!(fs::read(&path).unwrap(), mode.to_le_bytes());
        }
        assert!(fs::symlink_metadata(&link).unwrap().is_symlink());
        let again = create(&folder.0, Path::new("link"), b"").unwrap_err();
        assert_eq!(again.kind(), ErrorKind::AlreadyExists);
        assert_eq!(folder.names(), ["file", "link"]);
    }
}
