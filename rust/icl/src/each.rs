//! Many files gone through at once, as many as there are processors, while what is said of them comes in the order in which they were named.

use std::collections::BTreeMap;
use std::ffi::OsStr;
use std::io::{stdout, BufWriter, Write};
use std::sync::mpsc::{channel, RecvTimeoutError, Sender};
use std::sync::{Condvar, Mutex};

use crate::files::{Files, Named};
use crate::forms::Form;
use crate::screen::{be_quiet, complain, Progress, TICK};
use crate::stop::{Stop, DONE, TROUBLE};
use crate::words::grouped;

/// What came of one file.
pub struct Done<T> {
    pub status: u8,
    /// Lines for standard error.
    pub complaints: Vec<String>,
    pub value: T,
}

impl<T> Done<T> {
    pub fn well(value: T) -> Done<T> {
        Done { status: DONE, complaints: Vec::new(), value }
    }
}

/// What is written before, between and behind that of the files.
pub struct Around {
    pub form: Form,
    pub columns: &'static [&'static str],
    /// For people: an empty line between two files.
    pub apart: bool,
}

impl Around {
    pub fn text() -> Around {
        Around { form: Form::Text, columns: &[], apart: false }
    }
}

/// Has every file worked on, and gives what each came to, in their order, to `gather`. One file alone is written as it comes.
pub fn file<T: Send>(
    files: &Files,
    around: &Around,
    work: impl Fn(&OsStr, &mut dyn Write) -> Result<Done<T>, Stop> + Sync,
    mut gather: impl FnMut(T),
) -> Result<u8, Stop> {
    let mut page = Page::open(around)?;
    let mut take = |page: &mut Page<'_>, written: &[u8], came: Result<Done<T>, Stop>| -> Result<(), Stop> {
        page.part(written)?;
        match came {
            Ok(done) => {
                page.tell(done.status, &done.complaints);
                gather(done.value);
            }
            Err(Stop::Message(status, message)) => page.tell(status, &[message]),
            Err(other) => return Err(other),
        }
        Ok(())
    };
    if let [named] = files.each.as_slice() {
        let progress = Progress::beside_output();
        let mut straight = Straight { page: &mut page, begun: false, written: 0, progress };
        let came = worked(named, &work, &mut straight);
        take(&mut page, b"", came)?;
        return page.close();
    }
    in_order(&files.each, work, |written, came| take(&mut page, &written, came))?;
    page.close()
}

fn worked<T>(
    named: &Named,
    work: impl Fn(&OsStr, &mut dyn Write) -> Result<Done<T>, Stop>,
    out: &mut dyn Write,
) -> Result<Done<T>, Stop> {
    match &named.trouble {
        Some(trouble) => Err(Stop::Message(TROUBLE, trouble.clone())),
        None => work(&named.name, out),
    }
}

/// Standard output, and how it went so far.
struct Page<'a> {
    around: &'a Around,
    out: BufWriter<std::io::Stdout>,
    any: bool,
    status: u8,
}

impl<'a> Page<'a> {
    fn open(around: &'a Around) -> Result<Page<'a>, Stop> {
        let mut out = BufWriter::new(stdout());
        out.write_all(around.form.begin(around.columns).as_bytes()).map_err(Stop::output)?;
        Ok(Page { around, out, any: false, status: DONE })
    }

    /// Begins what is written of another file.
    fn separate(&mut self) -> std::io::Result<()> {
        if self.any {
            let blank = if self.around.apart && self.around.form == Form::Text { "\n" } else { "" };
            self.out.write_all(self.around.form.between().as_bytes())?;
            self.out.write_all(blank.as_bytes())?;
        }
        self.any = true;
        Ok(())
    }

    fn part(&mut self, written: &[u8]) -> Result<(), Stop> {
        let all = match written.is_empty() {
            true => Ok(()),
            false => self.separate().and_then(|()| self.out.write_all(written)),
        };
        all.and_then(|()| self.out.flush()).map_err(Stop::output)
    }

    fn tell(&mut self, status: u8, complaints: &[String]) {
        complaints.iter().for_each(|message| complain(message));
        self.status = self.status.max(status);
    }

    fn close(mut self) -> Result<u8, Stop> {
        let end = self.around.form.end(self.any);
        self.out.write_all(end.as_bytes()).and_then(|()| self.out.flush()).map_err(Stop::output)?;
        Ok(self.status)
    }
}

/// Writes to the page as it comes, and shows how much that is by now.
struct Straight<'p, 'a> {
    page: &'p mut Page<'a>,
    begun: bool,
    written: u64,
    progress: Progress,
}

impl Write for Straight<'_, '_> {
    fn write(&mut self, bytes: &[u8]) -> std::io::Result<usize> {
        if !self.begun && !bytes.is_empty() {
            self.page.separate()?;
            self.begun = true;
        }
        let before = self.written >> 20;
        self.written += bytes.len() as u64;
        let mebibytes = self.written >> 20;
        if mebibytes > before {
            self.progress.show(|| format!("written: {} MiB", grouped(mebibytes)));
        }
        self.page.out.write(bytes)
    }

    fn flush(&mut self) -> std::io::Result<()> {
        self.page.out.flush()
    }
}

/// How far the work has come.
#[derive(Default)]
struct Course {
    next: usize,
    taken: usize,
    /// The bytes of what was said of files that wait for their turn.
    held: usize,
    stopped: bool,
}

/// So many files may always be worked on or wait for their turn, for each processor; and any number as long as what was said of them is no more than this.
const AHEAD: usize = 2;
const HELD: usize = 64 << 20;

type Came<T> = (usize, Vec<u8>, Result<Done<T>, Stop>);

fn in_order<T: Send>(
    files: &[Named],
    work: impl Fn(&OsStr, &mut dyn Write) -> Result<Done<T>, Stop> + Sync,
    mut take: impl FnMut(Vec<u8>, Result<Done<T>, Stop>) -> Result<(), Stop>,
) -> Result<(), Stop> {
    let processors = std::thread::available_parallelism().map_or(1, |count| count.get()).min(files.len().max(1));
    let (course, moved) = (Mutex::new(Course::default()), Condvar::new());
    let (came, coming) = channel::<Came<T>>();
    std::thread::scope(|scope| {
        for _ in 0..processors {
            let came = came.clone();
            scope.spawn(|| go_through(files, &work, processors * AHEAD, &course, &moved, came));
        }
        drop(came);
        let mut progress = Progress::new();
        let mut waiting = BTreeMap::new();
        let mut result = Ok(());
        let mut taken = 0;
        while taken < files.len() && result.is_ok() {
            match coming.recv_timeout(TICK) {
                Ok((place, written, done)) => drop(waiting.insert(place, (written, done))),
                Err(RecvTimeoutError::Timeout) => {}
                Err(RecvTimeoutError::Disconnected) => break,
            }
            let mut told = 0;
            while let Some((written, done)) = waiting.remove(&taken).filter(|_| result.is_ok()) {
                progress.wipe();
                told += written.len();
                result = take(written, done);
                taken += 1;
            }
            let mut course = course.lock().unwrap_or_else(|poisoned| poisoned.into_inner());
            (course.taken, course.stopped) = (taken, result.is_err());
            course.held -= told;
            moved.notify_all();
            progress.show(|| format!("{} of {} files", grouped(taken as u64), grouped(files.len() as u64)));
        }
        result
    })
}

/// Takes the next file, again and again, never further ahead than may wait.
fn go_through<T>(
    files: &[Named],
    work: &(impl Fn(&OsStr, &mut dyn Write) -> Result<Done<T>, Stop> + Sync),
    ahead: usize,
    shared: &Mutex<Course>,
    moved: &Condvar,
    came: Sender<Came<T>>,
) {
    be_quiet();
    loop {
        let mut course = shared.lock().unwrap_or_else(|poisoned| poisoned.into_inner());
        while !course.stopped && course.held > HELD && course.next >= course.taken + ahead {
            course = moved.wait(course).unwrap_or_else(|poisoned| poisoned.into_inner());
        }
        let place = course.next;
        let Some(named) = files.get(place).filter(|_| !course.stopped) else { return };
        course.next += 1;
        drop(course);
        let mut written = Vec::new();
        let done = worked(named, work, &mut written);
        shared.lock().unwrap_or_else(|poisoned| poisoned.into_inner()).held += written.len();
        if came.send((place, written, done)).is_err() {
            return;
        }
    }
}
