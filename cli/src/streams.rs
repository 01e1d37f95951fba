//! Standard input, output and error, with every failure told.
use std::ffi::c_int;
use std::fs::{File, Metadata};
use std::io::{self, BufWriter, IsTerminal, Write};
use std::os::fd::AsFd;
use std::os::unix::fs::MetadataExt;
use std::sync::atomic::{AtomicBool, Ordering};
use std::time::{Duration, Instant};

use crate::Stop;

unsafe extern "C" {
    fn fcntl(descriptor: c_int, command: c_int, ...) -> c_int;
}

/// `F_GETFD`: its failure says that the descriptor is closed.
const GET: c_int = 1;

/// Whether standard input and standard output were closed when the program was started.
static CLOSED: [AtomicBool; 2] = [const { AtomicBool::new(false) }; 2];

/// Looks whether standard input and standard output are open. Called before Rust's own start, which opens /dev/null in the
/// place of a closed one: a paper read from there would be empty, and lines written there would be lost.
pub extern "C" fn look() {
    for (descriptor, closed) in (0..).zip(&CLOSED) {
        // SAFETY: asks about a number and touches no memory.
        closed.store(unsafe { fcntl(descriptor, GET) } == -1, Ordering::Relaxed);
    }
}

/// The error of a stream that was closed.
fn closed() -> io::Error {
    io::Error::other("it is closed")
}

/// The standard stream as a file. Rust's own takes a failure of some kinds for the end of the input, or for success.
fn file(stream: &impl AsFd) -> io::Result<File> {
    Ok(File::from(stream.as_fd().try_clone_to_owned()?))
}

/// Standard input, to read.
pub fn input() -> io::Result<File> {
    if CLOSED[0].load(Ordering::Relaxed) {
        return Err(closed());
    }
    file(&io::stdin())
}

/// Whether the file is the one that standard output goes to: it has been emptied, or holds what is written meanwhile.
pub fn is_output(file: &File) -> bool {
    let place = |file: &File| file.metadata().ok().filter(Metadata::is_file).map(|file| (file.dev(), file.ino()));
    let own = self::file(&io::stdout()).ok().and_then(|output| place(&output));
    own.is_some() && own == place(file)
}

/// Standard output, in large pieces.
pub struct Output {
    file: BufWriter<File>,
    terminal: bool,
}

impl Output {
    pub fn open() -> Result<Self, Stop> {
        if CLOSED[1].load(Ordering::Relaxed) {
            return Err(Stop::Write(closed()));
        }
        let file = file(&io::stdout()).map_err(Stop::Write)?;
        Ok(Self { terminal: file.is_terminal(), file: BufWriter::with_capacity(1 << 16, file) })
    }

    pub fn write(&mut self, bytes: &[u8]) -> Result<(), Stop> {
        self.file.write_all(bytes).map_err(Stop::Write)
    }

    /// Hands on what is written so far where a person waits for it.
    pub fn show(&mut self) -> Result<(), Stop> {
        if self.terminal { self.finish() } else { Ok(()) }
    }

    pub fn finish(&mut self) -> Result<(), Stop> {
        self.file.flush().map_err(Stop::Write)
    }

    /// Whether a person sees it.
    pub fn terminal(&self) -> bool {
        self.terminal
    }
}

/// Says something on standard error; where that fails too there is nobody to tell.
pub fn say(what: &str) {
    let _ = io::stderr().write_all(format!("listochur: {what}\n").as_bytes());
}

/// From this many papers on progress is shown.
const MANY: usize = 200;

/// A line on standard error that counts the papers, where that is a terminal and there are many. Where their lines go to a
/// terminal too, it is taken away before each of them.
pub struct Progress {
    total: usize,
    shown: bool,
    among: bool,
    next: Option<Instant>,
}

impl Progress {
    pub fn new(total: usize, out: &Output) -> Self {
        let wanted = total > MANY && io::stderr().is_terminal();
        Self { total, shown: false, among: out.terminal(), next: wanted.then(Instant::now) }
    }

    /// So many are done.
    pub fn at(&mut self, done: usize) {
        if self.next.is_some_and(|next| next <= Instant::now()) {
            let _ = io::stderr().write_all(format!("\r{done} of {} papers", self.total).as_bytes());
            self.shown = true;
            self.next = Some(Instant::now() + Duration::from_millis(100));
        }
    }

    /// The line of a paper is written next.
    pub fn make_way(&mut self) {
        if self.among {
            self.clear();
        }
    }

    /// Takes the line away.
    pub fn clear(&mut self) {
        if self.shown {
            let _ = io::stderr().write_all(b"\r\x1b[K");
            self.shown = false;
        }
    }
}
