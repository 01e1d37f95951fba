//! What the tests of the command share: a folder of their own, the command's runs, papers.
#![allow(dead_code)]

use std::ffi::OsStr;
use std::fs;
use std::io::Write;
use std::path::{Path, PathBuf};
use std::process::{Command, Stdio};
use std::sync::atomic::{AtomicU32, Ordering};

/// The command under test.
pub const LISTOCHUR: &str = env!("CARGO_BIN_EXE_listochur");

/// The repository.
pub const ROOT: &str = concat!(env!("CARGO_MANIFEST_DIR"), "/..");

/// The paper of document 01, section 6, and what is printed of it.
pub const SAMPLE: [u8; 20] = [1, 0, 1, 0, 0x0e, 0, 0, 0, 1, 0, 0x0e, 0, 6, 0, 0x63, 0x51, 0x67, 0x52, 0x68, 0x75];
pub const SAMPLE_LINES: &str = "entry 0 peak 2 end 1 0\naccepted\n";

/// The same with 3DUP for DROP.
pub const DRY: [u8; 20] = [1, 0, 1, 0, 0x0e, 0, 0, 0, 1, 0, 0x0e, 0, 6, 0, 0x63, 0x51, 0x67, 0x52, 0x68, 0x6f];
pub const DRY_LINES: &str = "refused 7 at 0 5 3 2\n";

/// A folder that is removed in the end.
pub struct Folder(pub PathBuf);

impl Folder {
    pub fn new() -> Self {
        static COUNT: AtomicU32 = AtomicU32::new(0);
        let name = format!("listochur-{}-{}", std::process::id(), COUNT.fetch_add(1, Ordering::Relaxed));
        let path = std::env::temp_dir().join(name);
        fs::create_dir(&path).unwrap();
        Self(path)
    }

    /// With the sample as `good` and the refused one as `bad`.
    pub fn with_papers() -> Self {
        let folder = Self::new();
        folder.file("good", &SAMPLE);
        folder.file("bad", &DRY);
        folder
    }

    pub fn file(&self, name: impl AsRef<OsStr>, bytes: &[u8]) {
        fs::write(self.0.join(name.as_ref()), bytes).unwrap();
    }

    pub fn folder(&self, name: &str) {
        fs::create_dir(self.0.join(name)).unwrap();
    }

    /// A program. It is written by another process: a file that this one writes may be open in a child that another test is
    /// just starting, and what is open to write cannot be run.
    pub fn program(&self, name: &str, bytes: &[u8]) {
        let mut command = Command::new("sh");
        command.args(["-c", "cat >\"$0\" && chmod +x \"$0\"", name]);
        ran(command.current_dir(&self.0), bytes).gives(0, "");
    }

    /// Runs the command in this folder.
    pub fn run<W: AsRef<OsStr>>(&self, words: &[W]) -> Ran {
        self.run_on(words, b"")
    }

    /// Runs the command in this folder with this standard input.
    pub fn run_on<W: AsRef<OsStr>>(&self, words: &[W], input: &[u8]) -> Ran {
        let mut command = Command::new(LISTOCHUR);
        command.args(words);
        ran(command.current_dir(&self.0), input)
    }

    /// Runs a shell line in this folder, with the command's folder first in PATH.
    pub fn shell(&self, line: &str) -> Ran {
        let own = Path::new(LISTOCHUR).parent().unwrap();
        let path = format!("{}:{}", own.display(), std::env::var("PATH").unwrap());
        let mut command = Command::new("sh");
        command.args(["-c", line]).env("PATH", path);
        ran(command.current_dir(&self.0), b"")
    }
}

impl Drop for Folder {
    fn drop(&mut self) {
        let _ = fs::remove_dir_all(&self.0);
    }
}

/// What a run left: its status, and what it wrote.
#[derive(Debug)]
pub struct Ran {
    pub status: Option<i32>,
    pub out: Vec<u8>,
    pub err: String,
}

impl Ran {
    pub fn out(&self) -> &str {
        str::from_utf8(&self.out).unwrap()
    }

    /// This status, this text on standard output, nothing on standard error.
    pub fn gives(&self, status: i32, out: &str) {
        assert_eq!((self.status, self.out(), self.err.as_str()), (Some(status), out, ""));
    }

    /// Status 2, this text on standard output, and these words on standard error.
    pub fn fails(&self, out: &str, words: &[&str]) {
        assert_eq!((self.status, self.out()), (Some(2), out), "{self:?}");
        assert!(!self.err.contains("panicked"), "{self:?}");
        assert!(!self.err.is_empty());
        for word in words {
            assert!(self.err.contains(word), "{word:?} is not in {:?}", self.err);
        }
    }
}

pub fn ran(command: &mut Command, input: &[u8]) -> Ran {
    let mut child = command.stdin(Stdio::piped()).stdout(Stdio::piped()).stderr(Stdio::piped()).spawn().unwrap();
    // whoever does not read its input may have ended
    let _ = child.stdin.take().unwrap().write_all(input);
    let output = child.wait_with_output().unwrap();
    Ran { status: output.status.code(), out: output.stdout, err: String::from_utf8(output.stderr).unwrap() }
}

/// A paper of one entry.
pub fn paper(fields: u16, parameters: u16, body: &[u8]) -> Vec<u8> {
    command::writing::written(fields, &[], &[(parameters, body.into())]).unwrap()
}

/// Numbers that look random, the same in each run.
pub struct Numbers(pub u64);

impl Numbers {
    pub fn next(&mut self) -> u64 {
        self.0 = self.0.wrapping_add(0x9e37_79b9_7f4a_7c15);
        let mut z = self.0;
        z = (z ^ z >> 30).wrapping_mul(0xbf58_476d_1ce4_e5b9);
        z = (z ^ z >> 27).wrapping_mul(0x94d0_49bb_1331_11eb);
        z ^ z >> 31
    }

    /// Below `bound`.
    pub fn below(&mut self, bound: u64) -> u64 {
        self.next() % bound
    }

    pub fn bytes(&mut self, size: u64) -> Vec<u8> {
        (0..size).map(|_| self.next() as u8).collect()
    }
}
