//! The papers that words name, and their bytes.
use std::ffi::{OsStr, OsString};
use std::fs::{self, File};
use std::io::{self, Read};
use std::os::unix::ffi::OsStrExt;
use std::path::{Path, PathBuf};

use crate::Stop;
use crate::names::shown;
use crate::streams::{input, is_output, say};

/// More bytes than this are not read. A paper of so many is refused for its length by far, and a device may have no end.
pub const MOST: u64 = 1 << 28;

/// Where a paper is read from.
#[derive(Clone, Debug, PartialEq, Eq)]
pub enum Source {
    Input,
    File(PathBuf),
}

impl Source {
    /// The word `-` is standard input.
    pub fn new(word: &OsStr) -> Self {
        if word == "-" { Self::Input } else { Self::File(word.into()) }
    }

    pub fn name(&self) -> &[u8] {
        match self {
            Self::Input => b"-",
            Self::File(path) => path.as_os_str().as_bytes(),
        }
    }

    /// What is said where it cannot be read.
    pub fn unread(&self, error: &io::Error) -> String {
        match self {
            Self::Input => format!("cannot read standard input: {error}"),
            Self::File(path) => unread(path, error),
        }
    }
}

fn unread(path: &Path, error: &io::Error) -> String {
    match path.as_os_str().as_bytes() {
        b"" => "an empty name names no file".into(),
        name => format!("cannot read {}: {error}", shown(name)),
    }
}

/// The bytes, all of them. Whatever fails is an error: there are no bytes of a file that cannot be read whole.
pub fn read(source: &Source) -> io::Result<Vec<u8>> {
    let file = match source {
        Source::Input => input()?,
        Source::File(path) => File::open(path)?,
    };
    if is_output(&file) {
        return Err(io::Error::other("it is where the output goes"));
    }
    let mut bytes = Vec::new();
    file.take(MOST + 1).read_to_end(&mut bytes)?;
    if bytes.len() as u64 > MOST {
        return Err(io::Error::other(format!("it has over {MOST} bytes")));
    }
    Ok(bytes)
}

/// The papers that the words of a command name.
pub struct Pile {
    pub papers: Vec<Source>,
    /// More than one word, or a folder: lines begin with the paper's name.
    pub several: bool,
    /// Folders and files of theirs that cannot be read, and folders with no file.
    pub unread: u64,
}

/// Each word is a file, `-`, or a folder: every file in it, in the order of their names. What is in a folder and no file is
/// said to be passed over.
pub fn pile(words: &[OsString]) -> Pile {
    let mut pile = Pile { papers: Vec::new(), several: words.len() > 1, unread: 0 };
    for word in words {
        if word != "-" && fs::metadata(word).is_ok_and(|file| file.is_dir()) {
            pile.several = true;
            pile.folder(word.as_ref());
        } else {
            pile.papers.push(Source::new(word));
        }
    }
    pile
}

impl Pile {
    fn folder(&mut self, folder: &Path) {
        let before = self.papers.len();
        let mut names = Vec::new();
        match fs::read_dir(folder) {
            Ok(entries) => {
                for entry in entries {
                    match entry {
                        Ok(entry) => names.push(entry.file_name()),
                        Err(error) => self.failed(&unread(folder, &error)),
                    }
                }
            }
            Err(error) => return self.failed(&unread(folder, &error)),
        }
        names.sort_by(|a, b| a.as_bytes().cmp(b.as_bytes()));
        for name in names {
            let path = folder.join(name);
            match fs::metadata(&path) {
                Ok(file) if file.is_file() => self.papers.push(Source::File(path)),
                Ok(file) => {
                    let what = if file.is_dir() { "a folder in a folder" } else { "no file" };
                    say(&format!("{} is {what}, and passed over", shown(path.as_os_str().as_bytes())));
                }
                Err(error) => self.failed(&unread(&path, &error)),
            }
        }
        if self.papers.len() == before {
            self.failed(&format!("{} has no paper in it", shown(folder.as_os_str().as_bytes())));
        }
    }

    fn failed(&mut self, what: &str) {
        say(what);
        self.unread += 1;
    }
}

/// The one paper that a word names.
pub fn single(word: &OsStr) -> Result<Vec<u8>, Stop> {
    let source = Source::new(word);
    read(&source).map_err(|error| Stop::Failed(source.unread(&error)))
}
