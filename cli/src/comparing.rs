//! `compare`: our verdicts beside the Rust's, which the program `driver` of the folder compare/ answers line by line.
use std::env;
use std::ffi::OsString;
use std::fmt::Write as _;
use std::io::{self, BufRead, BufReader, Write};
use std::path::{Path, PathBuf};
use std::process::{Child, ChildStdin, ChildStdout, Command, Stdio};

use crate::marking::{Marker, split};
use crate::names::shown;
use crate::papers;
use crate::streams::{Output, Progress, say};
use crate::{Status, Stop};

/// The variable that names the driver.
const VARIABLE: &str = "LISTOCHUR_DRIVER";

/// The driver's name beside the command.
const NAME: &str = "listochur-driver";

/// Where `./build` puts both in the repository that this command was built in.
const BUILT: &str = concat!(env!("CARGO_MANIFEST_DIR"), "/../built");

/// The protocol takes no more bytes.
const MOST: usize = 1_000_000;

/// What the Rust says of a paper.
#[derive(Clone, Debug, PartialEq, Eq)]
pub enum Answer {
    /// Number, entry, offset and figures.
    Verdict([u64; 5]),
    /// The paper is outside the limits that the Rust shares.
    Outside,
}

impl Answer {
    /// Reads the driver's line, `paper N K O A B` or `paper outside`.
    pub fn parse(line: &str) -> Option<Self> {
        let fields = line.strip_suffix('\n')?.strip_prefix("paper ")?;
        if fields == "outside" {
            return Some(Self::Outside);
        }
        let numbers = fields.split(' ').map(|field| field.parse().ok()).collect::<Option<Vec<u64>>>()?;
        numbers.try_into().ok().map(Self::Verdict)
    }
}

/// How a paper's two verdicts stand to each other.
#[derive(Clone, Copy, Debug, PartialEq, Eq)]
pub enum Outcome {
    Equal,
    Different,
    Outside,
}

/// A verdict as the Rust's message tells it: of 9, 24 and 25 it has one, which is told as 9 (request L2).
fn as_message([number, place @ ..]: [u64; 5]) -> [u64; 5] {
    let [entry, offset, first, second] = place;
    [if matches!(number, 24 | 25) { 9 } else { number }, entry, offset, first, second]
}

/// The two verdicts side by side. `last` is the last line that the proved function writes of the paper.
pub fn beside(name: &[u8], ours: [u64; 5], last: &[u8], rust: &Answer) -> (Outcome, String) {
    let (outcome, theirs, words) = match rust {
        Answer::Outside => (Outcome::Outside, "outside".into(), "not compared"),
        Answer::Verdict(numbers) => {
            let [number, entry, offset, first, second] = numbers;
            let theirs = match numbers {
                [0, 0, 0, 0, 0] => "accepted".into(),
                _ => format!("refused {number} at {entry} {offset} {first} {second}"),
            };
            if *numbers == ours {
                (Outcome::Equal, theirs, "equal")
            } else if *numbers == as_message(ours) {
                (Outcome::Equal, theirs, "equal (one message there)")
            } else {
                (Outcome::Different, theirs, "DIFFERENT")
            }
        }
    };
    (outcome, format!("{}: ours {}, Rust {theirs}, {words}\n", shown(name), String::from_utf8_lossy(last)))
}

/// `compare`.
pub fn compare(out: &mut Output, words: &[OsString]) -> Result<Status, Stop> {
    let own = env::current_exe().ok();
    let folders = own.iter().filter_map(|own| own.parent()).chain([Path::new(BUILT)]);
    let mut driver = Driver::start(&find(env::var_os(VARIABLE), folders)?)?;
    let pile = papers::pile(words);
    let mut marker = Marker::default();
    let mut progress = Progress::new(pile.papers.len(), out);
    let (mut equal, mut different, mut outside, mut unread) = (0, 0, 0, pile.unread);
    for (done, source) in pile.papers.iter().enumerate() {
        progress.at(done);
        let paper = papers::read(source).and_then(|paper| {
            if paper.len() > MOST { Err(io::Error::other(format!("over {MOST} bytes are not compared"))) } else { Ok(paper) }
        });
        let paper = match paper {
            Ok(paper) => paper,
            Err(error) => {
                progress.clear();
                say(&source.unread(&error));
                unread += 1;
                continue;
            }
        };
        let answer = driver.ask(&paper)?;
        let v = marker.verdict(&paper);
        let ours = [v.number.into(), v.entry as u64, v.offset as u64, v.first, v.second];
        let (_, lines) = marker.lines(&paper);
        let (outcome, line) = beside(source.name(), ours, split(lines).last().unwrap_or_default(), &answer);
        match outcome {
            Outcome::Equal => equal += 1,
            Outcome::Different => different += 1,
            Outcome::Outside => outside += 1,
        }
        progress.make_way();
        out.write(line.as_bytes())?;
        out.show()?;
    }
    progress.clear();
    let papers = equal + different + outside;
    let mut line = format!("papers {papers}, equal {equal}, different {different}, outside {outside}");
    if unread > 0 {
        line += &format!(", not read {unread}");
    }
    out.write(format!("{line}\n").as_bytes())?;
    driver.end()?;
    Ok(if unread > 0 {
        Status::Failed
    } else if different > 0 {
        Status::Refused
    } else {
        Status::Good
    })
}

/// The driver that is named, or the first that is in one of the folders.
fn find<'a>(named: Option<OsString>, folders: impl IntoIterator<Item = &'a Path>) -> Result<PathBuf, Stop> {
    if let Some(named) = named {
        return Ok(named.into());
    }
    folders.into_iter().map(|folder| folder.join(NAME)).find(|path| path.is_file()).ok_or_else(|| {
        Stop::Failed(format!(
            "compare: the Rust's program, {NAME}, is not here. It is built from sources that are not in the repository:\n\
             compare/README.md says which. With their folder beside the repository as `shared`, or named by\n\
             LISTOCHUR_SHARED, run ./build. {VARIABLE} names a driver elsewhere."
        ))
    })
}

/// The running driver.
struct Driver {
    path: String,
    child: Child,
    cases: Option<ChildStdin>,
    answers: BufReader<ChildStdout>,
}

impl Driver {
    fn start(path: &Path) -> Result<Self, Stop> {
        let shown = shown(path.as_os_str().as_encoded_bytes());
        let failed = |error: io::Error| Stop::Failed(format!("compare: cannot run {shown}: {error}"));
        let mut child = Command::new(path).stdin(Stdio::piped()).stdout(Stdio::piped()).spawn().map_err(failed)?;
        match (child.stdin.take(), child.stdout.take()) {
            (cases, Some(answers)) => Ok(Self { path: shown, child, cases, answers: BufReader::new(answers) }),
            _ => Err(failed(io::Error::other("no pipe"))),
        }
    }

    fn failed(&self, what: impl std::fmt::Display) -> Stop {
        Stop::Failed(format!("compare: {}: {what}", self.path))
    }

    fn ask(&mut self, paper: &[u8]) -> Result<Answer, Stop> {
        let mut line = String::with_capacity(2 * paper.len() + 8);
        line += if paper.is_empty() { "paper -" } else { "paper " };
        for byte in paper {
            // writing to a string does not fail
            let _ = write!(line, "{byte:02x}");
        }
        line.push('\n');
        let mut answer = String::new();
        let asked = match &mut self.cases {
            Some(cases) => cases.write_all(line.as_bytes()).and_then(|()| cases.flush()),
            None => Ok(()),
        };
        asked.and_then(|()| self.answers.read_line(&mut answer)).map_err(|error| self.failed(error))?;
        match Answer::parse(&answer) {
            Some(answer) => Ok(answer),
            None if answer.is_empty() => Err(self.failed("it ended without an answer")),
            None => Err(self.failed(format_args!("an answer is not understood: {answer:?}"))),
        }
    }

    /// Lets the driver end; it has to end well.
    fn end(&mut self) -> Result<(), Stop> {
        self.cases = None;
        match self.child.wait() {
            Ok(status) if status.success() => Ok(()),
            Ok(status) => Err(self.failed(format_args!("it ended with {status}"))),
            Err(error) => Err(self.failed(error)),
        }
    }
}

impl Drop for Driver {
    fn drop(&mut self) {
        self.cases = None;
        let _ = self.child.kill();
        let _ = self.child.wait();
    }
}

#[cfg(test)]
mod tests {
    use super::{Answer, Outcome, beside, find};
    use crate::Stop;
    use std::path::Path;

    #[test]
    fn no_driver() {
        let Err(Stop::Failed(said)) = find(None, [Path::new("/nowhere"), Path::new("")]) else { panic!("found") };
        for word in ["is not here", "compare/README.md", "LISTOCHUR_SHARED", "./build", "LISTOCHUR_DRIVER"] {
            assert!(said.contains(word), "{said}");
        }
        assert_eq!(find(Some("x".into()), []).ok().as_deref(), Some(Path::new("x")));
    }

    #[test]
    fn answers() {
        assert_eq!(Answer::parse("paper outside\n"), Some(Answer::Outside));
        assert_eq!(Answer::parse("paper 7 0 5 3 2\n"), Some(Answer::Verdict([7, 0, 5, 3, 2])));
        for line in [
            "",
            "\n",
            "paper",
            "paper 7 0 5 3\n",
            "paper 7 0 5 3 2",
            "paper 7 0 5 3 2 1\n",
            "fragment 7 0 5 3\n",
            "paper x 0 0 0 0\n",
        ] {
            assert_eq!(Answer::parse(line), None, "{line:?}");
        }
    }

    #[test]
    fn side_by_side() {
        let refused = b"refused 7 at 0 5 3 2";
        let seven = [7, 0, 5, 3, 2];
        let equal = beside(b"a\n", seven, refused, &Answer::Verdict(seven));
        assert_eq!(equal, (Outcome::Equal, "a\\n: ours refused 7 at 0 5 3 2, Rust refused 7 at 0 5 3 2, equal\n".into()));
        for place in 0..5 {
            let mut other = seven;
            other[place] += 1;
            let (outcome, line) = beside(b"a", seven, refused, &Answer::Verdict(other));
            assert_eq!(outcome, Outcome::Different, "{place}");
            assert!(line.ends_with(", DIFFERENT\n"));
        }
        assert_eq!(
            beside(b"a", [0; 5], b"accepted", &Answer::Verdict([0; 5])),
            (Outcome::Equal, "a: ours accepted, Rust accepted, equal\n".into())
        );
        // Of 9, 24 and 25 the Rust has one message; the place and the figures are still held to its own.
        let index = [9, 1, 6, 0, 0];
        for number in [24, 25] {
            let (outcome, line) = beside(b"a", [number, 1, 6, 0, 0], b"refused N", &Answer::Verdict(index));
            let said = "a: ours refused N, Rust refused 9 at 1 6 0 0, equal (one message there)\n";
            assert_eq!((outcome, line.as_str()), (Outcome::Equal, said), "{number}");
            for place in 0..5 {
                let mut other = index;
                other[place] += 1;
                let (outcome, _) = beside(b"a", [number, 1, 6, 0, 0], b"refused N", &Answer::Verdict(other));
                assert_eq!(outcome, Outcome::Different, "{number} {place}");
            }
        }
        for number in [8, 10, 23, 26] {
            assert_eq!(
                beside(b"a", [number, 1, 6, 0, 0], b"refused N", &Answer::Verdict(index)).0,
                Outcome::Different,
                "{number}"
            );
        }
        let (outcome, line) = beside(b"a", [5, 0, 49, 24, 24], b"refused 5 at 0 49 24 24", &Answer::Outside);
        assert_eq!((outcome, line.as_str()), (Outcome::Outside, "a: ours refused 5 at 0 49 24 24, Rust outside, not compared\n"));
    }
}
