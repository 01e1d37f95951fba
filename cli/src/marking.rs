//! `mark` and `log`: papers to the proved functions, and what those write to standard output.
use std::ffi::{OsStr, OsString};

use listochur::{Lines, Options, PaperVerdict};

use crate::arguments::Form;
use crate::names::shown;
use crate::papers::{self, Source};
use crate::rules::Rules;
use crate::streams::{Output, Progress, say};
use crate::summary::Summary;
use crate::{Status, Stop, register};

/// Numbers of the log that are lent in any case: as many as `stackmark` lends.
const LOG: usize = 24_000;

/// No log is lent for more bytes than this: a longer paper is refused for its length, whatever it is lent.
const LOGGED: usize = 1 << 20;

/// The proved functions with the map, the limit and the mode that they are lent, if any are, and the log and the text, which serve
/// paper after paper.
pub struct Marker {
    rules: Option<Rules>,
    log: Vec<u16>,
    text: Vec<u8>,
}

impl Default for Marker {
    fn default() -> Self {
        Self::by(None)
    }
}

/// A function that writes a text of a paper, and the same by a map, a limit and a mode.
type Write = fn(&[u8], &mut [u16], &mut [u8]) -> Lines;
type WriteWith = fn(&[u8], &[u8], Options, &mut [u16], &mut [u8]) -> Lines;

impl Marker {
    pub fn by(rules: Option<Rules>) -> Self {
        Self { rules, log: vec![0; LOG], text: vec![0; listochur::LINES_BYTES] }
    }

    /// A log with three numbers for each byte, so for each instruction, of the paper.
    fn lend(&mut self, paper: &[u8]) {
        let wanted = 3 * paper.len().min(LOGGED);
        if self.log.len() < wanted {
            self.log.resize(wanted, 0);
        }
    }

    /// What is written, however long it is, and its verdict number.
    fn text(&mut self, paper: &[u8], write: Write, write_with: WriteWith) -> (u32, &[u8]) {
        self.lend(paper);
        let Self { rules, log, text } = self;
        let mut put = |text: &mut [u8]| match rules {
            None => write(paper, log, text),
            Some(Rules { map, options }) => write_with(paper, map, *options, log, text),
        };
        let mut lines = put(text);
        if lines.size > text.len() {
            text.resize(lines.size, 0);
            lines = put(text);
        }
        (lines.number, &text[..lines.size])
    }

    /// The verdict number and the lines that `stackmark` prints.
    pub fn lines(&mut self, paper: &[u8]) -> (u32, &[u8]) {
        self.text(paper, listochur::mark_lines, listochur::mark_lines_with)
    }

    /// The verdict number and the lines that `stacklog` prints.
    pub fn log(&mut self, paper: &[u8]) -> (u32, &[u8]) {
        self.text(paper, listochur::log_lines, listochur::log_lines_with)
    }

    pub fn verdict(&mut self, paper: &[u8]) -> PaperVerdict {
        self.lend(paper);
        match &self.rules {
            None => listochur::mark_paper(paper, &mut self.log),
            Some(Rules { map, options }) => listochur::mark_paper_with(paper, map, *options, &mut self.log),
        }
    }
}

/// A verdict in words.
pub fn reason(number: u32, first: u64, second: u64) -> String {
    let mut text = [0; listochur::REASON_BYTES];
    let size = listochur::reason(number, first, second, &mut text);
    String::from_utf8_lossy(&text[..size]).into_owned()
}

/// The lines of a text, without their newlines.
pub fn split(text: &[u8]) -> impl Iterator<Item = &[u8]> {
    text.split_inclusive(|byte| *byte == b'\n').map(|line| line.strip_suffix(b"\n").unwrap_or(line))
}

/// The text with the paper's name before each line.
pub fn under_name(name: &[u8], text: &[u8]) -> Vec<u8> {
    let start = shown(name) + ": ";
    split(text).flat_map(|line| [start.as_bytes(), line, b"\n"]).flatten().copied().collect()
}

/// `mark`.
pub fn mark(out: &mut Output, form: Form, rules: Option<Rules>, words: &[OsString]) -> Result<Status, Stop> {
    let pile = papers::pile(words);
    let mut marker = Marker::by(rules);
    let mut summary = Summary { unread: pile.unread, ..Summary::default() };
    let mut status = if pile.unread == 0 { Status::Good } else { Status::Failed };
    let mut progress = Progress::new(pile.papers.len(), out);
    let mut records = register::Records::new(form);
    out.write(records.start())?;
    for (done, source) in pile.papers.iter().enumerate() {
        progress.at(done);
        let paper = match papers::read(source) {
            Ok(paper) => paper,
            Err(error) => {
                progress.clear();
                say(&source.unread(&error));
                summary.unread += 1;
                status = Status::Failed;
                continue;
            }
        };
        progress.make_way();
        let number = one(out, &mut marker, &mut summary, &mut records, pile.several, source, &paper)?;
        status = status.max(Status::of(number));
        out.show()?;
    }
    progress.clear();
    out.write(records.end())?;
    if pile.several && form == Form::Lines {
        out.write(format!("{}\n", summary.line()).as_bytes())?;
    } else if pile.several {
        // the register first, so that the summary is of what has been written
        out.finish()?;
        say(&summary.line());
    }
    Ok(status)
}

/// One paper: its lines or its record are written, and the summary gains it. Its verdict number.
fn one(
    out: &mut Output,
    marker: &mut Marker,
    summary: &mut Summary,
    records: &mut register::Records,
    several: bool,
    source: &Source,
    paper: &[u8],
) -> Result<u32, Stop> {
    if records.form == Form::Lines && !several {
        let (number, lines) = marker.lines(paper);
        out.write(lines)?;
        return Ok(number);
    }
    let verdict = marker.verdict(paper);
    let (number, lines) = marker.lines(paper);
    match records.form {
        Form::Lines => out.write(&under_name(source.name(), lines))?,
        Form::Csv | Form::Json => {
            let Some(record) = records.record(source.name(), &verdict, lines) else {
                return Err(Stop::Failed(format!("a line of {} is not understood", shown(source.name()))));
            };
            out.write(&record)?;
        }
    }
    summary.gain(&verdict);
    Ok(number)
}

/// `log`.
pub fn log(out: &mut Output, rules: Option<Rules>, word: &OsStr) -> Result<Status, Stop> {
    let paper = papers::single(word)?;
    let mut marker = Marker::by(rules);
    let (number, text) = marker.log(&paper);
    out.write(text)?;
    Ok(Status::of(number))
}

#[cfg(test)]
mod tests {
    use super::{Marker, reason, under_name};
    use crate::rules::{Named, Rules};

    const SAMPLE: [u8; 20] = [1, 0, 1, 0, 0x0e, 0, 0, 0, 1, 0, 0x0e, 0, 6, 0, 0x63, 0x51, 0x67, 0x52, 0x68, 0x75];

    #[test]
    fn the_paper_of_section_6() {
        let mut marker = Marker::default();
        assert_eq!(marker.lines(&SAMPLE), (0, &b"entry 0 peak 2 end 1 0\naccepted\n"[..]));
        assert_eq!((marker.verdict(&SAMPLE).rows, marker.verdict(&SAMPLE).peak), (6, 2));
    }

    #[test]
    fn a_text_that_is_too_short_grows() {
        for limit in [None, Some(5)] {
            let short = || Marker { rules: rules(limit), log: Vec::new(), text: Vec::new() };
            assert_eq!(short().lines(&SAMPLE), (0, &b"entry 0 peak 2 end 1 0\naccepted\n"[..]));
            assert_eq!(short().log(&SAMPLE), Marker::default().log(&SAMPLE));
        }
    }

    /// The built-in map and this limit, or none of both.
    fn rules(limit: Option<u32>) -> Option<Rules> {
        Named { limit, ..Named::default() }.read().unwrap()
    }

    #[test]
    fn by_a_limit() {
        let mut marker = Marker::by(rules(Some(4)));
        assert_eq!(marker.lines(&SAMPLE), (20, &b"refused 20 at 0 0 5 4\n"[..]));
        let verdict = marker.verdict(&SAMPLE);
        assert_eq!((verdict.number, verdict.first, verdict.second), (20, 5, 4));
        assert_eq!(marker.log(&SAMPLE).0, 20);
        assert!(rules(None).is_none());
        let mut marker = Marker::by(rules(Some(5)));
        assert_eq!((marker.verdict(&SAMPLE).number, marker.verdict(&SAMPLE).peak), (0, 2));
    }

    /// 521 bytes pushed, in both modes.
    #[test]
    fn examined() {
        let long = [&[1, 0, 0, 0, 0x0e, 0, 0, 0, 0, 0, 0x0e, 0, 0x0c, 0x02, 0x4d, 0x09, 0x02][..], &[7; 521]].concat();
        let rules = Named { examined: true, ..Named::default() }.read().unwrap();
        let mut marker = Marker::by(rules);
        assert_eq!(marker.lines(&long), (30, &b"refused 30 at 0 0 521 520\n"[..]));
        let verdict = marker.verdict(&long);
        assert_eq!((verdict.number, verdict.first, verdict.second), (30, 521, 520));
        assert_eq!(marker.log(&long).0, 30);
        assert_eq!(marker.lines(&SAMPLE), Marker::default().lines(&SAMPLE));
        assert_eq!(Marker::default().lines(&long), (0, &b"entry 0 peak 1 end 1 0\naccepted\n"[..]));
        assert_eq!(Marker::by(self::rules(Some(3))).verdict(&long).number, 0);
    }

    #[test]
    fn a_long_paper_has_its_own_length() {
        let mut marker = Marker::default();
        assert_eq!(marker.lines(&[0; 8_001]), (21, &b"refused 21 at 0 0 8001 8000\n"[..]));
        assert_eq!(marker.lines(&vec![0; 5_000_000]), (21, &b"refused 21 at 0 0 5000000 8000\n"[..]));
    }

    #[test]
    fn words() {
        assert_eq!(reason(7, 3, 2), "main dry: needed 3, had 2");
        assert_eq!(reason(6, u64::MAX, u64::MAX), format!("stacks full: total wanted {0}, limit {0}", u64::MAX));
        assert_eq!(reason(12, 0, 0), "arms differ");
    }

    #[test]
    fn each_line_has_the_name() {
        assert_eq!(under_name(b"a\nb", b"x\ny\n"), b"a\\nb: x\na\\nb: y\n");
        assert_eq!(under_name(b"a", b""), b"");
    }
}
