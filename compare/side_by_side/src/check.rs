//! One case on all sides.

use std::fmt;
use std::panic::{AssertUnwindSafe, catch_unwind};

use reference::{Answer, PaperAnswer, as_message};
use tools::definition::{self, BUILT_IN, Item, Rules, Stacks, Verdict, built_in_map};

use crate::marker::{Lent, Marker, PLAIN, UNWRITTEN};
use crate::replays;

/// A case. `lent` is the length of the lent log in numbers; `seed` gives the byte strings and the choices of the replays; `other`
/// differs from `bytes` only within long data. `by` is the map, the limit and the mode that are lent, the built-in ones where it is
/// none; `limit` is another than that; in `Examined` and `ExaminedPaper` the mode is the examined one, and the case is marked in
/// plain mode too.
#[derive(Clone, Debug, PartialEq, Eq)]
pub enum Case {
    Fragment { main: u32, alt: u32, bytes: Vec<u8>, lent: usize },
    Replays { by: Option<Lent>, main: u32, alt: u32, bytes: Vec<u8>, seed: u64 },
    Limits { bytes: Vec<u8> },
    Paper { bytes: Vec<u8>, lent: usize },
    Fragments { main: u32, alt: u32, bytes: Vec<u8>, other: Vec<u8>, lent: usize },
    Papers { bytes: Vec<u8>, other: Vec<u8>, lent: usize },
    Display { body: Vec<u8>, initialiser: Vec<u8>, offset: usize, mark: u32 },
    FragmentBy { by: Lent, main: u32, alt: u32, bytes: Vec<u8>, lent: usize },
    PaperBy { by: Lent, bytes: Vec<u8>, lent: usize },
    FragmentAt { by: Lent, limit: u32, main: u32, alt: u32, bytes: Vec<u8> },
    PaperAt { by: Lent, limit: u32, bytes: Vec<u8> },
    Examined { by: Lent, main: u32, alt: u32, bytes: Vec<u8>, seed: u64 },
    ExaminedPaper { by: Lent, bytes: Vec<u8>, seed: u64 },
}

/// In the form of the protocol, without the short form of a tail.
impl fmt::Display for Case {
    fn fmt(&self, f: &mut fmt::Formatter<'_>) -> fmt::Result {
        match self {
            Self::Fragment { main, alt, bytes, lent } => {
                write!(f, "fragment {main} {alt} {}   (a log of {lent})", hex(bytes))
            }
            Self::Replays { by, main, alt, bytes, seed } => {
                let by = by.as_ref().map_or_else(String::new, |by| format!("; {by}"));
                write!(f, "fragment {main} {alt} {}   (replays of seed {seed}{by})", hex(bytes))
            }
            Self::Limits { bytes } => write!(f, "limits {}", hex(bytes)),
            Self::Paper { bytes, lent } => write!(f, "paper {}   (a log of {lent})", hex(bytes)),
            Self::Fragments { main, alt, bytes, other, lent } => {
                write!(f, "fragment {main} {alt} {}   and {}   (a log of {lent})", hex(bytes), hex(other))
            }
            Self::Papers { bytes, other, lent } => {
                write!(f, "paper {}   and {}   (a log of {lent})", hex(bytes), hex(other))
            }
            Self::Display { body, initialiser, offset, mark } => {
                write!(f, "display {offset} {mark} {} {}", hex(body), hex(initialiser))
            }
            Self::FragmentBy { by, main, alt, bytes, lent } => {
                write!(f, "fragment {main} {alt} {}   (a log of {lent}; {by})", hex(bytes))
            }
            Self::PaperBy { by, bytes, lent } => write!(f, "paper {}   (a log of {lent}; {by})", hex(bytes)),
            Self::FragmentAt { by, limit, main, alt, bytes } => {
                write!(f, "fragment {main} {alt} {}   ({by}, and at {limit})", hex(bytes))
            }
            Self::PaperAt { by, limit, bytes } => write!(f, "paper {}   ({by}, and at {limit})", hex(bytes)),
            Self::Examined { by, main, alt, bytes, seed } => {
                write!(f, "fragment {main} {alt} {}   ({by}, and in plain mode; replays of seed {seed})", hex(bytes))
            }
            Self::ExaminedPaper { by, bytes, seed } => {
                write!(f, "paper {}   ({by}, and in plain mode; replays of seed {seed})", hex(bytes))
            }
        }
    }
}

/// The limit, the mode unless it is plain, and the map: the rows in which it is not the built-in one, or all its bytes where it is
/// not laid out as that is.
impl fmt::Display for Lent {
    fn fmt(&self, f: &mut fmt::Formatter<'_>) -> fmt::Result {
        let own = built_in_map();
        let rows = (self.map.len() == own.len() && self.map[..4] == own[..4]).then(|| {
            let other = |code: &usize| self.map[4 + code] != own[4 + code];
            (0..256).filter(other).map(|code| format!(" {code:02x} is {}", self.map[4 + code])).collect::<Vec<_>>().join(",")
        });
        match rows.as_deref() {
            Some("") => write!(f, "the built-in map at {}", self.limit),
            Some(rows) => write!(f, "the built-in map with{rows}, at {}", self.limit),
            None => write!(f, "the map {} at {}", hex(&self.map), self.limit),
        }?;
        if self.examined() { write!(f, ", examined by mode {}", self.mode) } else { Ok(()) }
    }
}

fn hex(bytes: &[u8]) -> String {
    if bytes.is_empty() { "-".into() } else { bytes.iter().map(|byte| format!("{byte:02x}")).collect() }
}

/// Ours and what it was held against.
#[derive(Clone, Debug, PartialEq, Eq)]
pub struct Difference {
    pub against: &'static str,
    pub ours: String,
    pub theirs: String,
}

fn differ(against: &'static str, ours: impl fmt::Debug, theirs: impl fmt::Debug) -> Box<Difference> {
    Box::new(Difference { against, ours: format!("{ours:?}"), theirs: format!("{theirs:?}") })
}

/// A verdict in the order of the places.
fn numbers(verdict: &Verdict) -> [u64; 9] {
    let Answer { number, offset, a, b } = verdict.answer;
    let (ended, main, alt) = match &verdict.end {
        Some(end) => (1, end.main.len() as u64, end.alt.len() as u64),
        None => (0, 0, 0),
    };
    [u64::from(number), offset, a, b, verdict.rows as u64, verdict.peak as u64, ended, main, alt]
}

/// Asks the Rust, which answers by words: words without a verdict number stop it, and so does a paper's answer by parts that
/// is not the one for the whole.
fn ask<T>(ours: impl fmt::Debug, question: impl FnOnce() -> T) -> Result<T, Box<Difference>> {
    catch_unwind(AssertUnwindSafe(question)).map_err(|_| differ(STOPPED, ours, "no answer: the words are on standard error"))
}

const STOPPED: &str = "the Rust, which stopped";
const RUST: &str = "the Rust: number, offset, figures";
const RUST_PAPER: &str = "the Rust: number, entry, offset, figures";
const OUTSIDE: &str = "the Rust: outside its limits";
const NUMBERS: &str = "document 01: number, offset, figures, rows, peak, an end or none, its heights";
const PAPER: &str = "document 01: number, entry, offset, figures, rows, peak";
const LIMITS: &str = "document 01: number, offset, figures";
const LOG: &str = "document 01: the log";
const ITEMS: &str = "document 01: the items of the end";
const AGAIN: &str = "the same without the items";
const BLANKED: &str = "ours with other long data";
const BLANKED_EXAMINED: &str = "ours in examined mode with other long data";
const RUST_BLANKED: &str = "the Rust's, both with other long data";
const RAISED: &str = "the same at another limit: accepted from the peak on, else 2 or 6";
const RAISED_PAPER: &str = "the same at a higher limit";
const EXAMINED: &str = "the same in plain mode: 30 exactly where a plain replay reaches a long push, else no difference";
const PART: &str = "document 01: start and length of the part";

/// What came of a case that plain mode accepts: 30 in the examined one, and whether replays told which it has to be.
#[derive(Clone, Copy, Debug, PartialEq, Eq)]
pub struct Examining {
    pub long: bool,
    pub decided: bool,
}

/// The rules of a lent map, limit and mode, or the number that is given of them.
fn rules_of(by: &Lent) -> Result<Rules, u32> {
    Rules::read(&by.map, by.limit).map(|rules| rules.in_mode(by.examined()))
}

/// What a number of the log is until it is written. No height and no offset is this large, and dead rows have 65,535.
const LENT: u16 = 0xfefe;

/// Compares, and keeps the lent logs.
pub struct Checker<'m, M> {
    pub marker: &'m M,
    ours: Vec<u16>,
    theirs: Vec<u16>,
    items: Vec<u64>,
    wanted: Vec<u64>,
    /// The built-in map at 244 in examined mode.
    examined: Lent,
}

impl<'m, M: Marker> Checker<'m, M> {
    pub fn new(marker: &'m M) -> Self {
        let examined = Lent { map: built_in_map(), limit: 244, mode: 1 };
        Self { marker, ours: Vec::new(), theirs: Vec::new(), items: Vec::new(), wanted: Vec::new(), examined }
    }

    /// Both logs, as lent.
    fn lend(&mut self, lent: usize) {
        for log in [&mut self.ours, &mut self.theirs] {
            log.clear();
            log.resize(lent, LENT);
        }
    }

    /// The first row or the first number in which the logs differ.
    fn same_log(&self) -> Result<(), Box<Difference>> {
        match self.ours.iter().zip(&self.theirs).position(|(a, b)| a != b) {
            None => Ok(()),
            Some(at) => {
                let row = |log: &[u16]| format!("row {}: {:?}", at / 3, &log[at / 3 * 3..log.len().min(at / 3 * 3 + 3)]);
                Err(Box::new(Difference { against: LOG, ours: row(&self.ours), theirs: row(&self.theirs) }))
            }
        }
    }

    /// The verdict number, the same on all sides, but that the Rust has one message for 9, 24 and 25. The Rust is not asked where
    /// document 01 answers 1, 4 or 5.
    pub fn fragment(&mut self, main: u32, alt: u32, bytes: &[u8], lent: usize) -> Result<u32, Box<Difference>> {
        self.lend(lent);
        let ours = self.marker.analyze(bytes, main, alt, &mut self.ours);
        let verdict = definition::analysis(bytes, main, alt, &mut self.theirs);
        let number = verdict.answer.number;
        match number {
            4 => {}
            1 | 5 => {
                if !ask(ours, || reference::fragment_outside(bytes, main, alt))? {
                    return Err(differ(OUTSIDE, ours, "inside"));
                }
            }
            _ => {
                let rust = ask(ours, || reference::fragment(bytes, main, alt))?;
                let rust = [u64::from(rust.number), rust.offset, rust.a, rust.b];
                if [as_message(ours[0]), ours[1], ours[2], ours[3]] != rust {
                    return Err(differ(RUST, &ours[..4], rust));
                }
            }
        }
        let theirs = numbers(&verdict);
        if ours != theirs {
            return Err(differ(NUMBERS, ours, theirs));
        }
        self.same_log()?;
        self.same_items(main, alt, bytes, ours, verdict.end.as_ref())?;
        Ok(number)
    }

    /// With room for one item more than there can be, the items are those of document 01, main and then alt, each from bottom to
    /// top, and the rest is as lent; numbers and log are those of before.
    fn same_items(
        &mut self,
        main: u32,
        alt: u32,
        bytes: &[u8],
        ours: [u64; 9],
        end: Option<&Stacks>,
    ) -> Result<(), Box<Difference>> {
        self.ours.fill(LENT);
        self.lend_items();
        let again = self.marker.analyze_items(bytes, main, alt, &mut self.ours, &mut self.items);
        if again != ours {
            return Err(differ(AGAIN, again, ours));
        }
        self.same_log()?;
        self.items_of(end)
    }

    /// Places for the items, as lent, and those that are wanted.
    fn lend_items(&mut self) {
        for items in [&mut self.items, &mut self.wanted] {
            items.clear();
            items.resize(3 * 245, UNWRITTEN);
        }
    }

    /// The items that were written are those of this end.
    fn items_of(&mut self, end: Option<&Stacks>) -> Result<(), Box<Difference>> {
        if let Some(end) = end {
            for (item, places) in end.main.iter().chain(&end.alt).zip(self.wanted.chunks_exact_mut(3)) {
                let (length, number) = match item {
                    Item::Unknown => (255, 0),
                    Item::Exact(l) => (l.len() as u64, l.iter().rev().fold(0, |n, byte| n << 8 | u64::from(*byte))),
                };
                places.copy_from_slice(&[length, number, 0]);
            }
        }
        match self.items.iter().zip(&self.wanted).position(|(a, b)| a != b) {
            None => Ok(()),
            Some(at) => {
                let item = |items: &[u64]| format!("item {}: {:?}", at / 3, &items[at / 3 * 3..at / 3 * 3 + 3]);
                Err(Box::new(Difference { against: ITEMS, ours: item(&self.items), theirs: item(&self.wanted) }))
            }
        }
    }

    /// Demand 3 by replays, by the built-in map and limit or by lent ones; nothing if the fragment is not accepted.
    pub fn replays(
        &mut self,
        by: Option<&Lent>,
        main: u32,
        alt: u32,
        bytes: &[u8],
        seed: u64,
    ) -> Result<replays::Counts, Box<Difference>> {
        self.lend(3 * bytes.len());
        let rules = by.map_or_else(|| Ok(BUILT_IN.clone()), rules_of);
        let ours = match by {
            None => self.marker.analyze(bytes, main, alt, &mut self.ours),
            Some(by) => self.marker.analyze_with(by, bytes, main, alt, &mut self.ours, &mut []),
        };
        if ours[0] != 0 {
            return Ok(replays::Counts::default());
        }
        let rules = rules.map_err(|number| differ("document 02: a bad map or limit", "accepted", number))?;
        let verdict = definition::analysis_by(&rules, bytes, main, alt, &mut self.theirs);
        replays::demand_3(&rules, bytes, main, alt, seed, &ours, &self.ours, verdict.end.as_ref())
            .map_err(|(ours, theirs)| Box::new(Difference { against: "demand 3, by replays", ours, theirs }))
    }

    pub fn limits(&mut self, bytes: &[u8]) -> Result<u32, Box<Difference>> {
        let ours = self.marker.check_limits(bytes);
        let rust = ask(ours, || reference::limits(bytes))?;
        let wanted = definition::limit_check(bytes);
        for (against, Answer { number, offset, a, b }) in [(RUST, rust), (LIMITS, wanted)] {
            let theirs = [u64::from(number), offset, a, b];
            if ours != theirs {
                return Err(differ(against, ours, theirs));
            }
        }
        Ok(rust.number)
    }

    /// As `fragment`, for a paper.
    pub fn paper(&mut self, bytes: &[u8], lent: usize) -> Result<u32, Box<Difference>> {
        self.lend(lent);
        let ours = self.marker.mark_paper(bytes, &mut self.ours);
        let verdict = definition::mark(bytes, &mut self.theirs);
        let PaperAnswer { number, entry, offset, a, b } = verdict.answer;
        match number {
            4 => {}
            5 => {
                if !ask(ours, || reference::paper_outside(bytes))? {
                    return Err(differ(OUTSIDE, ours, "inside"));
                }
            }
            _ => {
                let rust = ask(ours, || reference::paper(bytes))?;
                let rust = [u64::from(rust.number), rust.entry, rust.offset, rust.a, rust.b];
                if [as_message(ours[0]), ours[1], ours[2], ours[3], ours[4]] != rust {
                    return Err(differ(RUST_PAPER, &ours[..5], rust));
                }
            }
        }
        let theirs = [u64::from(number), entry, offset, a, b, verdict.rows as u64, verdict.peak as u64];
        if ours != theirs {
            return Err(differ(PAPER, ours, theirs));
        }
        self.same_log()?;
        Ok(number)
    }

    /// Request L3: two fragments that differ only within long data. Ours have the same numbers, log and items, in examined mode too,
    /// and the Rust's two answers are the same. The verdict number.
    pub fn blanked(&mut self, main: u32, alt: u32, bytes: &[u8], other: &[u8], lent: usize) -> Result<u32, Box<Difference>> {
        self.lend(lent);
        self.lend_items();
        let one = self.marker.analyze_with(&self.examined, bytes, main, alt, &mut self.ours, &mut self.items);
        let two = self.marker.analyze_with(&self.examined, other, main, alt, &mut self.theirs, &mut self.wanted);
        self.same_of_both(BLANKED_EXAMINED, one, two)?;
        self.lend(lent);
        self.lend_items();
        let one = self.marker.analyze_items(bytes, main, alt, &mut self.ours, &mut self.items);
        let two = self.marker.analyze_items(other, main, alt, &mut self.theirs, &mut self.wanted);
        self.same_of_both(BLANKED, one, two)?;
        let rust = ask(one, || (reference::fragment(bytes, main, alt), reference::fragment(other, main, alt)))?;
        if rust.0 != rust.1 {
            return Err(differ(RUST_BLANKED, rust.0, rust.1));
        }
        Ok(one[0] as u32)
    }

    /// The numbers, the logs and the items of two answers of ours.
    fn same_of_both<const N: usize>(&self, against: &'static str, one: [u64; N], two: [u64; N]) -> Result<(), Box<Difference>> {
        if one != two {
            return Err(differ(against, one, two));
        }
        if self.ours != self.theirs {
            return Err(differ(against, &self.ours, &self.theirs));
        }
        if self.items != self.wanted {
            return Err(differ(against, &self.items, &self.wanted));
        }
        Ok(())
    }

    /// The same of two papers.
    pub fn blanked_papers(&mut self, bytes: &[u8], other: &[u8], lent: usize) -> Result<u32, Box<Difference>> {
        self.lend_items();
        self.lend(lent);
        let one = self.marker.mark_paper_with(&self.examined, bytes, &mut self.ours);
        let two = self.marker.mark_paper_with(&self.examined, other, &mut self.theirs);
        self.same_of_both(BLANKED_EXAMINED, one, two)?;
        self.lend(lent);
        let one = self.marker.mark_paper(bytes, &mut self.ours);
        let two = self.marker.mark_paper(other, &mut self.theirs);
        self.same_of_both(BLANKED, one, two)?;
        let rust = ask(one, || (reference::paper(bytes), reference::paper(other)))?;
        if rust.0 != rust.1 {
            return Err(differ(RUST_BLANKED, rust.0, rust.1));
        }
        Ok(one[0] as u32)
    }

    /// The Rust has no display: document 01 alone. An empty part starts at the offset, or at the end of its fragment.
    pub fn display(&mut self, body: &[u8], initialiser: &[u8], offset: usize, mark: u32) -> Result<(), Box<Difference>> {
        let ours = self.marker.display(body, initialiser, offset, mark);
        let part = definition::display(body, initialiser, offset, mark);
        let whole = [body.len(), initialiser.len()].get(mark as usize).copied().unwrap_or(0);
        let theirs = [offset.min(whole) as u64, part.len() as u64];
        if ours != theirs {
            return Err(differ(PART, ours, theirs));
        }
        Ok(())
    }

    /// Requests L6 and L7: a fragment by a lent map and limit, which may be bad, in a mode, against the plain reading. The verdict
    /// number.
    pub fn fragment_by(&mut self, by: &Lent, main: u32, alt: u32, bytes: &[u8], lent: usize) -> Result<u32, Box<Difference>> {
        self.lend(lent);
        self.lend_items();
        let ours = self.marker.analyze_with(by, bytes, main, alt, &mut self.ours, &mut self.items);
        let verdict = definition::analysis_with(&by.map, by.limit, by.examined(), bytes, main, alt, &mut self.theirs);
        let theirs = numbers(&verdict);
        if ours != theirs {
            return Err(differ(NUMBERS, ours, theirs));
        }
        self.same_log()?;
        self.items_of(verdict.end.as_ref())?;
        Ok(verdict.answer.number)
    }

    /// The same of a paper.
    pub fn paper_by(&mut self, by: &Lent, bytes: &[u8], lent: usize) -> Result<u32, Box<Difference>> {
        self.lend(lent);
        let ours = self.marker.mark_paper_with(by, bytes, &mut self.ours);
        let verdict = definition::mark_with(&by.map, by.limit, by.examined(), bytes, &mut self.theirs);
        let PaperAnswer { number, entry, offset, a, b } = verdict.answer;
        let theirs = [u64::from(number), entry, offset, a, b, verdict.rows as u64, verdict.peak as u64];
        if ours != theirs {
            return Err(differ(PAPER, ours, theirs));
        }
        self.same_log()?;
        Ok(number)
    }

    /// "Raising the limit under one map never turns acceptance into refusal, and peak, log and end stay equal", and more: a
    /// fragment that is accepted by a map at its limit is accepted at another from its peak on, with the same numbers, log and
    /// items, and below it is 2 or 6. Ours alone.
    pub fn fragment_at(&mut self, by: &Lent, limit: u32, main: u32, alt: u32, bytes: &[u8]) -> Result<(), Box<Difference>> {
        self.lend(3 * bytes.len());
        self.lend_items();
        let one = self.marker.analyze_with(by, bytes, main, alt, &mut self.ours, &mut self.items);
        if one[0] != 0 || !(1..=244).contains(&limit) {
            return Ok(());
        }
        let at = Lent { limit, ..by.clone() };
        let two = self.marker.analyze_with(&at, bytes, main, alt, &mut self.theirs, &mut self.wanted);
        if u64::from(limit) < one[5] {
            return if matches!(two[0], 2 | 6) { Ok(()) } else { Err(differ(RAISED, one, two)) };
        }
        if one != two {
            return Err(differ(RAISED, one, two));
        }
        if (&self.ours, &self.items) != (&self.theirs, &self.wanted) {
            return Err(differ(RAISED, (&self.ours, &self.items), (&self.theirs, &self.wanted)));
        }
        Ok(())
    }

    /// The same of a paper, at a higher limit.
    pub fn paper_at(&mut self, by: &Lent, limit: u32, bytes: &[u8]) -> Result<(), Box<Difference>> {
        self.lend(3 * bytes.len());
        let one = self.marker.mark_paper_with(by, bytes, &mut self.ours);
        if one[0] != 0 || !(by.limit..=244).contains(&limit) {
            return Ok(());
        }
        let at = Lent { limit, ..by.clone() };
        let two = self.marker.mark_paper_with(&at, bytes, &mut self.theirs);
        if (one, &self.ours) != (two, &self.theirs) {
            return Err(differ(RAISED_PAPER, (one, &self.ours), (two, &self.theirs)));
        }
        Ok(())
    }

    /// Request L7: "What plain mode accepts gets 30 in the examined one exactly when a plain replay reaches such a push, else the
    /// same verdict and log", and the same items. Ours in both modes, and plain replays. `None` where plain mode does not accept.
    pub fn examined(
        &mut self,
        by: &Lent,
        main: u32,
        alt: u32,
        bytes: &[u8],
        seed: u64,
    ) -> Result<Option<Examining>, Box<Difference>> {
        self.lend(3 * bytes.len());
        self.lend_items();
        let plain = self.marker.analyze_with(&by.in_mode(PLAIN), bytes, main, alt, &mut self.ours, &mut self.items);
        if plain[0] != 0 || !by.examined() {
            return Ok(None);
        }
        let examined = self.marker.analyze_with(by, bytes, main, alt, &mut self.theirs, &mut self.wanted);
        let rules = rules_of(&by.in_mode(PLAIN)).map_err(|number| differ(EXAMINED, plain, number))?;
        let reaches = replays::reaches_long(&rules, bytes, main, alt, seed);
        let long = examined[0] == 30;
        if reaches.is_some_and(|reaches| reaches != long) {
            return Err(differ(EXAMINED, examined, format!("{plain:?}, and a long push reached: {reaches:?}")));
        }
        if !long && (plain, &self.ours, &self.items) != (examined, &self.theirs, &self.wanted) {
            let with = |numbers, log: &[u16], items: &[u64]| format!("{numbers:?} {log:?} {items:?}");
            let (ours, theirs) = (with(examined, &self.theirs, &self.wanted), with(plain, &self.ours, &self.items));
            return Err(Box::new(Difference { against: EXAMINED, ours, theirs }));
        }
        Ok(Some(Examining { long, decided: reaches.is_some() }))
    }

    /// The same of a paper: a plain replay of one of its fragments.
    pub fn examined_paper(&mut self, by: &Lent, bytes: &[u8], seed: u64) -> Result<Option<Examining>, Box<Difference>> {
        self.lend(3 * bytes.len());
        let plain = self.marker.mark_paper_with(&by.in_mode(PLAIN), bytes, &mut self.ours);
        if plain[0] != 0 || !by.examined() {
            return Ok(None);
        }
        let examined = self.marker.mark_paper_with(by, bytes, &mut self.theirs);
        let rules = rules_of(&by.in_mode(PLAIN)).map_err(|number| differ(EXAMINED, plain, number))?;
        let own = definition::mark_with(&by.map, by.limit, false, bytes, &mut vec![0; 3 * bytes.len()]).answer;
        if own.number != 0 {
            return Err(differ(EXAMINED, plain, own));
        }
        let each: Vec<Option<bool>> = definition::fragments(bytes)
            .into_iter()
            .map(|(fragment, main, alt)| replays::reaches_long(&rules, fragment, main, alt, seed))
            .collect();
        let reaches = if each.contains(&Some(true)) { Some(true) } else { (!each.contains(&None)).then_some(false) };
        let long = examined[0] == 30;
        if reaches.is_some_and(|reaches| reaches != long) {
            return Err(differ(EXAMINED, examined, format!("{plain:?}, and a long push reached: {each:?}")));
        }
        if !long && (plain, &self.ours) != (examined, &self.theirs) {
            return Err(differ(EXAMINED, (examined, &self.theirs), (plain, &self.ours)));
        }
        Ok(Some(Examining { long, decided: reaches.is_some() }))
    }

    /// A case of any kind.
    pub fn check(&mut self, case: &Case) -> Result<(), Box<Difference>> {
        match case {
            Case::Fragment { main, alt, bytes, lent } => self.fragment(*main, *alt, bytes, *lent).map(drop),
            Case::Replays { by, main, alt, bytes, seed } => self.replays(by.as_ref(), *main, *alt, bytes, *seed).map(drop),
            Case::Limits { bytes } => self.limits(bytes).map(drop),
            Case::Paper { bytes, lent } => self.paper(bytes, *lent).map(drop),
            Case::Fragments { main, alt, bytes, other, lent } => self.blanked(*main, *alt, bytes, other, *lent).map(drop),
            Case::Papers { bytes, other, lent } => self.blanked_papers(bytes, other, *lent).map(drop),
            Case::Display { body, initialiser, offset, mark } => self.display(body, initialiser, *offset, *mark),
            Case::FragmentBy { by, main, alt, bytes, lent } => self.fragment_by(by, *main, *alt, bytes, *lent).map(drop),
            Case::PaperBy { by, bytes, lent } => self.paper_by(by, bytes, *lent).map(drop),
            Case::FragmentAt { by, limit, main, alt, bytes } => self.fragment_at(by, *limit, *main, *alt, bytes),
            Case::PaperAt { by, limit, bytes } => self.paper_at(by, *limit, bytes),
            Case::Examined { by, main, alt, bytes, seed } => self.examined(by, *main, *alt, bytes, *seed).map(drop),
            Case::ExaminedPaper { by, bytes, seed } => self.examined_paper(by, bytes, *seed).map(drop),
        }
    }
}
