//! Runs the parts, in chunks, on several threads. What a chunk does depends on the
//! seed, the part and the chunk alone, so a seed repeats a run on any number of threads.

use std::sync::Mutex;
use std::sync::atomic::{AtomicBool, AtomicU64, Ordering};
use std::sync::mpsc::{RecvTimeoutError, channel};
use std::thread;
use std::time::{Duration, Instant};

use tools::rng::Rng;

use crate::check::{Case, Checker, Difference, Examining};
use crate::marker::{Lent, Marker};
use crate::replays;
use crate::shrink::shrink;

/// A case that differs.
pub type Found = Box<(Case, Box<Difference>)>;

/// How many cases, how many bytes, and how often each verdict number.
#[derive(Clone, Copy, Debug, Default)]
pub struct Counts {
    pub cases: u64,
    pub bytes: u64,
    pub numbers: [u64; 31],
}

impl Counts {
    fn count(&mut self, bytes: usize, number: u32) {
        self.cases += 1;
        self.bytes += bytes as u64;
        self.numbers[number as usize] += 1;
    }

    fn add(&mut self, other: &Self) {
        self.cases += other.cases;
        self.bytes += other.bytes;
        for (sum, number) in self.numbers.iter_mut().zip(other.numbers) {
            *sum += number;
        }
    }
}

/// Counts by the kind of the case.
#[derive(Clone, Copy, Debug, Default)]
pub struct Tally {
    pub fragments: Counts,
    pub limits: Counts,
    pub papers: Counts,
    pub displays: Counts,
    /// Pairs that differ only within long data.
    pub pairs: Counts,
    /// By a lent map and limit, in both modes.
    pub fragments_by: Counts,
    pub papers_by: Counts,
    /// Accepted ones that were asked again at another limit; they are among those.
    pub raised: u64,
    /// Those that plain mode accepts and that were asked in the examined one, those of them that got 30 there, and those of them of
    /// which replays told whether they have to; they are among those.
    pub examined: u64,
    pub long: u64,
    pub decided: u64,
    pub replays: replays::Counts,
}

impl Tally {
    pub fn add(&mut self, other: &Self) {
        self.fragments.add(&other.fragments);
        self.limits.add(&other.limits);
        self.papers.add(&other.papers);
        self.displays.add(&other.displays);
        self.pairs.add(&other.pairs);
        self.fragments_by.add(&other.fragments_by);
        self.papers_by.add(&other.papers_by);
        self.raised += other.raised;
        self.examined += other.examined;
        self.long += other.long;
        self.decided += other.decided;
        self.replays.add(&other.replays);
    }

    /// Those that have a verdict number.
    pub fn judged(&self) -> [&Counts; 6] {
        [&self.fragments, &self.limits, &self.papers, &self.pairs, &self.fragments_by, &self.papers_by]
    }

    /// All but the replays and what was asked again, whose fragments and papers are among the others.
    pub fn cases(&self) -> u64 {
        self.judged().iter().map(|counts| counts.cases).sum::<u64>() + self.displays.cases
    }

    /// Verdicts of number 0.
    pub fn accepted(&self) -> u64 {
        self.judged().iter().map(|counts| counts.numbers[0]).sum()
    }

    pub fn bytes(&self) -> u64 {
        self.judged().iter().map(|counts| counts.bytes).sum::<u64>() + self.displays.bytes
    }
}

/// What a thread has: both sides, numbers of the chunk's own, and counts.
pub struct Worker<'m, M> {
    checker: Checker<'m, M>,
    pub rng: Rng,
    pub tally: Tally,
}

impl<M: Marker> Worker<'_, M> {
    /// The verdict number.
    pub fn fragment(&mut self, main: u32, alt: u32, bytes: &[u8], lent: usize) -> Result<u32, Found> {
        match self.checker.fragment(main, alt, bytes, lent) {
            Ok(number) => {
                self.tally.fragments.count(bytes.len(), number);
                Ok(number)
            }
            Err(difference) => self.found(Case::Fragment { main, alt, bytes: bytes.to_vec(), lent }, difference),
        }
    }

    pub fn replays(&mut self, by: Option<&Lent>, main: u32, alt: u32, bytes: &[u8]) -> Result<(), Found> {
        let seed = self.rng.number();
        match self.checker.replays(by, main, alt, bytes, seed) {
            Ok(counts) => {
                self.tally.replays.add(&counts);
                Ok(())
            }
            Err(difference) => self.found(Case::Replays { by: by.cloned(), main, alt, bytes: bytes.to_vec(), seed }, difference),
        }
    }

    pub fn limits(&mut self, bytes: &[u8]) -> Result<(), Found> {
        match self.checker.limits(bytes) {
            Ok(number) => {
                self.tally.limits.count(bytes.len(), number);
                Ok(())
            }
            Err(difference) => self.found(Case::Limits { bytes: bytes.to_vec() }, difference),
        }
    }

    pub fn paper(&mut self, bytes: &[u8], lent: usize) -> Result<(), Found> {
        match self.checker.paper(bytes, lent) {
            Ok(number) => {
                self.tally.papers.count(bytes.len(), number);
                Ok(())
            }
            Err(difference) => self.found(Case::Paper { bytes: bytes.to_vec(), lent }, difference),
        }
    }

    /// A pair; a byte of it is one of each.
    pub fn blanked(&mut self, main: u32, alt: u32, bytes: &[u8], other: &[u8], lent: usize) -> Result<(), Found> {
        match self.checker.blanked(main, alt, bytes, other, lent) {
            Ok(number) => {
                self.tally.pairs.count(bytes.len(), number);
                Ok(())
            }
            Err(difference) => {
                let (bytes, other) = (bytes.to_vec(), other.to_vec());
                self.found(Case::Fragments { main, alt, bytes, other, lent }, difference)
            }
        }
    }

    pub fn blanked_papers(&mut self, bytes: &[u8], other: &[u8], lent: usize) -> Result<(), Found> {
        match self.checker.blanked_papers(bytes, other, lent) {
            Ok(number) => {
                self.tally.pairs.count(bytes.len(), number);
                Ok(())
            }
            Err(difference) => {
                let (bytes, other) = (bytes.to_vec(), other.to_vec());
                self.found(Case::Papers { bytes, other, lent }, difference)
            }
        }
    }

    /// By a lent map and limit: the verdict number.
    pub fn fragment_by(&mut self, by: &Lent, main: u32, alt: u32, bytes: &[u8], lent: usize) -> Result<u32, Found> {
        match self.checker.fragment_by(by, main, alt, bytes, lent) {
            Ok(number) => {
                self.tally.fragments_by.count(bytes.len(), number);
                Ok(number)
            }
            Err(difference) => {
                self.found(Case::FragmentBy { by: by.clone(), main, alt, bytes: bytes.to_vec(), lent }, difference)
            }
        }
    }

    pub fn paper_by(&mut self, by: &Lent, bytes: &[u8], lent: usize) -> Result<u32, Found> {
        match self.checker.paper_by(by, bytes, lent) {
            Ok(number) => {
                self.tally.papers_by.count(bytes.len(), number);
                Ok(number)
            }
            Err(difference) => self.found(Case::PaperBy { by: by.clone(), bytes: bytes.to_vec(), lent }, difference),
        }
    }

    /// What is accepted by a map and a limit, at another limit.
    pub fn fragment_at(&mut self, by: &Lent, limit: u32, main: u32, alt: u32, bytes: &[u8]) -> Result<(), Found> {
        match self.checker.fragment_at(by, limit, main, alt, bytes) {
            Ok(()) => {
                self.tally.raised += 1;
                Ok(())
            }
            Err(difference) => {
                self.found(Case::FragmentAt { by: by.clone(), limit, main, alt, bytes: bytes.to_vec() }, difference)
            }
        }
    }

    pub fn paper_at(&mut self, by: &Lent, limit: u32, bytes: &[u8]) -> Result<(), Found> {
        match self.checker.paper_at(by, limit, bytes) {
            Ok(()) => {
                self.tally.raised += 1;
                Ok(())
            }
            Err(difference) => self.found(Case::PaperAt { by: by.clone(), limit, bytes: bytes.to_vec() }, difference),
        }
    }

    /// What plain mode accepts, in the examined one.
    pub fn examined(&mut self, by: &Lent, main: u32, alt: u32, bytes: &[u8]) -> Result<(), Found> {
        let seed = self.rng.number();
        match self.checker.examined(by, main, alt, bytes, seed) {
            Ok(came) => {
                self.came(came);
                Ok(())
            }
            Err(difference) => self.found(Case::Examined { by: by.clone(), main, alt, bytes: bytes.to_vec(), seed }, difference),
        }
    }

    pub fn examined_paper(&mut self, by: &Lent, bytes: &[u8]) -> Result<(), Found> {
        let seed = self.rng.number();
        match self.checker.examined_paper(by, bytes, seed) {
            Ok(came) => {
                self.came(came);
                Ok(())
            }
            Err(difference) => self.found(Case::ExaminedPaper { by: by.clone(), bytes: bytes.to_vec(), seed }, difference),
        }
    }

    fn came(&mut self, came: Option<Examining>) {
        if let Some(Examining { long, decided }) = came {
            self.tally.examined += 1;
            self.tally.long += u64::from(long);
            self.tally.decided += u64::from(decided);
        }
    }

    pub fn display(&mut self, body: &[u8], initialiser: &[u8], offset: usize, mark: u32) -> Result<(), Found> {
        match self.checker.display(body, initialiser, offset, mark) {
            Ok(()) => {
                self.tally.displays.count(body.len() + initialiser.len(), 0);
                Ok(())
            }
            Err(difference) => {
                let (body, initialiser) = (body.to_vec(), initialiser.to_vec());
                self.found(Case::Display { body, initialiser, offset, mark }, difference)
            }
        }
    }

    #[cold]
    fn found<T>(&mut self, case: Case, difference: Box<Difference>) -> Result<T, Found> {
        Err(Box::new(shrink(&mut self.checker, case, difference)))
    }
}

/// What a chunk of a part does.
pub type Chunk<M> = dyn Fn(&mut Worker<M>, u64) -> Result<(), Found> + Sync;

/// A part of the comparison: its name, and what each of its chunks does.
pub struct Part<M> {
    pub name: &'static str,
    pub chunks: u64,
    pub run: Box<Chunk<M>>,
}

/// What came of a part.
pub struct PartOutcome {
    pub name: &'static str,
    pub tally: Tally,
    pub seconds: f64,
}

pub struct Outcome {
    pub parts: Vec<PartOutcome>,
    pub found: Option<Found>,
}

/// Machine stack of a thread: more than the walkers need.
const STACK: usize = 16 << 20;

/// Runs the parts in order, up to the first that differs. `tell` is given the line of progress.
pub fn run<M: Marker>(marker: &M, parts: &[Part<M>], seed: u64, threads: usize, tell: &dyn Fn(&str)) -> Outcome {
    let mut outcome = Outcome { parts: Vec::new(), found: None };
    for (number, part) in parts.iter().enumerate() {
        let begun = Instant::now();
        let place = format!("{} of {}: {}", number + 1, parts.len(), part.name);
        let tell = |state: &str| tell(&format!("{place}, {state}"));
        let (tally, found) = run_part(marker, part, seed, threads, &tell);
        outcome.parts.push(PartOutcome { name: part.name, tally, seconds: begun.elapsed().as_secs_f64() });
        outcome.found = found;
        if outcome.found.is_some() {
            break;
        }
    }
    outcome
}

/// The seed of a chunk, out of the run's seed, the part's name and the chunk's number.
fn chunk_seed(seed: u64, name: &str, chunk: u64) -> u64 {
    let name = name.bytes().fold(0u64, |sum, byte| sum.wrapping_mul(257).wrapping_add(u64::from(byte)));
    let mixed = Rng::new(seed).number() ^ Rng::new(name).number().rotate_left(21) ^ Rng::new(!chunk).number().rotate_left(42);
    Rng::new(mixed).number()
}

fn run_part<M: Marker>(marker: &M, part: &Part<M>, seed: u64, threads: usize, tell: &dyn Fn(&str)) -> (Tally, Option<Found>) {
    let begun = Instant::now();
    let (next, done, cases) = (AtomicU64::new(0), AtomicU64::new(0), AtomicU64::new(0));
    let stop = AtomicBool::new(false);
    let found: Mutex<Option<Found>> = Mutex::new(None);
    let work = || {
        let mut worker = Worker { checker: Checker::new(marker), rng: Rng::new(0), tally: Tally::default() };
        while !stop.load(Ordering::Relaxed) {
            let chunk = next.fetch_add(1, Ordering::Relaxed);
            if chunk >= part.chunks {
                break;
            }
            let before = worker.tally.cases();
            worker.rng = Rng::new(chunk_seed(seed, part.name, chunk));
            if let Err(case) = (part.run)(&mut worker, chunk) {
                stop.store(true, Ordering::Relaxed);
                keep_smallest(&found, case);
            }
            cases.fetch_add(worker.tally.cases() - before, Ordering::Relaxed);
            done.fetch_add(1, Ordering::Relaxed);
        }
        worker.tally
    };
    let tally = thread::scope(|scope| {
        let (sender, receiver) = channel();
        for _ in 0..threads {
            let sender = sender.clone();
            let thread = thread::Builder::new().stack_size(STACK);
            thread.spawn_scoped(scope, move || sender.send(work()).expect("the tally is awaited")).expect("a thread starts");
        }
        drop(sender);
        let mut tally = Tally::default();
        loop {
            match receiver.recv_timeout(Duration::from_millis(500)) {
                Ok(part) => tally.add(&part),
                Err(RecvTimeoutError::Disconnected) => break tally,
                Err(RecvTimeoutError::Timeout) => {
                    let (done, cases) = (done.load(Ordering::Relaxed), cases.load(Ordering::Relaxed));
                    let seconds = begun.elapsed().as_secs();
                    tell(&format!("{} %, {cases} cases, {seconds} s", done * 100 / part.chunks.max(1)));
                }
            }
        }
    });
    (tally, found.into_inner().expect("no thread stopped while it held this"))
}

fn keep_smallest(found: &Mutex<Option<Found>>, case: Found) {
    let size = |found: &Found| format!("{}", found.0).len();
    let mut smallest = found.lock().expect("no thread stopped while it held this");
    if smallest.as_ref().is_none_or(|smallest| size(&case) < size(smallest)) {
        *smallest = Some(case);
    }
}
