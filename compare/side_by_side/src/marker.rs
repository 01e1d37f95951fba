//! Our side: what is asked of it, and the proved functions of the crate `export`.

/// A map and a limit as they are lent (request L6), good or bad, and the mode (request L7).
#[derive(Clone, Debug, PartialEq, Eq)]
pub struct Lent {
    pub map: Vec<u8>,
    pub limit: u32,
    pub mode: u32,
}

/// The plain mode; any other is examined.
pub const PLAIN: u32 = 0;

impl Lent {
    pub fn plain(map: Vec<u8>, limit: u32) -> Self {
        Self { map, limit, mode: PLAIN }
    }

    /// The same in this mode.
    pub fn in_mode(&self, mode: u32) -> Self {
        Self { mode, ..self.clone() }
    }

    pub fn examined(&self) -> bool {
        self.mode != PLAIN
    }
}

/// Answers are numbers in the order of the functions of the crate `export`.
pub trait Marker: Sync {
    /// Number, offset, two figures, rows, peak, whether there is an end, its main and alt heights.
    fn analyze(&self, fragment: &[u8], main: u32, alt: u32, log: &mut [u16]) -> [u64; 9];

    /// The same, and three numbers to an item of the end: its length or 255, its bytes as one number, 0.
    fn analyze_items(&self, fragment: &[u8], main: u32, alt: u32, log: &mut [u16], items: &mut [u64]) -> [u64; 9];

    /// Number, offset, two figures.
    fn check_limits(&self, bytecode: &[u8]) -> [u64; 4];

    /// Number, entry, offset, two figures, rows, peak.
    fn mark_paper(&self, paper: &[u8], log: &mut [u16]) -> [u64; 7];

    /// Where the part starts in its fragment, and its length.
    fn display(&self, body: &[u8], initialiser: &[u8], offset: usize, mark: u32) -> [u64; 2];

    /// As `analyze_items`, by a lent map and limit, in a mode.
    fn analyze_with(&self, by: &Lent, fragment: &[u8], main: u32, alt: u32, log: &mut [u16], items: &mut [u64]) -> [u64; 9];

    /// As `mark_paper`, by a lent map and limit, in a mode.
    fn mark_paper_with(&self, by: &Lent, paper: &[u8], log: &mut [u16]) -> [u64; 7];
}

/// What a place holds until something is written to it.
pub const UNWRITTEN: u64 = 0xdead_beef_dead_beef;

/// What was written, if what was answered is also what was written in its place.
fn answered<const N: usize>(answer: u64, place: usize, mut written: [u64; N]) -> [u64; N] {
    if written[place] != answer {
        written[place] = UNWRITTEN;
    }
    written
}

mod proved {
    unsafe extern "C" {
        pub fn listochur_analyze(
            fragment: *const u8,
            len: usize,
            main: u32,
            alt: u32,
            log: *mut u16,
            numbers: usize,
            out: *mut u64,
            places: usize,
        ) -> u32;
        pub fn listochur_analyze_items(
            fragment: *const u8,
            len: usize,
            main: u32,
            alt: u32,
            log: *mut u16,
            numbers: usize,
            items: *mut u64,
            items_len: usize,
            out: *mut u64,
            places: usize,
        ) -> u32;
        pub fn listochur_check_limits(bytecode: *const u8, len: usize, out: *mut u64, places: usize) -> u32;
        pub fn listochur_mark_paper(
            paper: *const u8,
            len: usize,
            log: *mut u16,
            numbers: usize,
            out: *mut u64,
            places: usize,
        ) -> u32;
        pub fn listochur_display(
            body: *const u8,
            body_len: usize,
            initialiser: *const u8,
            initialiser_len: usize,
            offset: usize,
            mark: u32,
            out: *mut u64,
            places: usize,
        ) -> usize;
        pub fn listochur_analyze_with(
            fragment: *const u8,
            len: usize,
            main: u32,
            alt: u32,
            map: *const u8,
            map_len: usize,
            limit: u32,
            mode: u32,
            log: *mut u16,
            numbers: usize,
            items: *mut u64,
            items_len: usize,
            out: *mut u64,
            places: usize,
        ) -> u32;
        pub fn listochur_mark_paper_with(
            paper: *const u8,
            len: usize,
            map: *const u8,
            map_len: usize,
            limit: u32,
            mode: u32,
            log: *mut u16,
            numbers: usize,
            out: *mut u64,
            places: usize,
        ) -> u32;
    }
}

/// The proved functions. They ask nothing of their caller: each slice is passed whole, with its own length.
pub struct Proved;

impl Marker for Proved {
    fn analyze(&self, fragment: &[u8], main: u32, alt: u32, log: &mut [u16]) -> [u64; 9] {
        let mut out = [UNWRITTEN; 9];
        let number = unsafe {
            let (log, numbers) = (log.as_mut_ptr(), log.len());
            proved::listochur_analyze(fragment.as_ptr(), fragment.len(), main, alt, log, numbers, out.as_mut_ptr(), out.len())
        };
        answered(u64::from(number), 0, out)
    }

    fn analyze_items(&self, fragment: &[u8], main: u32, alt: u32, log: &mut [u16], items: &mut [u64]) -> [u64; 9] {
        let mut out = [UNWRITTEN; 9];
        let number = unsafe {
            let (bytes, len) = (fragment.as_ptr(), fragment.len());
            let (log, numbers) = (log.as_mut_ptr(), log.len());
            let (items, count) = (items.as_mut_ptr(), items.len());
            proved::listochur_analyze_items(bytes, len, main, alt, log, numbers, items, count, out.as_mut_ptr(), out.len())
        };
        answered(u64::from(number), 0, out)
    }

    fn check_limits(&self, bytecode: &[u8]) -> [u64; 4] {
        let mut out = [UNWRITTEN; 4];
        let number = unsafe { proved::listochur_check_limits(bytecode.as_ptr(), bytecode.len(), out.as_mut_ptr(), out.len()) };
        answered(u64::from(number), 0, out)
    }

    fn mark_paper(&self, paper: &[u8], log: &mut [u16]) -> [u64; 7] {
        let mut out = [UNWRITTEN; 7];
        let number = unsafe {
            let (log, numbers) = (log.as_mut_ptr(), log.len());
            proved::listochur_mark_paper(paper.as_ptr(), paper.len(), log, numbers, out.as_mut_ptr(), out.len())
        };
        answered(u64::from(number), 0, out)
    }

    fn display(&self, body: &[u8], initialiser: &[u8], offset: usize, mark: u32) -> [u64; 2] {
        let mut out = [UNWRITTEN; 2];
        let length = unsafe {
            let (init, init_len) = (initialiser.as_ptr(), initialiser.len());
            proved::listochur_display(body.as_ptr(), body.len(), init, init_len, offset, mark, out.as_mut_ptr(), out.len())
        };
        answered(length as u64, 1, out)
    }

    fn analyze_with(&self, by: &Lent, fragment: &[u8], main: u32, alt: u32, log: &mut [u16], items: &mut [u64]) -> [u64; 9] {
        let mut out = [UNWRITTEN; 9];
        let number = unsafe {
            proved::listochur_analyze_with(
                fragment.as_ptr(),
                fragment.len(),
                main,
                alt,
                by.map.as_ptr(),
                by.map.len(),
                by.limit,
                by.mode,
                log.as_mut_ptr(),
                log.len(),
                items.as_mut_ptr(),
                items.len(),
                out.as_mut_ptr(),
                out.len(),
            )
        };
        answered(u64::from(number), 0, out)
    }

    fn mark_paper_with(&self, by: &Lent, paper: &[u8], log: &mut [u16]) -> [u64; 7] {
        let mut out = [UNWRITTEN; 7];
        let number = unsafe {
            let (map, map_len) = (by.map.as_ptr(), by.map.len());
            let (log, numbers) = (log.as_mut_ptr(), log.len());
            let (bytes, len) = (paper.as_ptr(), paper.len());
            proved::listochur_mark_paper_with(
                bytes,
                len,
                map,
                map_len,
                by.limit,
                by.mode,
                log,
                numbers,
                out.as_mut_ptr(),
                out.len(),
            )
        };
        answered(u64::from(number), 0, out)
    }
}
