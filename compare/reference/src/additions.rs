//! What document 01 adds and the Rust has no counterpart of: the display (section
//! 6) and the bench tally (sections 4 and 7). Both are written from its text.

use kaspa_txscript::parse_script;

use crate::length_bytes;

/// The part of the body (mark 0) or of the initialiser (mark 1) that shows what
/// stands at an offset: the whole instruction, the rest if malformed, nothing at or
/// past the end or for another mark.
pub fn display<'a>(body: &'a [u8], initialiser: &'a [u8], offset: usize, mark: u32) -> &'a [u8] {
    let fragment = match mark {
        0 => body,
        1 => initialiser,
        _ => return &[],
    };
    let rest = fragment.get(offset..).unwrap_or_default();
    match parse_script::<(), ()>(rest).next() {
        Some(Ok(opcode)) => &rest[..1 + length_bytes(opcode.value()) + opcode.len()],
        Some(Err(_)) => rest,
        None => &[],
    }
}

/// The bench tally: fragments, accepted ones, rows, and the greatest peak.
#[derive(Clone, Copy, Debug, Default, PartialEq, Eq)]
pub struct Tally {
    pub fragments: u32,
    pub accepted: u32,
    pub rows: u32,
    pub peak: u32,
}

impl Tally {
    /// Gains one verdict of this number, rows and peak: 0, or 22 where a sum would
    /// pass 4,294,967,295, and the tally is then unchanged.
    pub fn gain(&mut self, number: u32, rows: u32, peak: u32) -> u32 {
        let sums = || {
            Some(Self {
                fragments: self.fragments.checked_add(1)?,
                accepted: self.accepted.checked_add((number == 0).into())?,
                rows: self.rows.checked_add(rows)?,
                peak: self.peak.max(peak),
            })
        };
        match sums() {
            Some(sums) => {
                *self = sums;
                0
            }
            None => 22,
        }
    }
}
