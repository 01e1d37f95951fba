//! Request L6 of document 02: maps out of numbers, good ones of several kinds and damaged ones, and bytes rewritten in the codes
//! of a map.

use crate::definition::{CLASSES, Rules, built_in_map, class_of, decode};
use crate::rng::Rng;

/// The first code whose class is free.
const FREE: usize = 0x61;

/// Where the rows of a map begin that has no bytes before them.
const HEADER: usize = 4;

/// A class number that a free code may have: any but push.
fn free_class(rng: &mut Rng) -> u8 {
    rng.pick(&[0, 2, 3, 4, 5, 6, 7, 8, 9, 10, 11, 12, 13, 14, 15, 16, 17, 18, 19, 20, 21, 22, 23, 24, 25, 26, 27, 28, 29, 30, 31])
}

/// The rows of a good map.
fn good_rows(rng: &mut Rng) -> Vec<u8> {
    let mut rows = built_in_map().split_off(HEADER);
    let free = &mut rows[FREE..];
    match rng.below(9) {
        // The built-in one.
        0 => {}
        // A few codes of another class.
        1 | 2 => {
            for _ in 0..rng.within(1, 6) {
                let code = rng.below(free.len());
                free[code] = free_class(rng);
            }
        }
        // All codes exchanged.
        3..=5 => rng.shuffle(free),
        // Any classes.
        6 => free.fill_with(|| free_class(rng)),
        // Few classes.
        7 => {
            let count = rng.within(1, 6);
            let few: Vec<u8> = (0..count).map(|_| free_class(rng)).collect();
            free.fill_with(|| rng.pick(&few));
        }
        // A class or two that are gone, or have become another.
        _ => {
            for _ in 0..rng.within(1, 2) {
                let (gone, now) = (free_class(rng), if rng.percent(50) { 0 } else { free_class(rng) });
                free.iter_mut().filter(|class| **class == gone).for_each(|class| *class = now);
            }
        }
    }
    rows
}

/// The map of these rows, mostly right behind the header, and with nothing behind them.
fn laid_out(rng: &mut Rng, rows: &[u8]) -> Vec<u8> {
    let offset = match rng.below(20) {
        0..=14 => HEADER,
        15..=17 => rng.within(HEADER + 1, 40),
        18 => rng.within(250, 300),
        _ if rng.percent(5) => 65_535,
        _ => rng.within(41, 2_000),
    };
    let mut map = rng.bytes(offset);
    map[..HEADER].copy_from_slice(&[0x00, 0x01, offset as u8, (offset >> 8) as u8]);
    map.extend(rows);
    if rng.percent(20) {
        let rest = rng.within(1, 9);
        map.extend(rng.bytes(rest));
    }
    map
}

pub fn good_map(rng: &mut Rng) -> Vec<u8> {
    let rows = good_rows(rng);
    laid_out(rng, &rows)
}

/// A good map with one thing changed or two; it may still be good.
pub fn damaged_map(rng: &mut Rng) -> Vec<u8> {
    let mut map = good_map(rng);
    for _ in 0..if rng.percent(75) { 1 } else { 2 } {
        let offset = map.get(2..4).map_or(0, |two| usize::from(u16::from_le_bytes([two[0], two[1]])));
        // A byte for one place of the map, if it has that.
        let (place, byte) = match rng.below(9) {
            0 => {
                let length = rng.below(map.len() + 1);
                map.truncate(length);
                continue;
            }
            // A row or two too few, or just as many as are needed.
            1 => {
                map.truncate(offset + 256 - rng.below(3));
                continue;
            }
            // The count, the offset.
            2 => (rng.below(2), rng.pick(&[0, 1, 2, 16, 255])),
            3 => (2, rng.pick(&[0, 1, 2, 3, 4, 5, 255])),
            4 => (3, rng.pick(&[0, 1, 255])),
            // A row that is not free, to another class or none; push at one that is; no class.
            5 => (offset + rng.below(FREE), rng.below(34) as u8),
            6 => (offset + rng.within(FREE, 255), 1),
            7 => (offset + rng.within(FREE, 255), rng.within(30, 255) as u8),
            _ => (rng.below(map.len() + 1), rng.byte()),
        };
        if let Some(own) = map.get_mut(place) {
            *own = byte;
        }
    }
    map
}

/// A limit: small, any, the built-in one, or about this many items.
pub fn limit(rng: &mut Rng, items: usize) -> u32 {
    let limit = match rng.below(10) {
        0 | 1 => rng.within(1, 8),
        2 | 3 => rng.within(1, 244),
        4 => 244,
        _ => (items + rng.below(5)).saturating_sub(2),
    };
    limit.clamp(1, 244) as u32
}

/// The codes of each class by a map.
pub struct Codes(Vec<Vec<u8>>);

impl Codes {
    pub fn of(rules: &Rules) -> Self {
        let of = |class| (FREE as u8..=0xff).filter(|code| rules.class(*code) == class).collect();
        Self(CLASSES.into_iter().map(of).collect())
    }

    /// Writes for each opcode one that has by the map the class that it has by the built-in one; an opcode of a class that no code
    /// has stays, and so does what is malformed.
    pub fn rewrite(&self, rng: &mut Rng, bytes: &mut [u8]) {
        let whole = decode(bytes).err().unwrap_or(bytes.len());
        let Ok(instructions) = decode(&bytes[..whole]) else {
            return;
        };
        let opcodes: Vec<(usize, u8)> = instructions.iter().map(|instruction| (instruction.offset, instruction.opcode)).collect();
        for (offset, opcode) in opcodes {
            let class = CLASSES.iter().position(|class| *class == class_of(opcode)).unwrap_or(0);
            if usize::from(opcode) >= FREE && !self.0[class].is_empty() {
                bytes[offset] = rng.pick(&self.0[class]);
            }
        }
    }

    /// The same in each part of a paper, as far as its header can be read.
    pub fn rewrite_paper(&self, rng: &mut Rng, paper: &mut [u8]) {
        let field = |at: usize| Some(usize::from(u16::from_le_bytes([*paper.get(at)?, *paper.get(at + 1)?])));
        let entries = field(0).unwrap_or(0).min(40);
        let places: Vec<usize> = [4].into_iter().chain((0..entries).map(|k| 10 + 6 * k)).collect();
        let parts: Vec<(usize, usize)> = places.iter().filter_map(|at| Some((field(*at)?, field(at + 2)?))).collect();
        for (offset, length) in parts {
            if let Some(part) = paper.get_mut(offset..offset + length) {
                self.rewrite(rng, part);
            }
        }
    }
}
