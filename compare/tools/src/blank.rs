//! Request L3, "Long data tells nothing", as a plain reading: where the long data of a fragment or a paper stands, and copies that
//! differ only there.

use std::ops::Range;

use crate::rng::Rng;

/// Where an instruction begins, where its data is, and how many bytes of data it asks for.
pub struct Push {
    pub offset: usize,
    pub data: Range<usize>,
    pub size: usize,
}

/// The instructions in order; the last may be broken off, and has then the data that is there.
pub fn pushes(bytes: &[u8]) -> Vec<Push> {
    let mut list = Vec::new();
    let mut offset = 0;
    while offset < bytes.len() {
        let opcode = bytes[offset];
        let length = match opcode {
            0x4c => 1,
            0x4d => 2,
            0x4e => 4,
            _ => 0,
        };
        let from = (offset + 1 + length).min(bytes.len());
        let asked = bytes[offset + 1..from].iter().rev().fold(0, |size, byte| size << 8 | usize::from(*byte));
        let size = match opcode {
            0x01..=0x4b => usize::from(opcode),
            _ if from == offset + 1 + length => asked,
            _ => 0,
        };
        let to = (from + size).min(bytes.len());
        list.push(Push { offset, data: from..to, size });
        offset = to;
    }
    list
}

/// Data of 9 or more bytes, the data that is there of a push broken off included.
pub fn long_data(bytes: &[u8]) -> Vec<Range<usize>> {
    pushes(bytes).into_iter().filter(|push| push.size >= 9 && !push.data.is_empty()).map(|push| push.data).collect()
}

/// What of a paper may differ: behind a good header the long data of each part and the bytes in no part, else all behind the
/// header.
pub fn free_in_paper(bytes: &[u8]) -> Vec<Range<usize>> {
    let field = |at: usize| bytes.get(at..at + 2).map_or(0, |two| usize::from(two[0]) + 256 * usize::from(two[1]));
    let entries = if bytes.len() == 1 { usize::from(bytes[0]) } else { field(0) };
    let header = (8 + 6 * entries).min(bytes.len());
    let good = {
        let mut owned = vec![false; bytes.len()];
        bytes.len() >= 8
            && (1..=32).contains(&entries)
            && bytes.len() >= 8 + 6 * entries
            && parts(bytes).iter().all(|part| {
                let inside = part.start >= header && part.end <= bytes.len();
                inside && part.clone().all(|place| !std::mem::replace(&mut owned[place], true))
            })
    };
    if !good {
        return std::iter::once(header..bytes.len()).filter(|range| !range.is_empty()).collect();
    }
    let parts = parts(bytes);
    let mut free: Vec<Range<usize>> = Vec::new();
    for part in &parts {
        free.extend(long_data(&bytes[part.clone()]).into_iter().map(|data| part.start + data.start..part.start + data.end));
    }
    free.extend(
        (header..bytes.len()).filter(|place| !parts.iter().any(|part| part.contains(place))).map(|place| place..place + 1),
    );
    free
}

/// The bodies and the initialiser of a paper, as its header has them.
fn parts(bytes: &[u8]) -> Vec<Range<usize>> {
    let field = |at: usize| usize::from(bytes[at]) + 256 * usize::from(bytes[at + 1]);
    (0..field(0)).map(|k| 10 + 6 * k).chain([4]).map(|at| field(at)..field(at) + field(at + 2)).collect()
}

/// The bytes with 00 in these places.
pub fn blank(bytes: &[u8], places: &[Range<usize>]) -> Vec<u8> {
    let mut blanked = bytes.to_vec();
    for place in places {
        blanked[place.clone()].fill(0);
    }
    blanked
}

/// The same outside long data.
pub fn related(one: &[u8], other: &[u8]) -> bool {
    one.len() == other.len() && blank(one, &long_data(one)) == blank(other, &long_data(other))
}

/// The same of papers.
pub fn papers_related(one: &[u8], other: &[u8]) -> bool {
    one.len() == other.len() && blank(one, &free_in_paper(one)) == blank(other, &free_in_paper(other))
}

/// A copy with something else in some of these places, in one at least if there is one: 00, other bytes, or one byte changed.
pub fn changed(rng: &mut Rng, bytes: &[u8], places: &[Range<usize>]) -> Vec<u8> {
    let mut copy = bytes.to_vec();
    if places.is_empty() {
        return copy;
    }
    let sure = rng.below(places.len());
    for (k, place) in places.iter().enumerate() {
        match rng.below(4) {
            0 if k != sure => {}
            0 | 1 => copy[place.clone()].fill(0),
            2 => {
                for byte in &mut copy[place.clone()] {
                    *byte = rng.byte();
                }
            }
            _ => copy[rng.within(place.start, place.end - 1)] ^= 1 << rng.below(8),
        }
    }
    copy
}

/// The bytes with one to three pushes of long data set in between instructions, most of them dropped at once, some read as an
/// index, a tag, a condition or for their size.
pub fn with_long_data(rng: &mut Rng, bytes: &[u8]) -> Vec<u8> {
    let mut bytes = bytes.to_vec();
    for _ in 0..rng.within(1, 3) {
        let mut places: Vec<usize> = pushes(&bytes).iter().map(|push| push.offset).collect();
        places.push(bytes.len());
        let at = rng.pick(&places);
        let mut piece = long_push(rng);
        match rng.below(20) {
            0..=11 => piece.push(0x75),
            12 => piece.extend([0x82, 0x6d]),
            13 => piece.extend([0x82, 0x79]),
            14 => piece.extend([0x63, 0x68]),
            15 => piece.push(rng.pick(&[0x79, 0x7a, 0xa6])),
            16 => piece.extend([0x6b, 0x6c, 0x75]),
            _ => {}
        }
        bytes.splice(at..at, piece);
    }
    bytes
}

/// A push of 9 or more bytes in any of the forms that take them.
fn long_push(rng: &mut Rng) -> Vec<u8> {
    let size = match rng.below(12) {
        0..=4 => 9,
        5 | 6 => rng.within(10, 20),
        7 => rng.pick(&[32, 33]),
        8 => rng.pick(&[64, 65]),
        9 => rng.pick(&[75, 76, 80]),
        10 => rng.pick(&[255, 256, 520, 521]),
        _ => rng.within(9, 120),
    };
    let mut push = match rng.below(6) {
        0..=3 if size <= 75 => vec![size as u8],
        4 if size <= 255 => vec![0x4c, size as u8],
        5 => [&[0x4e], &(size as u32).to_le_bytes()[..]].concat(),
        _ => [&[0x4d], &(size as u16).to_le_bytes()[..]].concat(),
    };
    let codes = rng.percent(30);
    for _ in 0..size {
        let byte = if codes { rng.pick(&[0x63, 0x67, 0x68, 0x6a, 0x79, 0x4c, 0x09, 0xff]) } else { rng.byte() };
        push.push(byte);
    }
    push
}

#[cfg(test)]
mod tests {
    use super::*;

    /// The pairs of `LongDataWitnesses.antt`.
    #[test]
    fn the_witnesses() {
        let push = |first: &[u8], byte: u8, count: usize, last: &[u8]| [first, &vec![byte; count], last].concat();
        assert!(related(&push(&[0x40], 0x5a, 64, &[0xac]), &push(&[0x40], 0x00, 64, &[0xac])));
        assert!(related(&push(&[0x09], 0x01, 9, &[0x82, 0x79]), &push(&[0x09], 0x80, 9, &[0x82, 0x79])));
        assert!(related(&[0x51, 0x4c, 0x20, 0x07, 0x08], &[0x51, 0x4c, 0x20, 0x4c, 0x01]));
        assert!(!related(&[0x4c, 0x05, 0x01], &[0x4c, 0x06, 0x02]));
        assert!(!related(&push(&[0x08], 0x01, 8, &[0x79]), &push(&[0x08], 0x02, 8, &[0x79])));
        assert!(!related(&push(&[0x4c, 0x09], 0x07, 9, &[0x75]), &push(&[0x4c, 0x0a], 0x07, 10, &[0x75])));
        assert!(!related(&push(&[0x01, 0x09], 0x51, 9, &[]), &push(&[0x01, 0x09], 0x75, 9, &[])));
        let paper = |between: u8, sig: u8, state: u8| {
            let header = [1, 0, 1, 0, 0x1b, 0, 5, 0, 1, 0, 0x0f, 0, 0x0c, 0, between];
            [&header[..], &push(&[0x4c, 0x09], sig, 9, &[0x6d]), &push(&[0x4c, 0x0a], state, 3, &[])].concat()
        };
        assert!(papers_related(&paper(0x00, 0x5a, 0x07), &paper(0xff, 0x00, 0x08)));
    }

    /// What `changed` makes is related, and differs where it can.
    #[test]
    fn changed_is_related() {
        let mut rng = Rng::new(3);
        for _ in 0..20_000 {
            let count = rng.below(40);
            let bytes = rng.bytes(count);
            let bytes = with_long_data(&mut rng, &bytes);
            let places = long_data(&bytes);
            let other = changed(&mut rng, &bytes, &places);
            assert!(related(&bytes, &other), "{bytes:02x?} {other:02x?}");
        }
    }
}
