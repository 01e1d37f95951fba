//! The smallest case that still differs: instructions and bytes are dropped and start heights lowered for as long as that
//! helps.

use std::time::{Duration, Instant};

use tools::blank::{papers_related, related};
use tools::definition::{built_in_map, decode};
use tools::generate::Draft;

use crate::check::{Case, Checker, Difference};
use crate::marker::{Lent, Marker, PLAIN};

/// No longer than this: a long fragment that needs all its bytes takes many attempts.
const MOST_TIME: Duration = Duration::from_secs(10);

/// A smaller case that differs in the same thing.
pub fn shrink<M: Marker>(checker: &mut Checker<M>, case: Case, difference: Box<Difference>) -> (Case, Box<Difference>) {
    let begun = Instant::now();
    let against = difference.against;
    let mut best = (case, difference);
    let mut differs = |case: Case| {
        let difference = checker.check(&case).err().filter(|difference| difference.against == against)?;
        Some((case, difference))
    };
    while let Some(better) = smaller(&best.0).take_while(|_| begun.elapsed() < MOST_TIME).find_map(&mut differs) {
        best = better;
    }
    best
}

/// Cases a little smaller than this one, the much smaller ones first.
fn smaller(case: &Case) -> Box<dyn Iterator<Item = Case>> {
    match case.clone() {
        Case::Fragment { main, alt, bytes, lent } => {
            // A log that was long enough stays so.
            let enough = lent >= 3 * bytes.len();
            let lend = move |bytes: &[u8]| if enough { 3 * bytes.len() } else { lent };
            let shorter = fewer(bytes.clone())
                .map(move |bytes| Case::Fragment { main, alt, lent: lend(&bytes), bytes })
                .filter(move |case| matches!(case, Case::Fragment { lent: now, .. } if *now <= lent));
            let again = bytes.clone();
            let lower = lower_starts(main, alt).map(move |(main, alt)| Case::Fragment { main, alt, bytes: again.clone(), lent });
            let log = (lent > 3 * bytes.len()).then(|| Case::Fragment { main, alt, lent: 3 * bytes.len(), bytes });
            Box::new(shorter.chain(lower).chain(log))
        }
        Case::Replays { by, main, alt, bytes, seed } => {
            let (again, same) = (bytes.clone(), by.clone());
            let (twice, simpler) = (bytes.clone(), by.clone());
            let shorter = fewer(bytes).map(move |bytes| Case::Replays { by: by.clone(), main, alt, bytes, seed });
            let lower = lower_starts(main, alt).map(move |(main, alt)| Case::Replays {
                by: same.clone(),
                main,
                alt,
                bytes: again.clone(),
                seed,
            });
            let simpler = simpler.into_iter().flat_map(simpler_rules).map(move |by| Case::Replays {
                by: Some(by),
                main,
                alt,
                bytes: twice.clone(),
                seed,
            });
            Box::new(shorter.chain(lower).chain(simpler))
        }
        Case::Limits { bytes } => Box::new(fewer(bytes).map(|bytes| Case::Limits { bytes })),
        Case::Paper { bytes, lent } => {
            let drafts = smaller_papers(&bytes).into_iter().chain(fewer(bytes));
            Box::new(drafts.map(move |bytes| Case::Paper { bytes, lent }))
        }
        // The same pieces of both, where what is left is still related.
        Case::Fragments { main, alt, bytes, other, lent } => {
            let (again, twice) = (bytes.clone(), other.clone());
            let lower = lower_starts(main, alt).map(move |(main, alt)| Case::Fragments {
                main,
                alt,
                bytes: again.clone(),
                other: twice.clone(),
                lent,
            });
            let shorter = fewer_of_both(bytes, other)
                .filter(|(bytes, other)| related(bytes, other))
                .map(move |(bytes, other)| Case::Fragments { main, alt, bytes, other, lent });
            Box::new(shorter.chain(lower))
        }
        Case::Papers { bytes, other, lent } => Box::new(
            fewer_of_both(bytes, other)
                .filter(|(bytes, other)| papers_related(bytes, other))
                .map(move |(bytes, other)| Case::Papers { bytes, other, lent }),
        ),
        Case::Display { body, initialiser, offset, mark } => {
            let (same_body, same_initialiser) = (body.clone(), initialiser.clone());
            let bodies = fewer(body).map(move |body| Case::Display { body, initialiser: same_initialiser.clone(), offset, mark });
            let again = same_body.clone();
            let rest = fewer(initialiser.clone()).map(move |initialiser| Case::Display {
                body: same_body.clone(),
                initialiser,
                offset,
                mark,
            });
            let lower = (0..offset.min(40)).map(move |offset| Case::Display {
                body: again.clone(),
                initialiser: initialiser.clone(),
                offset,
                mark,
            });
            Box::new(bodies.chain(rest).chain(lower))
        }
        Case::FragmentBy { by, main, alt, bytes, lent } => {
            let with = move |by: &Lent, main, alt, bytes: &[u8]| {
                let (by, bytes) = (by.clone(), bytes.to_vec());
                // A log that was long enough stays so.
                let lent = if lent >= 3 * bytes.len() { 3 * bytes.len() } else { lent };
                Case::FragmentBy { by, main, alt, bytes, lent }
            };
            // Where the log alone would be shorter there is nothing else to gain.
            let log = (lent > 3 * bytes.len()).then(|| with(&by, main, alt, &bytes));
            Box::new(smaller_by(by, main, alt, bytes, with).chain(log))
        }
        Case::FragmentAt { by, limit, main, alt, bytes } => {
            let (same, again) = (by.clone(), bytes.clone());
            let lower = lower_limits(limit).map(move |limit| Case::FragmentAt {
                by: same.clone(),
                limit,
                main,
                alt,
                bytes: again.clone(),
            });
            // A shorter fragment has a lower peak, which the other limit may have to follow.
            let shorter = (0..=4).flat_map(move |less| {
                smaller_by(by.clone(), main, alt, bytes.clone(), move |by, main, alt, bytes| Case::FragmentAt {
                    by: by.clone(),
                    limit: limit.saturating_sub(less),
                    main,
                    alt,
                    bytes: bytes.to_vec(),
                })
            });
            Box::new(shorter.chain(lower))
        }
        Case::PaperBy { by, bytes, lent } => {
            let (same, again) = (by.clone(), bytes.clone());
            let drafts = smaller_papers(&bytes).into_iter().chain(fewer(bytes));
            let shorter = drafts.map(move |bytes| Case::PaperBy { by: same.clone(), bytes, lent });
            let simpler = simpler_rules(by).into_iter().map(move |by| Case::PaperBy { by, bytes: again.clone(), lent });
            Box::new(shorter.chain(simpler))
        }
        Case::PaperAt { by, limit, bytes } => {
            let (same, again) = (by.clone(), bytes.clone());
            let drafts = smaller_papers(&bytes).into_iter().chain(fewer(bytes));
            let shorter = drafts.map(move |bytes| Case::PaperAt { by: same.clone(), limit, bytes });
            let simpler = simpler_rules(by).into_iter().map(move |by| Case::PaperAt { by, limit, bytes: again.clone() });
            Box::new(shorter.chain(simpler))
        }
        Case::Examined { by, main, alt, bytes, seed } => smaller_by(by, main, alt, bytes, move |by, main, alt, bytes| {
            Case::Examined { by: by.clone(), main, alt, bytes: bytes.to_vec(), seed }
        }),
        Case::ExaminedPaper { by, bytes, seed } => {
            let (same, again) = (by.clone(), bytes.clone());
            let drafts = smaller_papers(&bytes).into_iter().chain(fewer(bytes));
            let shorter = drafts.map(move |bytes| Case::ExaminedPaper { by: same.clone(), bytes, seed });
            let simpler = simpler_rules(by).into_iter().map(move |by| Case::ExaminedPaper { by, bytes: again.clone(), seed });
            Box::new(shorter.chain(simpler))
        }
    }
}

/// A fragment by a map and a limit: fewer bytes, lower starts, a simpler map.
fn smaller_by(
    by: Lent,
    main: u32,
    alt: u32,
    bytes: Vec<u8>,
    with: impl Fn(&Lent, u32, u32, &[u8]) -> Case + Clone + 'static,
) -> Box<dyn Iterator<Item = Case>> {
    let (shorter, same, all) = (with.clone(), by.clone(), bytes.clone());
    let shorter = fewer(all).map(move |bytes| shorter(&same, main, alt, &bytes));
    let (lower, same, all) = (with.clone(), by.clone(), bytes.clone());
    let lower = lower_starts(main, alt).map(move |(main, alt)| lower(&same, main, alt, &all));
    let simpler = simpler_rules(by).into_iter().map(move |by| with(&by, main, alt, &bytes));
    Box::new(shorter.chain(lower).chain(simpler))
}

/// Nearer to the built-in map: that itself, its layout, runs of its rows; and lower limits, and the plain mode. A map that has no
/// rows where its header says becomes a shorter one.
fn simpler_rules(by: Lent) -> Vec<Lent> {
    let own = built_in_map();
    let mut maps = vec![own.clone()];
    let field = |at: usize| by.map.get(at..at + 2).map_or(0, |two| usize::from(u16::from_le_bytes([two[0], two[1]])));
    match by.map.get(field(2)..field(2) + 256) {
        Some(rows) if field(0) == 256 && field(2) >= 4 => {
            maps.push([&own[..4], rows].concat());
            let mut run = 256;
            while run > 0 {
                for from in (0..256).step_by(run) {
                    let mut nearer = by.map.clone();
                    nearer[field(2) + from..field(2) + from + run].copy_from_slice(&own[4 + from..4 + from + run]);
                    maps.push(nearer);
                }
                run /= 2;
            }
        }
        _ => maps.extend([0, 1, 3, 4, by.map.len() / 2, by.map.len().saturating_sub(1)].map(|length| {
            let length = length.min(by.map.len());
            by.map[..length].to_vec()
        })),
    }
    // How far a map is from the built-in one, so that it comes to an end.
    let far = |map: &[u8]| {
        let other = map.iter().zip(&own).filter(|(a, b)| a != b).count();
        (map.len() > own.len(), other, map.len())
    };
    maps.retain(|map| if map == &own { by.map != own } else { far(map) < far(&by.map) });
    let lower = lower_limits(by.limit).map(|limit| Lent { limit, ..by.clone() });
    // The plain mode, or the least other.
    let modes = [PLAIN, 1].into_iter().filter(|mode| *mode < by.mode).map(|mode| by.in_mode(mode));
    maps.into_iter().map(|map| Lent { map, limit: by.limit, mode: by.mode }).chain(lower).chain(modes).collect()
}

/// The bytes without a piece or two of them.
fn fewer(bytes: Vec<u8>) -> impl Iterator<Item = Vec<u8>> {
    pieces(&bytes).into_iter().map(move |piece| without(&bytes, piece))
}

/// Both without the same pieces.
fn fewer_of_both(bytes: Vec<u8>, other: Vec<u8>) -> impl Iterator<Item = (Vec<u8>, Vec<u8>)> {
    pieces(&bytes).into_iter().map(move |piece| (without(&bytes, piece), without(&other, piece)))
}

/// A piece is from and to, twice; the second may be empty.
fn without(bytes: &[u8], [from, to, again, last]: [usize; 4]) -> Vec<u8> {
    [&bytes[..from], &bytes[to..again], &bytes[last..]].concat()
}

/// Large pieces first, then runs of instructions, two instructions (as those of a conditional), bytes.
fn pieces(bytes: &[u8]) -> Vec<[usize; 4]> {
    const FEW: usize = 60;
    let size = bytes.len();
    let mut pieces: Vec<[usize; 4]> = Vec::new();
    let mut piece = size;
    while piece > 1 {
        pieces.extend((0..size).step_by(piece).map(|from| [from, (from + piece).min(size), size, size]));
        piece /= 2;
    }
    if let Ok(instructions) = decode(bytes) {
        let starts: Vec<usize> = instructions.iter().map(|instruction| instruction.offset).chain([size]).collect();
        let count = instructions.len();
        let longest = if count <= FEW { count } else { 1 };
        for length in (1..=longest).rev() {
            pieces.extend(starts.windows(length + 1).map(|run| [run[0], run[length], size, size]));
        }
        if count <= FEW {
            let two = |a: usize, b: usize| [starts[a], starts[a + 1], starts[b], starts[b + 1]];
            pieces.extend((0..count).flat_map(|a| (a + 2..count).map(move |b| (a, b))).map(|(a, b)| two(a, b)));
        }
    }
    pieces.extend((0..size).map(|at| [at, at + 1, size, size]));
    pieces
}

/// Lower limits; of those above 244 the least such first.
fn lower_limits(limit: u32) -> impl Iterator<Item = u32> {
    [245, 1, limit / 2, limit.saturating_sub(1)].into_iter().filter(move |now| *now < limit)
}

/// Lower main, lower alt.
fn lower_starts(main: u32, alt: u32) -> impl Iterator<Item = (u32, u32)> {
    let lower = |height: u32| [0, height / 2, height.saturating_sub(1)].into_iter().filter(move |now| *now < height);
    lower(main).map(move |main| (main, alt)).chain(lower(alt).map(move |alt| (main, alt)))
}

/// The paper laid out again without an entry, without a piece of a part, with fewer parameters or state fields.
fn smaller_papers(bytes: &[u8]) -> Vec<Vec<u8>> {
    let Some(draft) = draft_of(bytes) else {
        return Vec::new();
    };
    let mut papers = vec![draft.pack()];
    for k in 0..draft.entries.len() {
        if draft.entries.len() > 1 {
            let mut less = draft.clone();
            less.entries.remove(k);
            papers.push(less.pack());
        }
        for body in fewer(draft.entries[k].1.clone()) {
            let mut less = draft.clone();
            less.entries[k].1 = body;
            papers.push(less.pack());
        }
        for (params, _) in lower_starts(draft.entries[k].0 as u32, 0) {
            let mut less = draft.clone();
            less.entries[k].0 = params as usize;
            papers.push(less.pack());
        }
    }
    for initialiser in fewer(draft.initialiser.clone()) {
        papers.push(Draft { initialiser, ..draft.clone() }.pack());
    }
    for (fields, _) in lower_starts(draft.state_fields as u32, 0) {
        papers.push(Draft { state_fields: fields as usize, ..draft.clone() }.pack());
    }
    // Only what is shorter, or as long and with lower numbers, so that it comes to an end.
    papers.retain(|paper| (paper.len(), paper.as_slice()) < (bytes.len(), bytes));
    papers
}

/// The parts of a paper whose header is readable.
fn draft_of(bytes: &[u8]) -> Option<Draft> {
    let field = |at: usize| bytes.get(at..at + 2).map(|two| usize::from(u16::from_le_bytes([two[0], two[1]])));
    let part = |at: usize| {
        let (offset, length) = (field(at)?, field(at + 2)?);
        bytes.get(offset..offset + length).map(<[u8]>::to_vec)
    };
    let mut draft = Draft { state_fields: field(2)?, entries: Vec::new(), initialiser: part(4)? };
    for k in 0..field(0)? {
        draft.entries.push((field(8 + 6 * k)?, part(10 + 6 * k)?));
    }
    Some(draft)
}
