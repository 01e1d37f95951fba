//! What is compared: every small fragment, then generated cases; then the same by lent maps and limits, and in both modes.

use tools::blank::{changed, free_in_paper, long_data, with_long_data};
use tools::case;
use tools::case::Case;
use tools::definition::{self, Rules, built_in_map, classic_map};
use tools::elements::{SIZES, forms, with_elements};
use tools::generate::{Draft, Kind, body, case, mutate, planned, start};
use tools::maps::{self, Codes, damaged_map, good_map};
use tools::model::{FAULTS, Fault, Writer};
use tools::rng::Rng;

use crate::marker::{Lent, Marker, PLAIN};
use crate::run::{Chunk, Found, Part, Worker};

/// How much of each part. Fields are numbers of cases unless they say otherwise.
pub struct Sizes {
    /// Fragments of three bytes from each start: every one, or so many at random.
    pub three_bytes: Option<u64>,
    /// Fragments of five instructions from each start: the same.
    pub five_instructions: Option<u64>,
    pub fragments: u64,
    pub papers: u64,
    /// Pairs of fragments, and a tenth as many of papers.
    pub blanked: u64,
    pub limits: u64,
    /// Of each of the three lengths.
    pub long: u64,
    pub nested: u64,
    pub displays: u64,
    /// By good maps and limits.
    pub mapped: u64,
    pub mapped_papers: u64,
    /// By damaged maps, and limits of every kind.
    pub bad_maps: u64,
    /// In both modes: twice as many answers.
    pub examined: u64,
    pub examined_papers: u64,
}

impl Sizes {
    pub const QUICK: Self = Self {
        three_bytes: Some(250_000),
        five_instructions: Some(100_000),
        fragments: 400_000,
        papers: 60_000,
        blanked: 50_000,
        limits: 30_000,
        long: 150,
        nested: 30_000,
        displays: 200_000,
        mapped: 700_000,
        mapped_papers: 60_000,
        bad_maps: 100_000,
        examined: 50_000,
        examined_papers: 10_000,
    };

    pub const FULL: Self = Self {
        three_bytes: None,
        five_instructions: None,
        fragments: 20_000_000,
        papers: 1_000_000,
        blanked: 1_000_000,
        limits: 500_000,
        long: 4_000,
        nested: 500_000,
        displays: 2_000_000,
        mapped: 10_000_000,
        mapped_papers: 1_000_000,
        bad_maps: 1_000_000,
        examined: 2_000_000,
        examined_papers: 300_000,
    };
}

/// Main and alt heights from which every fragment of up to three bytes is compared.
pub const STARTS: [(u32, u32); 8] = [(0, 0), (1, 0), (2, 0), (3, 1), (243, 0), (244, 0), (0, 244), (200, 44)];

/// The same for instructions: none, few, enough for a rotation, enough for either ZK form, full but for one.
const INSTRUCTION_STARTS: [(u32, u32); 5] = [(0, 0), (2, 0), (4, 1), (10, 2), (241, 2)];

/// Instructions that matter to one another: literals that are indexes, counts and tags, what takes them, what moves them
/// about, conditionals and RETURN, an unknown result and an unmodelled code.
pub const ALPHABET: [&[u8]; 25] = [
    &[0x00],
    &[0x51],
    &[0x52],
    &[0x01, 0x20],
    &[0x01, 0x21],
    &[0x63],
    &[0x64],
    &[0x67],
    &[0x68],
    &[0x6a],
    &[0x6b],
    &[0x6c],
    &[0x74],
    &[0x75],
    &[0x76],
    &[0x77],
    &[0x79],
    &[0x7a],
    &[0x7b],
    &[0x7c],
    &[0x7d],
    &[0x82],
    &[0x93],
    &[0xa6],
    &[0xff],
];

/// All parts, in order.
pub fn parts<M: Marker>(sizes: &Sizes) -> Vec<Part<M>> {
    let mut parts: Vec<Part<M>> = Vec::new();
    let mut part = |name, chunks, run| parts.push(Part { name, chunks, run });
    part("bytes, up to 2", 256, Box::new(|worker, chunk| two_bytes(worker, chunk as u8)));
    match sizes.three_bytes {
        None => part("bytes, 3", 256, Box::new(|worker, chunk| three_bytes(worker, chunk as u8))),
        Some(cases) => part("bytes, 3, a sample", cases / 1_000, Box::new(|worker, _| some_three_bytes(worker, 1_000))),
    }
    part("instructions, up to 4", 25, Box::new(|worker, chunk| instructions(worker, &[chunk as usize], 4)));
    match sizes.five_instructions {
        None => part(
            "instructions, 5",
            625,
            Box::new(|worker, chunk| exactly(worker, &mut vec![chunk as usize / 25, chunk as usize % 25], 5)),
        ),
        Some(cases) => {
            part("instructions, 5, a sample", cases / 1_000, Box::new(|worker, _| some_instructions(worker, 1_000)));
        }
    }
    part("short logs", 256, Box::new(|worker, chunk| short_logs(worker, chunk as u8)));
    part("fragments", sizes.fragments / 1_000, Box::new(|worker, _| fragments(worker, 1_000)));
    part("long fragments", sizes.long, Box::new(|worker, chunk| long(worker, chunk)));
    part("nesting", 1 + sizes.nested / 100, Box::new(|worker, chunk| nesting(worker, chunk, 100)));
    part("limit checks", 1 + sizes.limits / 100, Box::new(|worker, chunk| limits(worker, chunk, 100)));
    part("papers", sizes.papers / 100, Box::new(|worker, _| papers(worker, 100)));
    part("long data", sizes.blanked / 1_000, Box::new(|worker, _| blanked(worker, 1_000)));
    part("display", 1 + sizes.displays / 1_000, Box::new(|worker, chunk| displays(worker, chunk, 1_000)));
    part("small limits", 25, Box::new(|worker, chunk| small_limits(worker, chunk as usize)));
    part("maps", sizes.mapped / 1_000, Box::new(|worker, _| mapped(worker, 1_000)));
    part("papers by maps", sizes.mapped_papers / 100, Box::new(|worker, _| mapped_papers(worker, 100)));
    part("bad maps", 257 + sizes.bad_maps / 1_000, Box::new(|worker, chunk| bad_maps(worker, chunk, 1_000)));
    let sizes_tried = SIZES.len() as u64;
    let run: Box<Chunk<M>> = Box::new(|worker, chunk| examined(worker, chunk as usize, 500));
    part("examined", sizes_tried + sizes.examined / 500, run);
    part("papers, examined", sizes.examined_papers / 100, Box::new(|worker, _| examined_papers(worker, 100)));
    part("classic year", 256, Box::new(|worker, chunk| classic_year(worker, chunk as u8)));
    parts
}

type Done = Result<(), Found>;

/// A log that is longer than is needed, so that the rest of it is seen to stay as lent.
fn enough(bytes: &[u8]) -> usize {
    3 * bytes.len() + 4
}

/// Compares a fragment, and replays one in so many of those accepted.
fn fragment<M: Marker>(worker: &mut Worker<M>, main: u32, alt: u32, bytes: &[u8], one_in: usize) -> Done {
    let number = worker.fragment(main, alt, bytes, enough(bytes))?;
    if number == 0 && worker.rng.below(one_in) == 0 {
        worker.replays(None, main, alt, bytes)?;
    }
    Ok(())
}

// Every fragment of few bytes.

/// Those of two bytes that begin with this one, and the shorter ones.
fn two_bytes<M: Marker>(worker: &mut Worker<M>, first: u8) -> Done {
    for (main, alt) in STARTS {
        if first == 0 {
            fragment(worker, main, alt, &[], 1)?;
        }
        fragment(worker, main, alt, &[first], 1)?;
        for second in 0..=255 {
            fragment(worker, main, alt, &[first, second], 4)?;
        }
    }
    Ok(())
}

/// Those of three bytes that begin with this one.
fn three_bytes<M: Marker>(worker: &mut Worker<M>, first: u8) -> Done {
    for (main, alt) in STARTS {
        for second in 0..=255 {
            for third in 0..=255 {
                fragment(worker, main, alt, &[first, second, third], 200)?;
            }
        }
    }
    Ok(())
}

fn some_three_bytes<M: Marker>(worker: &mut Worker<M>, cases: usize) -> Done {
    for _ in 0..cases {
        let bytes = worker.rng.bytes(3);
        for (main, alt) in STARTS {
            fragment(worker, main, alt, &bytes, 200)?;
        }
    }
    Ok(())
}

// Every fragment of few instructions.

/// Those that begin with these, up to `most`.
fn instructions<M: Marker>(worker: &mut Worker<M>, first: &[usize], most: usize) -> Done {
    for length in first.len()..=most {
        exactly(worker, &mut first.to_vec(), length)?;
    }
    Ok(())
}

/// Those of this length that begin with these.
fn exactly<M: Marker>(worker: &mut Worker<M>, first: &mut Vec<usize>, length: usize) -> Done {
    if first.len() == length {
        let bytes = first.iter().map(|k| ALPHABET[*k]).collect::<Vec<_>>().concat();
        for (main, alt) in INSTRUCTION_STARTS {
            fragment(worker, main, alt, &bytes, 100)?;
        }
        return Ok(());
    }
    for next in 0..ALPHABET.len() {
        first.push(next);
        exactly(worker, first, length)?;
        first.pop();
    }
    Ok(())
}

fn some_instructions<M: Marker>(worker: &mut Worker<M>, cases: usize) -> Done {
    for _ in 0..cases {
        let mut chosen = (0..5).map(|_| worker.rng.below(ALPHABET.len())).collect();
        exactly(worker, &mut chosen, 5)?;
    }
    Ok(())
}

/// Fragments of up to two bytes that begin with this one, with each log from none to one too long. The Rust keeps no log.
fn short_logs<M: Marker>(worker: &mut Worker<M>, first: u8) -> Done {
    for (main, alt) in [(2, 1), (0, 0), (200, 45)] {
        for lent in 0..=7 {
            worker.fragment(main, alt, &[], lent)?;
            worker.fragment(main, alt, &[first], lent)?;
            for second in 0..=255 {
                worker.fragment(main, alt, &[first, second], lent)?;
            }
        }
    }
    Ok(())
}

// Generated cases.

/// Heights and bytes of a generated fragment: of every shape and length, short with a plan, or short without one.
fn generated(rng: &mut Rng) -> (u32, u32, Vec<u8>) {
    match rng.below(10) {
        0..=2 => match case(rng, Kind::Fragment) {
            case::Case::Fragment { main, alt, bytes } => (main, alt, bytes),
            _ => unreachable!("a fragment was asked for"),
        },
        3..=7 => {
            let (main, alt) = start(rng);
            let steps = rng.within(0, 14);
            let fault = rng.percent(50).then(|| Fault { after: rng.below(steps + 1), number: rng.pick(&FAULTS) });
            (main as u32, alt as u32, planned(rng, main, alt, steps, fault))
        }
        _ => {
            let (main, alt) = if rng.percent(50) { (rng.below(8), rng.below(3)) } else { start(rng) };
            let count = rng.within(4, 14);
            let bytes = (0..count).flat_map(|_| rng.pick(&ALPHABET)).copied().collect();
            (main as u32, alt as u32, bytes)
        }
    }
}

/// Half of them damaged copies of the other half.
fn fragments<M: Marker>(worker: &mut Worker<M>, cases: usize) -> Done {
    for _ in 0..cases / 2 {
        let (main, alt, mut bytes) = generated(&mut worker.rng);
        one_fragment(worker, main, alt, &bytes)?;
        mutate(&mut worker.rng, &mut bytes);
        one_fragment(worker, main, alt, &bytes)?;
    }
    Ok(())
}

/// With a log long enough or, one time in twenty, perhaps not.
fn one_fragment<M: Marker>(worker: &mut Worker<M>, main: u32, alt: u32, bytes: &[u8]) -> Done {
    let lent = if worker.rng.percent(5) { worker.rng.below(enough(bytes)) } else { enough(bytes) };
    let number = worker.fragment(main, alt, bytes, lent)?;
    if number == 0 && worker.rng.percent(4) {
        worker.replays(None, main, alt, bytes)?;
    }
    Ok(())
}

/// One of a kind at each of 9,999, 10,000 and 10,001 bytes.
fn long<M: Marker>(worker: &mut Worker<M>, chunk: u64) -> Done {
    for size in [9_999, 10_000, 10_001] {
        let (main, alt) =
            if worker.rng.percent(50) { (worker.rng.below(30), worker.rng.below(3)) } else { start(&mut worker.rng) };
        let bytes = long_fragment(&mut worker.rng, chunk % 10, main, alt, size);
        assert_eq!(bytes.len(), size);
        let (main, alt) = (main as u32, alt as u32);
        let number = worker.fragment(main, alt, &bytes, enough(&bytes))?;
        if number == 0 && worker.rng.percent(2) {
            worker.replays(None, main, alt, &bytes)?;
        }
        // A log that is just long enough, or one number short.
        let needed = tools::definition::decode(&bytes).map_or(0, |instructions| 3 * instructions.len());
        worker.fragment(main, alt, &bytes, needed)?;
        worker.fragment(main, alt, &bytes, needed.saturating_sub(1))?;
    }
    Ok(())
}

fn long_fragment(rng: &mut Rng, kind: u64, main: usize, alt: usize, size: usize) -> Vec<u8> {
    let repeated = |piece: &[u8]| {
        let mut bytes = piece.repeat(size / piece.len());
        bytes.resize(size, 0x61);
        bytes
    };
    match kind {
        0 => repeated(&[0x61]),
        // One push with all that follows.
        1 => {
            let mut bytes = vec![0x4d];
            bytes.extend((size as u16 - 3).to_le_bytes());
            bytes.resize(size, rng.byte());
            bytes
        }
        2 => repeated(&[0x51, 0x75]),
        3 => repeated(&[0x51, 0x63, 0x51, 0x67, 0x52, 0x68, 0x75]),
        // Deep conditionals, one after another.
        4 => repeated(&[[0x51, 0x63].repeat(24), vec![0x61; 5], vec![0x68; 24]].concat()),
        // Dead after the first byte.
        5 => {
            let mut bytes = vec![0x6a];
            bytes.extend((1..size).map(|_| rng.within(0x69, 0xff) as u8));
            bytes
        }
        // Malformed at the end.
        6 => {
            let mut bytes = repeated(&[0x51, 0x75]);
            let missing = rng.within(2, 0x4e) as u8;
            bytes[size - 1] = missing;
            bytes
        }
        // Generated, whole or with a fault or damaged.
        _ => {
            let aim = if rng.percent(30) { 244 } else { rng.within(4, 40) };
            let fault = (kind == 8).then(|| Fault { after: rng.below(3_000), number: rng.pick(&FAULTS) });
            let mut writer = Writer::new(rng, main, alt).aim(aim).fault(fault);
            while writer.length() < size - 900 {
                writer.steps(40);
            }
            let mut bytes = writer.finish();
            if kind == 9 {
                mutate(rng, &mut bytes);
            }
            bytes.resize(size, 0x61);
            bytes
        }
    }
}

/// Conditionals 23, 24 and 25 deep: directed ones first, then generated ones.
fn nesting<M: Marker>(worker: &mut Worker<M>, chunk: u64, cases: usize) -> Done {
    if chunk == 0 {
        return directed_nesting(worker);
    }
    for _ in 0..cases {
        let levels = worker.rng.within(23, 25);
        let (main, alt) =
            if worker.rng.percent(70) { (worker.rng.below(40), worker.rng.below(3)) } else { start(&mut worker.rng) };
        let bytes = if worker.rng.percent(50) {
            let dead = worker.rng.percent(25);
            let mut writer = Writer::new(&mut worker.rng, main, alt).deepest(0);
            writer.steps(2);
            if dead {
                writer.return_op();
            }
            writer.nest(levels);
            writer.steps(2);
            writer.finish()
        } else {
            loose_nest(&mut worker.rng, levels)
        };
        let mut damaged = bytes.clone();
        mutate(&mut worker.rng, &mut damaged);
        fragment(worker, main as u32, alt as u32, &bytes, 10)?;
        fragment(worker, main as u32, alt as u32, &damaged, 10)?;
    }
    Ok(())
}

/// So many conditionals opened, some closed again on the way, some in their second arm, then perhaps closed.
fn loose_nest(rng: &mut Rng, levels: usize) -> Vec<u8> {
    let mut bytes = Vec::new();
    let mut open = 0;
    if rng.percent(20) {
        bytes.push(0x6a);
    }
    while open < levels {
        match rng.below(20) {
            0 if open > 0 => {
                bytes.push(0x68);
                open -= 1;
            }
            1..=5 if open > 0 => bytes.extend([0x67, 0x51, 0x63]),
            6 if open > 0 => bytes.push(0x6a),
            6 => bytes.push(0x76),
            _ => bytes.extend([0x51, rng.pick(&[0x63, 0x64])]),
        }
        if matches!(bytes.last(), Some(0x63 | 0x64)) {
            open += 1;
        }
    }
    let close = if rng.percent(80) { open } else { rng.below(open + 2) };
    bytes.extend(vec![0x68; close]);
    bytes
}

fn directed_nesting<M: Marker>(worker: &mut Worker<M>) -> Done {
    for levels in 23..=25 {
        // What opens, what stands within, what closes.
        let opening: [&[u8]; 7] =
            [&[0x51, 0x63], &[0x51, 0x64], &[0x63], &[0x64], &[0x51, 0x63, 0x67], &[0x51, 0x63, 0x6a, 0x67], &[0x76, 0x63]];
        let closing: [&[u8]; 5] = [&[], &[0x68], &[0x67, 0x68], &[0x6a, 0x68], &[0x67, 0x6a, 0x68]];
        for open in opening {
            for close in closing {
                for within in [&[] as &[u8], &[0x6a], &[0x51, 0x75], &[0x6b, 0x6c], &[0x67], &[0xff]] {
                    for before in [&[] as &[u8], &[0x6a], &[0x6a, 0xff], &[0x51, 0x63, 0x68]] {
                        let bytes = [before, &open.repeat(levels), within, &close.repeat(levels)].concat();
                        for (main, alt) in
                            [(0, 0), (1, 0), (2, 0), (22, 1), (23, 0), (24, 0), (25, 0), (26, 3), (244, 0), (243, 0)]
                        {
                            fragment(worker, main, alt, &bytes, 20)?;
                        }
                    }
                }
            }
        }
    }
    Ok(())
}

/// At the edges first: 200 to 203 of each counted code, alone and filled up to the size limit. Then generated ones, half of
/// them damaged copies of the other half.
fn limits<M: Marker>(worker: &mut Worker<M>, chunk: u64, cases: usize) -> Done {
    if chunk == 0 {
        for code in 0x60..=0xff {
            for count in 200..=203 {
                for size in [0, 9_999, 10_000, 10_001] {
                    let mut bytes = vec![code; count];
                    bytes.resize(size.max(count), 0x50);
                    worker.limits(&bytes)?;
                    bytes.push(0x4c);
                    worker.limits(&bytes)?;
                }
            }
        }
        return Ok(());
    }
    for _ in 0..cases / 2 {
        let bytes = bytes_of(case(&mut worker.rng, Kind::Limits));
        worker.limits(&bytes)?;
        let mut damaged = bytes;
        mutate(&mut worker.rng, &mut damaged);
        worker.limits(&damaged)?;
    }
    Ok(())
}

/// The bytes of a case of limits or a paper.
fn bytes_of(case: Case) -> Vec<u8> {
    match case {
        Case::Limits { bytes } | Case::Paper { bytes } => bytes,
        other => panic!("limits or a paper were asked for, not {other:?}"),
    }
}

/// Half of them damaged copies of the other half.
fn papers<M: Marker>(worker: &mut Worker<M>, cases: usize) -> Done {
    for _ in 0..cases / 2 {
        let whole = bytes_of(case(&mut worker.rng, Kind::Paper));
        let mut damaged = whole.clone();
        mutate(&mut worker.rng, &mut damaged);
        for bytes in [&whole, &damaged] {
            let lent = if worker.rng.percent(8) { worker.rng.below(bytes.len() + 1) } else { enough(bytes) };
            worker.paper(bytes, lent)?;
        }
    }
    Ok(())
}

/// Request L3: a generated fragment with long data in it, some cut short or damaged, and a copy with other long data; then a tenth
/// as many papers. Each of the two is held against the Rust and document 01 too.
fn blanked<M: Marker>(worker: &mut Worker<M>, pairs: usize) -> Done {
    for _ in 0..pairs {
        let (main, alt, bytes, other) = two_fragments(&mut worker.rng);
        let lent = if worker.rng.percent(5) { worker.rng.below(enough(&bytes)) } else { enough(&bytes) };
        worker.blanked(main, alt, &bytes, &other, lent)?;
        worker.fragment(main, alt, &other, lent)?;
    }
    for _ in 0..pairs / 10 {
        let (bytes, other) = two_papers(&mut worker.rng);
        let lent = if worker.rng.percent(8) { worker.rng.below(bytes.len() + 1) } else { enough(&bytes) };
        worker.blanked_papers(&bytes, &other, lent)?;
        worker.paper(&other, lent)?;
    }
    Ok(())
}

/// Heights, and two fragments that are not the same and differ only within long data.
fn two_fragments(rng: &mut Rng) -> (u32, u32, Vec<u8>, Vec<u8>) {
    loop {
        let (main, alt, plain) = generated(rng);
        let bytes = long_fragments(rng, &plain);
        let other = changed(rng, &bytes, &long_data(&bytes));
        if bytes != other {
            return (main, alt, bytes, other);
        }
    }
}

/// Two papers that are not the same and differ only where they may.
fn two_papers(rng: &mut Rng) -> (Vec<u8>, Vec<u8>) {
    loop {
        let bytes = if rng.percent(30) { bytes_of(case(rng, Kind::Paper)) } else { long_paper(rng) };
        let other = changed(rng, &bytes, &free_in_paper(&bytes));
        if bytes != other {
            return (bytes, other);
        }
    }
}

/// These bytes with long data in them; one time in five cut short, one in ten damaged.
fn long_fragments(rng: &mut Rng, bytes: &[u8]) -> Vec<u8> {
    let mut bytes = with_long_data(rng, bytes);
    if rng.percent(20) {
        // Within what was pushed last, if that is long.
        let from = long_data(&bytes).last().map_or(0, |data| data.start);
        let cut = rng.within(from, bytes.len());
        bytes.truncate(cut);
    }
    if rng.percent(10) {
        mutate(rng, &mut bytes);
    }
    bytes
}

/// A paper of one to four entries with long data in most parts, and bytes behind the last.
fn long_paper(rng: &mut Rng) -> Vec<u8> {
    let state_fields = rng.below(3);
    let mut draft = Draft { state_fields, entries: Vec::new(), initialiser: Vec::new() };
    for _ in 0..rng.within(1, 4) {
        let params = rng.below(5);
        let plain = body(rng, params + state_fields, 0);
        draft.entries.push((params, if rng.percent(80) { long_fragments(rng, &plain) } else { plain }));
    }
    if rng.percent(60) {
        let most = draft.entries.iter().map(|entry| entry.0).max().unwrap_or(0);
        let plain = body(rng, most, 1);
        draft.initialiser = long_fragments(rng, &plain);
    }
    let mut bytes = draft.pack();
    let rest = rng.below(3);
    bytes.extend(rng.bytes(rest));
    if rng.percent(5) {
        mutate(rng, &mut bytes);
    }
    bytes
}

/// Every offset of every fragment of up to two bytes first, then generated ones.
fn displays<M: Marker>(worker: &mut Worker<M>, chunk: u64, cases: usize) -> Done {
    if chunk == 0 {
        for first in 0..=255 {
            for second in 0..=255 {
                for offset in 0..=3 {
                    worker.display(&[first, second], &[first], offset, 0)?;
                    worker.display(&[second], &[first, second], offset, 1)?;
                }
                worker.display(&[first], &[second], 0, 2)?;
            }
        }
        return Ok(());
    }
    let marks = [0, 0, 0, 1, 1, 1, 2, 3, 256, 65_536, u32::MAX];
    let mut left = cases;
    while left > 0 {
        let mut parts = [Vec::new(), Vec::new()];
        for part in &mut parts {
            *part = body(&mut worker.rng, 4, 1);
            if worker.rng.percent(30) {
                mutate(&mut worker.rng, part);
            }
        }
        for _ in 0..left.min(25) {
            let mark = worker.rng.pick(&marks);
            let length = parts.get(mark as usize).map_or(0, Vec::len);
            let offset = match worker.rng.below(20) {
                0 => length,
                1 => length + 1,
                2 => worker.rng.pick(&[usize::MAX, usize::MAX - 4, 1 << 32, 10_000]),
                _ => worker.rng.below(length + 2),
            };
            worker.display(&parts[0], &parts[1], offset, mark)?;
        }
        left -= left.min(25);
    }
    Ok(())
}

// Request L6: lent maps and limits. The Rust knows neither; the built-in map at 244 is held against it as well.

/// Every fragment of up to 3 instructions that begins with this one of the alphabet, by the built-in map at the limits 1 to 6.
fn small_limits<M: Marker>(worker: &mut Worker<M>, first: usize) -> Done {
    let bys: Vec<Lent> = (1..=6).map(|limit| Lent::plain(built_in_map(), limit)).collect();
    let numbers = 0..ALPHABET.len();
    let longer = numbers.clone().flat_map(|second| numbers.clone().map(move |third| vec![first, second, third]));
    let all = [vec![first]].into_iter().chain(numbers.clone().map(|second| vec![first, second])).chain(longer);
    for chosen in all {
        let bytes = chosen.iter().map(|k| ALPHABET[*k]).collect::<Vec<_>>().concat();
        for (main, alt) in [(0, 0), (1, 0), (2, 0), (2, 1), (4, 1)] {
            for by in &bys {
                by_rules(worker, by, main, alt, &bytes, 100)?;
            }
        }
    }
    Ok(())
}

/// By a map and a limit. Of those accepted some are replayed, and asked again at their peak, just below it and at 244.
fn by_rules<M: Marker>(worker: &mut Worker<M>, by: &Lent, main: u32, alt: u32, bytes: &[u8], one_in: usize) -> Done {
    let lent = if worker.rng.percent(3) { worker.rng.below(enough(bytes)) } else { enough(bytes) };
    let number = worker.fragment_by(by, main, alt, bytes, lent)?;
    if number == 0 && worker.rng.below(one_in) == 0 {
        worker.replays(Some(by), main, alt, bytes)?;
        let log = &mut vec![0; 3 * bytes.len()];
        let peak = definition::analysis_with(&by.map, by.limit, by.examined(), bytes, main, alt, log).peak as u32;
        for limit in [peak.saturating_sub(1), peak, by.limit + 1, 244] {
            worker.fragment_at(by, limit, main, alt, bytes)?;
        }
    }
    Ok(())
}

/// Fragments of the generated kinds in the codes of good maps, some in those of the built-in one, half of them damaged, at limits
/// about the height that they come to. Ten to a map.
fn mapped<M: Marker>(worker: &mut Worker<M>, cases: usize) -> Done {
    for _ in 0..cases / 20 {
        let map = good_map(&mut worker.rng);
        let rules = Rules::read(&map, 244).expect("a good map");
        let codes = Codes::of(&rules);
        let mut by = Lent::plain(map, 244);
        for _ in 0..10 {
            let (main, alt, mut bytes) = if worker.rng.percent(50) { small(&mut worker.rng) } else { generated(&mut worker.rng) };
            if worker.rng.percent(85) {
                codes.rewrite(&mut worker.rng, &mut bytes);
            }
            let height = height(&rules, main, alt, &bytes);
            for damaged in [false, true] {
                if damaged {
                    mutate(&mut worker.rng, &mut bytes);
                }
                by.limit = maps::limit(&mut worker.rng, height);
                by_rules(worker, &by, main, alt, &bytes, 10)?;
                if by.limit == 244 && by.map == built_in_map() {
                    worker.fragment(main, alt, &bytes, enough(&bytes))?;
                }
            }
        }
    }
    Ok(())
}

/// Few items to start from, few instructions, few items on the way.
fn small(rng: &mut Rng) -> (u32, u32, Vec<u8>) {
    let (main, alt) = (rng.below(5), rng.below(3));
    let steps = rng.within(0, 14);
    let bytes = if rng.percent(60) {
        let fault = rng.percent(30).then(|| Fault { after: rng.below(steps + 1), number: rng.pick(&FAULTS) });
        let aim = rng.within(2, 10);
        let mut writer = Writer::new(rng, main, alt).aim(aim).fault(fault);
        writer.steps(steps);
        writer.finish()
    } else {
        (0..steps).flat_map(|_| rng.pick(&ALPHABET)).copied().collect()
    };
    (main as u32, alt as u32, bytes)
}

/// The most items that these rules let the fragment hold, as far as it comes.
fn height(rules: &Rules, main: u32, alt: u32, bytes: &[u8]) -> usize {
    let mut log = vec![0; 3 * bytes.len()];
    let verdict = definition::analysis_by(rules, bytes, main, alt, &mut log);
    let totals = log.chunks_exact(3).take(verdict.rows).filter(|row| row[1] != 65_535).map(|row| usize::from(row[1] + row[2]));
    totals.chain([verdict.peak]).max().unwrap_or(0)
}

/// Papers in the codes of good maps, half of them damaged copies, at limits about the sum that their dispatch check needs or the
/// peak. Five to a map.
fn mapped_papers<M: Marker>(worker: &mut Worker<M>, cases: usize) -> Done {
    for _ in 0..cases / 10 {
        let map = good_map(&mut worker.rng);
        let rules = Rules::read(&map, 244).expect("a good map");
        let codes = Codes::of(&rules);
        let mut by = Lent::plain(map, 244);
        for _ in 0..5 {
            let mut whole = bytes_of(case(&mut worker.rng, Kind::Paper));
            if worker.rng.percent(85) {
                codes.rewrite_paper(&mut worker.rng, &mut whole);
            }
            let peak = definition::mark_with(&by.map, 244, false, &whole, &mut vec![0; 3 * whole.len()]).peak;
            let height = match worker.rng.below(10) {
                0 => peak,
                1 => dispatched(&whole),
                _ => peak.max(dispatched(&whole)),
            };
            let mut damaged = whole.clone();
            mutate(&mut worker.rng, &mut damaged);
            for bytes in [&whole, &damaged] {
                let lent = if worker.rng.percent(8) { worker.rng.below(bytes.len() + 1) } else { enough(bytes) };
                by.limit = maps::limit(&mut worker.rng, height);
                let number = worker.paper_by(&by, bytes, lent)?;
                if number == 0 && worker.rng.percent(30) {
                    let limit = worker.rng.within(by.limit as usize, 244) as u32;
                    worker.paper_at(&by, limit, bytes)?;
                }
                if by.limit == 244 && by.map == built_in_map() {
                    worker.paper(bytes, lent)?;
                }
            }
        }
    }
    Ok(())
}

/// The greatest sum of a paper's dispatch check, as far as its header can be read.
fn dispatched(paper: &[u8]) -> usize {
    let field = |at: usize| paper.get(at..at + 2).map_or(0, |two| usize::from(u16::from_le_bytes([two[0], two[1]])));
    (0..field(0).min(32)).map(|k| field(8 + 6 * k) + field(2) + 3).max().unwrap_or(0)
}

/// The built-in map with each byte in each place, a place or two to a chunk, each shorter one, and each limit up to 300; then
/// damaged maps with limits of every kind. Fragments and papers by them, long and malformed ones too: 28 and 29 come first.
fn bad_maps<M: Marker>(worker: &mut Worker<M>, chunk: u64, cases: usize) -> Done {
    if chunk == 256 {
        for limit in (0..=300).chain([511, 512, 65_535, 65_536, 65_541, 1 << 31, u32::MAX - 1, u32::MAX]) {
            each_kind(worker, &Lent::plain(built_in_map(), limit))?;
        }
        for length in 0..260 {
            each_kind(worker, &Lent::plain(built_in_map()[..length].to_vec(), 244))?;
        }
        return Ok(());
    }
    if chunk < 256 {
        let chunk = chunk as usize;
        for place in [chunk, 256 + chunk].into_iter().filter(|place| *place < 260) {
            for byte in 0..=255 {
                let mut by = Lent::plain(built_in_map(), 244);
                by.map[place] = byte;
                worker.fragment_by(&by, 1, 0, &[0x61, 0xff], 9)?;
            }
        }
        return Ok(());
    }
    for _ in 0..cases / 2 {
        let limit = match worker.rng.below(8) {
            0 => 0,
            1 => 245,
            2 => worker.rng.number() as u32,
            _ => worker.rng.within(1, 244) as u32,
        };
        let by = Lent::plain(damaged_map(&mut worker.rng), limit);
        let (main, alt, bytes) = generated(&mut worker.rng);
        worker.fragment_by(&by, main, alt, &bytes, enough(&bytes))?;
        let bytes = if worker.rng.percent(20) { bytes } else { bytes_of(case(&mut worker.rng, Kind::Paper)) };
        worker.paper_by(&by, &bytes, enough(&bytes))?;
    }
    Ok(())
}

/// Fragments and papers that get 0, 1, 2, 3, 4, 7, 19, 20 or 21 by a good map at most limits.
fn each_kind<M: Marker>(worker: &mut Worker<M>, by: &Lent) -> Done {
    let long = [0x61; 10_001];
    let fragments: [(u32, &[u8], usize); 6] =
        [(0, &[], 0), (1, &long, 9), (400, &[0x61], 9), (0, &[0x4c], 9), (0, &[0x61], 2), (0, &[0x75], 9)];
    for (main, bytes, lent) in fragments {
        worker.fragment_by(by, main, 0, bytes, lent)?;
    }
    let sample = [1, 0, 1, 0, 0x0e, 0, 0, 0, 1, 0, 0x0e, 0, 6, 0, 0x63, 0x51, 0x67, 0x52, 0x68, 0x75];
    for bytes in [&sample[..], &sample[..19], &[], &long[..8_001]] {
        worker.paper_by(by, bytes, 20)?;
    }
    Ok(())
}

// Request L7: the examined mode. The Rust has none; the plain mode by the built-in map at 244 is held against it as well.

/// Modes other than plain; each is examined.
const MODES: [u32; 5] = [1, 2, 256, 65_536, u32::MAX];

/// Each size in each form that can say it, alive and dead, at small limits, a size to a chunk; then generated fragments with such
/// pushes set in, in the codes of good maps, some by damaged ones, one in five damaged.
fn examined<M: Marker>(worker: &mut Worker<M>, chunk: usize, cases: usize) -> Done {
    if let Some(size) = SIZES.get(chunk) {
        return directed_elements(worker, *size);
    }
    for _ in 0..cases / 10 {
        let map = if worker.rng.percent(50) { built_in_map() } else { good_map(&mut worker.rng) };
        let rules = Rules::read(&map, 244).expect("a good map");
        let codes = Codes::of(&rules);
        let damaged = worker.rng.percent(4).then(|| damaged_map(&mut worker.rng));
        let mut by = Lent::plain(damaged.unwrap_or(map), 244);
        for _ in 0..10 {
            let (main, alt, plain) = if worker.rng.percent(70) { small(&mut worker.rng) } else { generated(&mut worker.rng) };
            let mut bytes = with_elements(&mut worker.rng, &plain);
            codes.rewrite(&mut worker.rng, &mut bytes);
            if worker.rng.percent(20) {
                mutate(&mut worker.rng, &mut bytes);
            }
            let height = height(&rules, main, alt, &bytes);
            by.limit = if worker.rng.percent(40) { 244 } else { maps::limit(&mut worker.rng, height) };
            by.mode = worker.rng.pick(&MODES);
            both_modes(worker, &by, main, alt, &bytes, 4)?;
        }
    }
    Ok(())
}

/// In plain and in examined mode; then what plain mode accepts in both beside one another, and some of what either accepts by
/// replays and at other limits.
fn both_modes<M: Marker>(worker: &mut Worker<M>, by: &Lent, main: u32, alt: u32, bytes: &[u8], one_in: usize) -> Done {
    let plain = by.in_mode(PLAIN);
    by_rules(worker, &plain, main, alt, bytes, one_in)?;
    by_rules(worker, by, main, alt, bytes, one_in)?;
    if by.limit == 244 && by.map == built_in_map() {
        worker.fragment(main, alt, bytes, enough(bytes))?;
    }
    worker.examined(by, main, alt, bytes)
}

/// A push of this size in each form, where a run comes and where none does, beside other pushes, and where there is no room.
fn directed_elements<M: Marker>(worker: &mut Worker<M>, size: usize) -> Done {
    let around: [(&[u8], &[u8]); 16] = [
        (&[], &[]),
        (&[], &[0x75]),
        (&[0x51], &[]),
        (&[0x51, 0x75], &[0x82, 0x79]),
        (&[0x6a], &[]),
        (&[0x63], &[0x68]),
        (&[0x63], &[0x75, 0x68]),
        (&[0x63, 0x6a], &[0x68]),
        (&[0x63, 0x51, 0x67], &[0x68, 0x75]),
        (&[0x63, 0x67, 0x6a], &[0x68]),
        (&[0x64, 0x6a, 0x67], &[0x75, 0x68]),
        (&[0x51, 0x63, 0x6a, 0x67, 0x6a, 0x68], &[]),
        (&[0x51, 0x63, 0x51, 0x63, 0x6a], &[0x67, 0x68, 0x68]),
        (&[0x76], &[0x6b, 0x6c]),
        (&[0xff], &[]),
        (&[0x67], &[]),
    ];
    for form in forms(&vec![0x63; size]) {
        for (before, after) in around {
            let bytes = [before, &form, after].concat();
            for (main, alt) in [(0, 0), (1, 0), (2, 1), (4, 0)] {
                for limit in [1, 2, 3, 5, 244] {
                    let mode = worker.rng.pick(&MODES);
                    both_modes(worker, &Lent { map: built_in_map(), limit, mode }, main, alt, &bytes, 20)?;
                }
            }
        }
        // Two of them, the data of the first cut short, and one that is broken off.
        let twice = [&form[..], &[0x75], &form].concat();
        let by = Lent { map: built_in_map(), limit: 3, mode: 1 };
        for bytes in [&twice[..], &twice[1..], &twice[..twice.len() - 1], &form[..form.len() - 1]] {
            both_modes(worker, &by, 0, 0, bytes, 1)?;
        }
    }
    Ok(())
}

/// Papers with such pushes in most parts, in the codes of good maps, one in ten damaged.
fn examined_papers<M: Marker>(worker: &mut Worker<M>, cases: usize) -> Done {
    for _ in 0..cases / 5 {
        let map = if worker.rng.percent(50) { built_in_map() } else { good_map(&mut worker.rng) };
        let codes = Codes::of(&Rules::read(&map, 244).expect("a good map"));
        let mut by = Lent::plain(map, 244);
        for _ in 0..5 {
            let mut bytes = element_paper(&mut worker.rng);
            codes.rewrite_paper(&mut worker.rng, &mut bytes);
            if worker.rng.percent(10) {
                mutate(&mut worker.rng, &mut bytes);
            }
            let peak = definition::mark_with(&by.map, 244, false, &bytes, &mut vec![0; 3 * bytes.len()]).peak;
            by.limit = if worker.rng.percent(50) { 244 } else { maps::limit(&mut worker.rng, peak.max(dispatched(&bytes))) };
            by.mode = worker.rng.pick(&MODES);
            let lent = if worker.rng.percent(5) { worker.rng.below(bytes.len() + 1) } else { enough(&bytes) };
            worker.paper_by(&by.in_mode(PLAIN), &bytes, lent)?;
            let number = worker.paper_by(&by, &bytes, lent)?;
            if number == 0 && worker.rng.percent(30) {
                let limit = worker.rng.within(by.limit as usize, 244) as u32;
                worker.paper_at(&by, limit, &bytes)?;
            }
            if by.limit == 244 && by.map == built_in_map() {
                worker.paper(&bytes, lent)?;
            }
            worker.examined_paper(&by, &bytes)?;
        }
    }
    Ok(())
}

/// A paper of one to three entries with a push of about 520 bytes in some parts.
fn element_paper(rng: &mut Rng) -> Vec<u8> {
    let state_fields = rng.below(3);
    let mut draft = Draft { state_fields, entries: Vec::new(), initialiser: Vec::new() };
    let part = |rng: &mut Rng, main, alt| {
        let steps = rng.within(0, 12);
        let fault = rng.percent(10).then(|| Fault { after: rng.below(steps + 1), number: rng.pick(&FAULTS) });
        let plain = planned(rng, main, alt, steps, fault);
        if rng.percent(50) { with_elements(rng, &plain) } else { plain }
    };
    for _ in 0..rng.within(1, 3) {
        let params = rng.below(5);
        draft.entries.push((params, part(rng, params + state_fields, 0)));
    }
    if rng.percent(50) {
        let most = draft.entries.iter().map(|entry| entry.0).max().unwrap_or(0);
        draft.initialiser = part(rng, most, 1);
    }
    draft.pack()
}

/// Request L8: every fragment of two bytes that begins with this one, and this one alone, by the map of the classic year.
fn classic_year<M: Marker>(worker: &mut Worker<M>, first: u8) -> Done {
    let by = Lent::plain(classic_map(), 244);
    for (main, alt) in STARTS {
        by_rules(worker, &by, main, alt, &[first], 1)?;
        for second in 0..=255 {
            by_rules(worker, &by, main, alt, &[first, second], 20)?;
        }
    }
    Ok(())
}
