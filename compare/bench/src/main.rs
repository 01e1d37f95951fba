//! Times the proved marker and the Rust's analysis on the same fragments and papers in one run, both built for release. Ours
//! is lent a log of 30,000 numbers, written anew in each run and not cleared before; the Rust keeps no log. Answers are
//! compared first. The assembler and the lister of request L4 stand beside a plain version in Rust (`plain`), which makes a
//! vector where ours is lent one. With a number as its argument it runs that one row
//! once more and nothing else, for counts of instructions; with `listings` it times the rows of request L4 alone.
mod plain;

use plain::Names;
use std::hint::black_box;
use std::time::Instant;

struct Rng(u64);

impl Rng {
    fn next(&mut self, n: u64) -> u64 {
        self.0 = self.0.wrapping_add(0x9e37_79b9_7f4a_7c15);
        let mut z = self.0;
        z = (z ^ (z >> 30)).wrapping_mul(0xbf58_476d_1ce4_e5b9);
        z = (z ^ (z >> 27)).wrapping_mul(0x94d0_49bb_1331_11eb);
        (z ^ (z >> 31)) % n
    }
}

/// A statement as the contract compiler emits them: it leaves the stacks as high as it found them (depth at least 8).
fn statement(rng: &mut Rng, out: &mut Vec<u8>, nesting: u32) {
    match rng.next(if nesting > 3 { 7 } else { 9 }) {
        // copy an argument or a state field by its depth, combine, check
        0 => {
            out.extend([0x51 + rng.next(6) as u8, 0x79, 0x51 + rng.next(6) as u8, 0x79]);
            out.push([0x93, 0x94, 0x95, 0x9f, 0xa0, 0x87][rng.next(6) as usize]);
            out.push(0x69);
        }
        // a hash or a key compared with a literal
        1 => {
            let n = [20usize, 32, 33][rng.next(3) as usize];
            out.extend([0x52, 0x79, if rng.next(2) == 0 { 0xa8 } else { 0xaa }, n as u8]);
            out.extend((0..n).map(|_| rng.next(256) as u8));
            out.push(0x88);
        }
        // a signature check
        2 => out.extend([0x53, 0x79, 0x53, 0x79, 0xac, 0x69]),
        // a field of the transaction compared with a number
        3 => {
            out.extend([0x00 + if rng.next(2) == 0 { 0x00 } else { 0x51 }, 0xbe + rng.next(6) as u8]);
            out.extend([0x02, rng.next(256) as u8, rng.next(127) as u8, 0xa2, 0x69]);
        }
        // a bounds check
        4 => out.extend([0x54, 0x79, 0x00, 0x02, rng.next(256) as u8, rng.next(127) as u8, 0xa5, 0x69]),
        // a state field renewed: roll it up, change it, put it back
        5 => out.extend([0x53, 0x7a, 0x8b, 0x7c, 0x7b, 0x75, 0x76]),
        // a value kept on alt meanwhile
        6 => out.extend([0x76, 0x6b, 0x51, 0x93, 0x6c, 0x87, 0x69, 0x76]),
        // a condition with both arms
        7 => {
            out.extend([0x52, 0x79, 0x63]);
            for _ in 0..1 + rng.next(3) {
                statement(rng, out, nesting + 1);
            }
            out.push(0x67);
            for _ in 0..1 + rng.next(3) {
                statement(rng, out, nesting + 1);
            }
            out.push(0x68);
        }
        // a dispatch on a tag, the last of which returns
        _ => {
            out.extend([0x76, 0x04]);
            out.extend((0..4).map(|_| rng.next(256) as u8));
            out.extend([0x87, 0x63]);
            for _ in 0..1 + rng.next(4) {
                statement(rng, out, nesting + 1);
            }
            out.extend([0x67, 0x6a, 0x68]);
        }
    }
}

fn corpus() -> Vec<Vec<u8>> {
    let mut rng = Rng(2026);
    (0..200)
        .map(|k| {
            let mut out = Vec::new();
            let long = 60 + 7 * k;
            while out.len() < long {
                statement(&mut rng, &mut out, 0);
            }
            out
        })
        .collect()
}

/// A paper of these bodies, each from 6 parameters and 6 state fields, with no initialiser.
fn paper(bodies: &[&[u8]]) -> Vec<u8> {
    let header = 8 + 6 * bodies.len();
    let mut out = Vec::new();
    let mut field = |n: usize| out.extend((n as u16).to_le_bytes());
    field(bodies.len());
    field(6);
    field(header);
    field(0);
    let mut at = header;
    for body in bodies {
        field(6);
        field(at);
        field(body.len());
        at += body.len();
    }
    for body in bodies {
        out.extend_from_slice(body);
    }
    out
}

/// The fragments of the corpus as papers of up to 8,000 bytes and 8 entries.
fn papers(fragments: &[Vec<u8>]) -> Vec<Vec<u8>> {
    let mut out = Vec::new();
    let mut bodies: Vec<&[u8]> = Vec::new();
    let mut size = 8;
    for f in fragments {
        if bodies.len() == 8 || size + 6 + f.len() > 8_000 {
            out.push(paper(&bodies));
            bodies.clear();
            size = 8;
        }
        bodies.push(f);
        size += 6 + f.len();
    }
    out.push(paper(&bodies));
    out
}

/// The best of five, seconds for one call.
fn time(times: u32, f: &mut dyn FnMut()) -> f64 {
    let mut best = f64::MAX;
    for _ in 0..5 {
        let start = Instant::now();
        for _ in 0..times {
            f();
        }
        best = best.min(start.elapsed().as_secs_f64() / f64::from(times));
    }
    best
}

/// A row of the table: both sides on the same inputs.
struct Row {
    name: String,
    bytes: usize,
    times: u32,
    ours: Box<dyn FnMut()>,
    theirs: Box<dyn FnMut()>,
}

fn fragments_row(name: &str, fragments: Vec<Vec<u8>>, main: u32, times: u32) -> Row {
    let mut log = vec![0u16; 30_000];
    for f in &fragments {
        let v = listochur::analyze(f, main, 0, &mut log);
        let r = reference::fragment(f, main, 0);
        assert_eq!((v.number, v.offset as u64, v.first, v.second), (r.number, r.offset, r.a, r.b), "{name}: {f:02x?}");
    }
    let copy = fragments.clone();
    Row {
        name: name.to_string(),
        bytes: fragments.iter().map(Vec::len).sum(),
        times,
        ours: Box::new(move || {
            for f in &fragments {
                black_box(listochur::analyze(black_box(f), main, 0, &mut log));
            }
        }),
        theirs: Box::new(move || {
            for f in &copy {
                black_box(reference::fragment(black_box(f), main, 0));
            }
        }),
    }
}

/// The corpus by a lent map: fragments with the items of their ends, in the built-in form and by the built-in map, and papers; and
/// the fragments by that map in examined mode, which answers the same: the corpus has no literal above 520 bytes.
fn map_rows(fragments: Vec<Vec<u8>>, times: u32) -> [Row; 4] {
    let bytes = fragments.iter().map(Vec::len).sum();
    let papers = papers(&fragments);
    let map = listochur::built_in_map();
    let mut log = vec![0u16; 30_000];
    for f in &fragments {
        let (v, end) = listochur::analyze_with(f, 12, 0, &map, listochur::Options::built_in(), &mut log);
        let (w, other) = listochur::analyze_items(f, 12, 0, &mut log);
        assert_eq!((v, end), (w, other), "{f:02x?}");
        let examined = listochur::Options::built_in().examined();
        assert_eq!(listochur::analyze_with(f, 12, 0, &map, examined, &mut log), (w, other), "{f:02x?}");
    }
    for p in &papers {
        let v = listochur::mark_paper_with(p, &map, listochur::Options::built_in(), &mut log);
        assert_eq!(v, listochur::mark_paper(p, &mut log));
    }
    let row = |name: &str, bytes: usize, ours: Box<dyn FnMut()>| Row {
        name: name.to_string(),
        bytes,
        times,
        ours,
        theirs: Box::new(|| ()),
    };
    let (first, second, third) = (fragments.clone(), fragments.clone(), fragments);
    let paper_bytes = papers.iter().map(Vec::len).sum();
    let (mut a, mut b, mut c, mut d) = (log.clone(), log.clone(), log.clone(), log);
    [
        row(
            "corpus with items",
            bytes,
            Box::new(move || {
                for f in &first {
                    black_box(listochur::analyze_items(black_box(f), 12, 0, &mut a));
                }
            }),
        ),
        row(
            "corpus with items, by the built-in map",
            bytes,
            Box::new(move || {
                for f in &second {
                    black_box(listochur::analyze_with(black_box(f), 12, 0, &map, listochur::Options::built_in(), &mut b));
                }
            }),
        ),
        row(
            "papers, by the built-in map",
            paper_bytes,
            Box::new(move || {
                for p in &papers {
                    black_box(listochur::mark_paper_with(black_box(p), &map, listochur::Options::built_in(), &mut c));
                }
            }),
        ),
        row(
            "corpus with items, by that map, examined",
            bytes,
            Box::new(move || {
                let examined = listochur::Options::built_in().examined();
                for f in &third {
                    black_box(listochur::analyze_with(black_box(f), 12, 0, &map, examined, &mut d));
                }
            }),
        ),
    ]
}

fn papers_row(name: &str, papers: Vec<Vec<u8>>, times: u32) -> Row {
    let mut log = vec![0u16; 30_000];
    for p in &papers {
        let v = listochur::mark_paper(p, &mut log);
        let r = reference::paper(p);
        assert_eq!(
            (v.number, v.entry as u64, v.offset as u64, v.first, v.second),
            (r.number, r.entry, r.offset, r.a, r.b),
            "{name}"
        );
    }
    let copy = papers.clone();
    Row {
        name: name.to_string(),
        bytes: papers.iter().map(Vec::len).sum(),
        times,
        ours: Box::new(move || {
            for p in &papers {
                black_box(listochur::mark_paper(black_box(p), &mut log));
            }
        }),
        theirs: Box::new(move || {
            for p in &copy {
                black_box(reference::paper_by_parts(black_box(p)));
            }
        }),
    }
}

/// Rows of assembling and of listing these fragments. The bytes are those of the fragments for both.
fn listing_rows(name: &str, fragments: Vec<Vec<u8>>, times: u32) -> [Row; 3] {
    let bytes = fragments.iter().map(Vec::len).sum();
    let names = Names::new();
    let listings: Vec<Vec<u8>> = fragments.iter().map(|f| names.list(f).expect("whole instructions")).collect();
    let longest = listings.iter().map(Vec::len).max().unwrap_or(0);
    let mut text = vec![0u8; longest];
    for (f, l) in fragments.iter().zip(&listings) {
        let c = listochur::list(f, &mut text);
        assert_eq!((c.number, &text[..c.size]), (0, &l[..]), "{name}");
        let c = listochur::assemble(l, &mut text);
        assert_eq!((c.number, Ok(text[..c.size].to_vec())), (0, names.assemble(l)), "{name}");
    }
    let mut fragment = vec![0u8; longest];
    let (copy, listings_copy, names_copy) = (fragments.clone(), listings.clone(), Names::new());
    let (own, theirs, array, mut other) = (fragments.clone(), fragments.clone(), Names::new(), text.clone());
    [
        Row {
            name: format!("assembling, {name}"),
            bytes,
            times,
            ours: Box::new(move || {
                for l in &listings {
                    black_box(listochur::assemble(black_box(l), &mut fragment));
                }
            }),
            theirs: Box::new(move || {
                for l in &listings_copy {
                    let _ = black_box(names.assemble(black_box(l)));
                }
            }),
        },
        Row {
            name: format!("listing, {name}"),
            bytes,
            times,
            ours: Box::new(move || {
                for f in &fragments {
                    black_box(listochur::list(black_box(f), &mut text));
                }
            }),
            theirs: Box::new(move || {
                for f in &copy {
                    let _ = black_box(names_copy.list(black_box(f)));
                }
            }),
        },
        Row {
            name: format!("listing, {name}, by array"),
            bytes,
            times,
            ours: Box::new(move || {
                for f in &own {
                    black_box(listochur::list(black_box(f), &mut other));
                }
            }),
            theirs: Box::new(move || {
                for f in &theirs {
                    let _ = black_box(array.list_by_array(black_box(f)));
                }
            }),
        },
    ]
}

/// Conditionals nested so deep, around pushes and drops, of about 9,000 bytes in all.
fn nested(depth: usize) -> Vec<u8> {
    let mut one = [0x51, 0x63].repeat(depth);
    one.extend([0x51, 0x75].repeat(20));
    one.extend([0x68].repeat(depth));
    one.repeat(9_000 / one.len())
}

fn rows() -> Vec<Row> {
    let corpus = corpus();
    let mut rows =
        vec![papers_row("papers of the corpus", papers(&corpus), 20), fragments_row("corpus, 200 fragments", corpus, 12, 20)];
    let streams: [(&str, Vec<u8>); 9] = [
        ("push 1, drop", [0x51, 0x75].repeat(4500)),
        ("DUP, drop", [0x76, 0x75].repeat(4500)),
        ("ROT", [0x7b].repeat(9000)),
        ("to alt, from alt", [0x6b, 0x6c].repeat(4500)),
        ("DUP, ADD", [0x76, 0x93].repeat(4500)),
        ("3 PICK, drop", [0x53, 0x79, 0x75].repeat(3000)),
        ("3 ROLL", [0x53, 0x7a].repeat(4500)),
        ("IF ELSE ENDIF, flat", [0x51, 0x63, 0x51, 0x67, 0x52, 0x68, 0x75].repeat(1285)),
        ("pushes of 20 bytes, drop", {
            let mut p = vec![0x14];
            p.extend([7u8; 20]);
            p.push(0x75);
            p.repeat(400)
        }),
    ];
    for (name, stream) in streams {
        rows.push(fragments_row(name, vec![stream], 100, 40));
    }
    let mut exact = vec![0x51; 200];
    exact.extend(nested(24));
    rows.push(fragments_row("nesting 24, 200 exact items", vec![exact], 0, 40));
    for depth in [1, 4, 12, 24] {
        rows.push(fragments_row(&format!("nesting {depth}, 100 items"), vec![nested(depth)], 100, 40));
    }
    for size in [1_000, 2_500, 5_000, 10_000] {
        let mut rng = Rng(7);
        let mut f = Vec::new();
        while f.len() < size {
            let before = f.len();
            statement(&mut rng, &mut f, 0);
            if f.len() > size {
                f.truncate(before);
                f.extend(std::iter::repeat_n(0x61, size - before));
            }
        }
        rows.push(fragments_row(&format!("statements, {size} bytes"), vec![f], 12, 40));
    }
    rows.extend(listing_rows("corpus", self::corpus(), 20));
    let mut rng = Rng(7);
    let mut statements = Vec::new();
    while statements.len() < 1_100_000 {
        statement(&mut rng, &mut statements, 0);
    }
    for (size, times) in [(20, 10_000), (10_000, 40), (100_000, 10), (1_000_000, 3)] {
        rows.extend(listing_rows(&format!("{size} bytes"), vec![whole(&statements, size)], times));
    }
    rows.extend(listing_rows(
        "one push of 1,000,000",
        vec![[&[0x4e, 0x40, 0x42, 0x0f, 0x00][..], &[0xa5; 1_000_000]].concat()],
        3,
    ));
    rows.extend(map_rows(self::corpus(), 20));
    rows
}

/// The instructions at the front that fit into so many bytes, and 61 for what is left.
fn whole(code: &[u8], size: usize) -> Vec<u8> {
    let mut at = 0;
    while at + 1 + usize::from(code[at]) * usize::from(code[at] < 0x4c) <= size {
        at += 1 + usize::from(code[at]) * usize::from(code[at] < 0x4c);
        if at >= code.len() {
            break;
        }
    }
    let mut out = code[..at].to_vec();
    out.resize(size, 0x61);
    out
}

fn main() {
    let word = std::env::args().nth(1);
    let listings = word.as_deref() == Some("listings");
    let only: Option<usize> = word.filter(|_| !listings).map(|k| k.parse().expect("the number of a row, from 0"));
    let theirs = std::env::args().nth(2).is_some();
    for (k, mut row) in rows().into_iter().enumerate() {
        if listings && !row.name.contains("listing") && !row.name.contains("assembling") {
            continue;
        }
        let per_byte = 1e9 / row.bytes as f64;
        match only {
            None => {
                let a = time(row.times, &mut row.ours) * per_byte;
                let b = time(row.times, &mut row.theirs) * per_byte;
                println!(
                    "{k:2} {:<42} {:>7} bytes   ours {a:7.1} ns/byte   Rust {b:7.1} ns/byte   ratio {:.2}",
                    row.name,
                    row.bytes,
                    a / b
                );
            }
            Some(only) if only == k => {
                let side = if theirs { &mut row.theirs } else { &mut row.ours };
                for _ in 0..10 {
                    side();
                }
                println!("{} bytes, 10 times", row.bytes);
            }
            Some(_) => {}
        }
    }
}
