//! Makes the fixed list: `list/cases.txt` and `list/answers.txt`.
//!
//! `fixed_list` writes both files, `fixed_list --check` compares them with what it
//! would write, `fixed_list --plain` prints the cases without the repeat form. Each
//! prints how often every verdict number occurs and fails if a number is too rare.

use std::collections::{BTreeMap, BTreeSet};
use std::fs;
use std::path::PathBuf;
use std::process::ExitCode;

use reference::{Tally, as_message};
use tools::case::Case;
use tools::generate::{Draft, Kind, case, mutate};
use tools::model::{LENGTHS, Writer};
use tools::rng::Rng;

/// Every verdict number that the Rust, a paper's header or a tally can give occurs this often, 24 and 25 as 9, the Rust's one
/// message for the three.
const AT_LEAST: usize = 30;
const WANTED: [(&str, &[u32]); 5] = [
    ("fragment", &[0, 2, 3, 6, 7, 8, 9, 10, 11, 12, 13, 14, 15, 16]),
    ("limits", &[0, 3, 17, 18]),
    // No 2: after the dispatch check no start of a paper is too large.
    ("paper", &[0, 3, 6, 7, 8, 9, 10, 11, 12, 13, 14, 15, 16, 19, 20, 21]),
    // A display has no number, and counts as 0.
    ("display", &[0]),
    ("tally", &[0, 22]),
];

/// `cases.txt` stays below this many bytes.
const MOST_BYTES: usize = 700_000;

/// No case has more bytes than this.
const LONGEST: usize = 20_000;

fn main() -> ExitCode {
    let arguments: Vec<String> = std::env::args().skip(1).collect();
    let mode = match arguments.iter().map(String::as_str).collect::<Vec<_>>()[..] {
        [] => "write",
        [mode @ ("--check" | "--plain")] => mode,
        _ => {
            eprintln!("usage: fixed_list [--check | --plain]");
            return ExitCode::from(2);
        }
    };
    let list = List::make();
    let result = match mode {
        "--plain" => {
            for case in &list.cases {
                println!("{}", case.plain());
            }
            Ok(())
        }
        _ => list.examine().and_then(|()| if mode == "write" { list.write() } else { list.check() }),
    };
    match result {
        Ok(()) => ExitCode::SUCCESS,
        Err(message) => {
            eprintln!("{message}");
            ExitCode::from(1)
        }
    }
}

/// An accepted fragment of this length: steps of all kinds, then NOPs.
fn long_body(seed: u64, main: usize, alt: usize, size: usize) -> Vec<u8> {
    let mut rng = Rng::new(seed);
    let mut writer = Writer::new(&mut rng, main, alt).aim(20);
    while writer.length() < size - 1_500 {
        writer.steps(15);
    }
    let mut bytes = writer.finish();
    assert!(bytes.len() <= size, "the steps take {} bytes", bytes.len());
    bytes.resize(size, 0x61);
    bytes
}

#[derive(Default)]
struct List {
    cases: Vec<Case>,
    answers: Vec<String>,
    seen: BTreeSet<String>,
    counts: BTreeMap<(&'static str, u32), usize>,
}

impl List {
    fn make() -> Self {
        let mut list = Self::default();
        list.marked();
        list.every_opcode();
        list.pushes();
        list.indexes();
        list.nests();
        list.heights();
        list.long();
        list.limit_checks();
        list.papers();
        list.generated();
        list.displays();
        list.tallies();
        list
    }

    /// Adds a case unless it is there already.
    fn add(&mut self, case: Case) {
        let (number, answer) = case.told_apart();
        let number = number.unwrap_or_else(|| panic!("outside the shared limits: {case}"));
        if self.seen.insert(case.to_string()) {
            self.answers.push(answer);
            *self.counts.entry((case.word(), number)).or_default() += 1;
            self.cases.push(case);
        }
    }

    fn fragment(&mut self, main: u32, alt: u32, bytes: impl Into<Vec<u8>>) {
        self.add(Case::Fragment { main, alt, bytes: bytes.into() });
    }

    fn limits(&mut self, bytes: impl Into<Vec<u8>>) {
        self.add(Case::Limits { bytes: bytes.into() });
    }

    fn paper(&mut self, bytes: impl Into<Vec<u8>>) {
        self.add(Case::Paper { bytes: bytes.into() });
    }

    fn display(&mut self, body: &[u8], init: &[u8], offset: u32, mark: u32) {
        self.add(Case::Display { body: body.to_vec(), init: init.to_vec(), offset, mark });
    }

    /// A tally of these four counters, and a verdict of this number, rows and peak.
    fn tally(&mut self, [fragments, accepted, rows, peak]: [u32; 4], verdict: [u32; 3]) {
        let tally = Tally { fragments, accepted, rows, peak };
        self.add(Case::Tally { tally, number: verdict[0], rows: verdict[1], peak: verdict[2] });
    }

    /// The examples of the documents.
    fn marked(&mut self) {
        // Document 01, section 8; its paper with 25 times 63 is outside.
        let open = |times: usize| [vec![0x6a], vec![0x63; times]].concat();
        self.fragment(0, 0, []);
        self.fragment(0, 0, *b"\x75");
        self.fragment(1, 0, *b"\x00\x79");
        self.fragment(1, 0, *b"\x51\x79");
        self.fragment(1, 0, *b"\x02\x00\x01\x79");
        self.fragment(244, 0, *b"\x76");
        self.fragment(244, 0, *b"\x6b");
        self.fragment(1, 243, *b"\x7d");
        self.fragment(1, 0, *b"\x63\x51\x68");
        self.fragment(2, 0, *b"\x63\x6a\x68\x75");
        self.fragment(0, 0, *b"\x6a\xff");
        self.fragment(0, 0, *b"\x51\x63");
        self.fragment(2, 0, *b"\x51\x63\x51\x67\x52\x68\x79");
        self.fragment(2, 0, *b"\x51\x63\x51\x67\x51\x68\x79");
        self.fragment(0, 0, open(24));
        // Section 6.
        self.paper(*b"\x01\x00\x01\x00\x0e\x00\x00\x00\x01\x00\x0e\x00\x06\x00\x63\x51\x67\x52\x68\x75");
        // Design notes, section 7.
        self.fragment(1, 0, *b"\x63\x6a\x68");
        self.fragment(1, 0, *b"\x63\x6a\x67\x68");
        self.fragment(1, 0, *b"\x6a");
        self.fragment(1, 0, *b"\x08\xff\xff\xff\xff\xff\xff\xff\x7f\x79");
        self.fragment(33, 0, *b"\x74\xa6");
        self.fragment(3, 0, *b"\x51\x63\x51\x67\x52\x68\x79");
        // An empty part at the paper's end, one in the header, one past the end.
        for offset in [14, 20, 13, 21] {
            let mut bytes = b"\x01\x00\x01\x00\x0e\x00\x00\x00\x01\x00\x0e\x00\x06\x00\x63\x51\x67\x52\x68\x75".to_vec();
            bytes[4] = offset;
            self.paper(bytes);
        }
    }

    /// Every code: what it needs, and what it leaves, told by drops that run dry.
    fn every_opcode(&mut self) {
        for code in 0..=255u8 {
            let data = if (0x01..=0x4b).contains(&code) { code as usize } else { 0 };
            let mut bytes = vec![code];
            bytes.extend(vec![0; data]);
            if (0x4c..=0x4e).contains(&code) {
                bytes.extend(vec![0; 1 << (code - 0x4c)]);
            }
            let leaves = [bytes.clone(), vec![0x75; 11]].concat();
            let unmodelled = reference::fragment(&leaves, 8, 1).number == 11;
            self.fragment(8, 1, leaves);
            if unmodelled {
                self.fragment(0, 0, [0x6a, code]);
            } else if code <= 0x60 {
                // One byte of it missing.
                if bytes.len() > 1 && code % 5 == 0 {
                    self.fragment(0, 0, &bytes[..bytes.len() - 1]);
                }
            } else {
                for main in 0..=3 {
                    self.fragment(main, 0, &bytes[..]);
                }
                self.fragment(244, 0, &bytes[..]);
            }
        }
        // The opcodes that need more than three.
        for main in 3..=6 {
            for code in [0x70, 0x71, 0x72] {
                self.fragment(main, 0, [code]);
            }
        }
    }

    /// Each length that matters in each form that holds it: is it exact?
    fn pushes(&mut self) {
        for length in LENGTHS {
            let data = vec![0x11; length];
            let forms = [
                (length <= 75).then(|| vec![length as u8]),
                (length < 256).then(|| vec![0x4c, length as u8]),
                Some([vec![0x4d], (length as u16).to_le_bytes().to_vec()].concat()),
                Some([vec![0x4e], (length as u32).to_le_bytes().to_vec()].concat()),
            ];
            for prefix in forms.into_iter().flatten() {
                let push = [&prefix[..], &data].concat();
                // SIZE is exact, and then an index, only for an exact item.
                self.fragment(9, 0, [&push[..], &[0x82, 0x79]].concat());
                self.fragment(244, 0, push.clone());
                if push.len() > 1 {
                    self.fragment(1, 0, &push[..push.len() - 1]);
                }
                if prefix.len() > 1 {
                    self.fragment(1, 0, &prefix[..prefix.len() - 1]);
                }
            }
        }
    }

    /// Indexes, counts and tags, good and bad.
    fn indexes(&mut self) {
        let forms: [&[u8]; 26] = [
            b"",
            b"\x00",
            b"\x01",
            b"\x02",
            b"\x03",
            b"\x04",
            b"\x7f",
            b"\x80",
            b"\x81",
            b"\xff",
            b"\x00\x00",
            b"\x00\x80",
            b"\x01\x00",
            b"\x03\x80",
            b"\x80\x00",
            b"\x80\x80",
            b"\xff\x00",
            b"\x00\x01",
            b"\x00\x01\x00",
            b"\x00\x00\x80\x00",
            b"\x01\0\0\0\0\0\0\0",
            b"\0\0\0\0\0\0\0\x80",
            b"\0\0\0\0\0\0\0\x01",
            b"\xff\xff\xff\xff\xff\xff\xff\x7f",
            b"\xff\xff\xff\xff\xff\xff\xff\xff",
            b"\x02\0\0\0\0\0\0\0\0",
        ];
        for form in forms {
            let push = [&[form.len() as u8], form].concat();
            self.fragment(4, 0, [&push[..], &[0x79]].concat());
            self.fragment(4, 0, [&push[..], &[0x7a]].concat());
            // A count of ZK, and a tag.
            self.fragment(3, 0, [&push[..], &[0x51, 0x52, 0x01, 0x20, 0xa6]].concat());
            self.fragment(9, 0, [&push[..], &[0xa6]].concat());
        }
        for byte in 0x1e..=0x23 {
            self.fragment(8, 0, [0x01, byte, 0xa6]);
            self.fragment(7, 0, [0x01, byte, 0xa6]);
            self.fragment(byte.into(), 0, *b"\x74\xa6");
        }
        for main in 0..=9 {
            self.fragment(main, 0, *b"\x01\x20\xa6");
            self.fragment(main, 0, *b"\x01\x21\xa6");
            self.fragment(main, 0, *b"\x01\x21\xa6\x79");
            self.fragment(main, 0, *b"\x52\x51\x51\x01\x20\xa6");
        }
    }

    /// Conditionals 22, 23 and 24 deep, live and dead, closed and left open.
    fn nests(&mut self) {
        for levels in [22, 23, 24] {
            let ifs = vec![0x63; levels];
            let ends = vec![0x68; levels];
            let elses: Vec<u8> = [0x67, 0x68].repeat(levels);
            let main = levels as u32;
            for (main, before) in [(main, &b""[..]), (0, b"\x6a"), (main - 1, b""), (main + 1, b"")] {
                self.fragment(main, 0, [before, &ifs, &ends].concat());
                self.fragment(main, 0, [before, &ifs, &elses].concat());
                self.fragment(main, 0, [before, &ifs, &ends[1..]].concat());
                self.fragment(main, 0, [before, &ifs].concat());
                self.fragment(main, 0, [before, &ifs, &ends, &[0x75]].concat());
                self.fragment(main, 0, [before, &ifs, &[0x6a], &ends, &[0x75]].concat());
                self.fragment(main, 0, [before, &ifs, &[0x51], &ends].concat());
                self.fragment(main, 0, [before, &ifs, &ends, &[0x68]].concat());
                self.fragment(main, 0, [before, &ifs, &[0x67, 0x67]].concat());
                // Closed and opened again, never more than 24 at once.
                self.fragment(main, 0, [before, &ifs, &[0x68, 0x00, 0x63], &ends].concat());
            }
        }
        for seed in 0..30 {
            let mut rng = Rng::new(seed);
            let main = rng.below(4);
            let mut writer = Writer::new(&mut rng, main, 0).deepest(0);
            writer.nest(if seed % 2 == 0 { 24 } else { 23 });
            let bytes = writer.finish();
            self.fragment(main as u32, 0, bytes);
        }
    }

    /// Totals of 242 to 246, at the start and on the way.
    fn heights(&mut self) {
        let growing: [&[u8]; 16] = [
            b"\x00",
            b"\x51",
            b"\x01\x05",
            b"\x76",
            b"\x6e",
            b"\x6f",
            b"\x78",
            b"\x70",
            b"\x74",
            b"\x82",
            b"\x7d",
            b"\xb2",
            b"\x61",
            b"\x6b\x6c",
            b"\x51\x79",
            b"\x51\x7a",
        ];
        for total in 241..=245u32 {
            for bytes in growing {
                self.fragment(total, 0, bytes);
                self.fragment(4, total - 4, bytes);
            }
        }
        for (main, alt) in
            [(0, 244), (0, 245), (1, 244), (245, 0), (122, 122), (u32::MAX, u32::MAX), (0, u32::MAX), (u32::MAX, 0)]
        {
            self.fragment(main, alt, []);
            self.fragment(main, alt, *b"\x6c");
            self.fragment(main, alt, *b"\x4c");
        }
    }

    /// Fragments of 9,999 and 10,000 bytes.
    fn long(&mut self) {
        for size in [9_999, 10_000] {
            self.fragment(0, 0, vec![0x61; size]);
            self.fragment(1, 0, [vec![0x63; 1], vec![0x61; size - 1]].concat());
            self.fragment(3, 0, [vec![0x6a], vec![0xff; size - 1]].concat());
            self.fragment(200, 0, vec![0x51; size]);
            let length = (size as u16 - 3).to_le_bytes();
            self.fragment(0, 0, [vec![0x4d], length.to_vec(), vec![0x07; size - 3]].concat());
            self.fragment(0, 0, [vec![0x4d], length.to_vec(), vec![0x07; size - 4]].concat());
        }
        // Steps of all kinds, the last byte refused in one of them.
        self.fragment(6, 1, long_body(1, 6, 1, 10_000));
        self.fragment(6, 1, [long_body(2, 6, 1, 9_999), vec![0x68]].concat());
    }

    fn limit_checks(&mut self) {
        for count in [0, 1, 200, 201, 202, 250] {
            for code in [0x61, 0x63, 0xff] {
                self.limits(vec![code; count]);
                self.limits([vec![code; count], vec![0x60, 0x00, 0x50]].concat());
                // Malformed comes before the count.
                self.limits([vec![code; count], vec![0x4c]].concat());
                // The count comes before the size.
                self.limits([vec![code; count], vec![0x51; 10_001 - count]].concat());
            }
        }
        for size in [9_998, 9_999, 10_000, 10_001, 10_002, 10_500, 20_000] {
            for code in [0x00, 0x50, 0x60] {
                self.limits(vec![code; size]);
            }
            let length = (size as u16 - 3).to_le_bytes();
            self.limits([vec![0x4d], length.to_vec(), vec![0x61; size - 3]].concat());
            self.limits([vec![0x4d], length.to_vec(), vec![0x61; size - 4]].concat());
        }
    }

    /// Papers at the edges of the header and of the dispatch check.
    fn papers(&mut self) {
        let one = |params: usize, state_fields: usize, body: &[u8], initialiser: &[u8]| {
            Draft { state_fields, entries: vec![(params, body.to_vec())], initialiser: initialiser.to_vec() }.pack()
        };
        for sum in 240..=243 {
            self.paper(one(sum, 0, b"", b""));
            self.paper(one(0, sum, b"\x76\x76", b"\x51"));
            self.paper(one(sum - 100, 100, b"\x76\x76\x76\x76", b""));
        }
        self.paper(one(65_535, 65_535, b"", b""));
        // A body starts from parameters and state, the initialiser from parameters
        // of the entry with most and one on alt.
        for body in [&b"\x75\x75\x75"[..], b"\x75\x75\x75\x75", b"\x6c", b"\x53\x79", b"\x52\x79"] {
            self.paper(one(2, 1, body, b""));
            self.paper(one(3, 1, b"", body));
            for params in [[1, 3, 2], [3, 1, 2], [1, 2, 3], [2, 2, 2]] {
                let entries = params.map(|params| (params, vec![0x61])).to_vec();
                self.paper(Draft { state_fields: 1, entries, initialiser: body.to_vec() }.pack());
            }
        }
        for count in [0, 1, 2, 31, 32, 33, 34] {
            let entries = (0..count).map(|k| (k, vec![0x51; k % 3])).collect();
            let draft = Draft { state_fields: 2, entries, initialiser: b"\x6c\x75".to_vec() };
            let bytes = draft.pack();
            self.paper(&bytes[..bytes.len() - 1]);
            self.paper(bytes);
        }
        // The order: 20 of every entry comes before any body, bodies before the initialiser.
        for bad in 0..3 {
            let mut entries: Vec<(usize, Vec<u8>)> = vec![(1, vec![0xff]), (2, vec![0x4c]), (3, vec![0x68])];
            entries[bad].0 = 244;
            self.paper(Draft { state_fields: 0, entries: entries.clone(), initialiser: vec![0x67] }.pack());
            for entry in &mut entries[..=bad] {
                entry.1 = vec![0x61];
            }
            entries[bad].0 = 4;
            self.paper(Draft { state_fields: 0, entries, initialiser: vec![0x67] }.pack());
        }
        let whole = one(1, 1, b"\x63\x51\x67\x52\x68\x75", b"\x51");
        for length in 0..whole.len() {
            self.paper(&whole[..length]);
        }
        for size in [7_999, 8_000, 8_001, 8_002, 9_000, 10_001, 20_000] {
            for filler in [0x00, 0x61, 0xff] {
                self.paper(vec![filler; size]);
                let mut bytes = whole.clone();
                bytes.resize(size, filler);
                self.paper(bytes);
                if size <= 8_000 {
                    self.paper(one(1, 0, &vec![filler; size - 14], b""));
                }
            }
        }
        // One that fills its 8,000 bytes with steps of all kinds.
        self.paper(one(2, 1, &long_body(3, 3, 0, 8_000 - 14), b""));
    }

    /// Generated cases, so many of each verdict number.
    fn generated(&mut self) {
        let quotas = [
            (Kind::Fragment, "fragment", 320, 32, 700),
            (Kind::Limits, "limits", 20, 20, 900),
            (Kind::Paper, "paper", 140, 32, 500),
        ];
        for (kind, word, accepted, refused, most_digits) in quotas {
            let numbers = WANTED.iter().find(|(wanted, _)| *wanted == word).expect("a kind of case").1;
            let mut open: BTreeMap<u32, usize> =
                numbers.iter().map(|&number| (number, if number == 0 { accepted } else { refused })).collect();
            let mut rng = Rng::new(2_026);
            while open.values().any(|left| *left > 0) {
                let case = case(&mut rng, kind);
                let (Some(number), _) = case.answer() else {
                    continue;
                };
                let text = case.to_string();
                let left = open.get_mut(&number).expect("a number that was listed");
                // Short refusals teach little once there are some.
                let too_short = text.len() < 40 && !left.is_multiple_of(3);
                if *left > 0 && text.len() < most_digits && !too_short && !self.seen.contains(&text) {
                    *left -= 1;
                    self.add(case);
                }
            }
        }
        // Fragments of the list, changed at random.
        let mut rng = Rng::new(2_027);
        let fragments: Vec<Case> = self.cases.iter().filter(|case| case.size() > 12).cloned().collect();
        let mut left = 120;
        while left > 0 {
            let Case::Fragment { main, alt, mut bytes } = fragments[rng.below(fragments.len())].clone() else {
                continue;
            };
            mutate(&mut rng, &mut bytes);
            let case = Case::Fragment { main, alt, bytes };
            let text = case.to_string();
            if text.len() < 500 && case.answer().0.is_some() && !self.seen.contains(&text) {
                left -= 1;
                self.add(case);
            }
        }
    }

    /// Displays: at each offset, of malformed tails, by each mark.
    fn displays(&mut self) {
        const MOST: u32 = u32::MAX;
        // A push of each form between other instructions, by either mark.
        let body = b"\x51\x02\xaa\x4c\x4c\x03\x01\x02\x03\x4d\x02\x00\x09\x4d\x4e\x01\x00\x00\x00\x07\x75";
        let init = b"\x6c\x00\x4c\x00\x7b";
        for offset in (0..=body.len() as u32 + 1).chain([MOST]) {
            self.display(body, init, offset, 0);
        }
        for offset in (0..=init.len() as u32 + 1).chain([20, MOST]) {
            self.display(body, init, offset, 1);
        }
        for offset in [0, 1, 21, MOST] {
            self.display(body, init, offset, 2);
            self.display(body, init, offset, MOST);
        }
        // Empty parts.
        for offset in [0, 1] {
            for mark in [0, 1, 2] {
                self.display(b"", b"", offset, mark);
            }
            self.display(b"", b"\x75", offset, 0);
            self.display(b"\x75", b"", offset, 1);
        }
        // Length or data bytes missing, behind an instruction that is whole.
        let malformed: [&[u8]; 11] = [
            b"\x01",
            b"\x03\x61\x62",
            b"\x4b\x4c",
            b"\x4c",
            b"\x4c\x02\x07",
            b"\x4d",
            b"\x4d\x00",
            b"\x4d\x00\x01\x07",
            b"\x4e\x00\x00\x00",
            b"\x4e\x01\x00\x00\x00",
            b"\x4e\xff\xff\xff\xff\x75",
        ];
        for (k, tail) in malformed.into_iter().enumerate() {
            let fragment = [b"\x52", tail].concat();
            let mark = k as u32 % 2;
            for offset in 0..3 {
                let (body, init) = if mark == 0 { (&fragment[..], &init[..]) } else { (&init[..], &fragment[..]) };
                self.display(body, init, offset, mark);
            }
        }
        // Long parts, with and without a tail in the repeat form.
        let long = |size: u16, byte: u8| [vec![0x4d], size.to_le_bytes().to_vec(), vec![byte; size as usize]].concat();
        for (size, byte) in [(99, 0x07), (100, 0x07), (9_997, 0x61)] {
            let push = long(size, byte);
            self.display(&push, b"\x75", 0, 0);
            self.display(b"\x75", &push[..push.len() - 1], 0, 1);
            self.display(&push, &push, 3, 0);
        }
        let mixed: Vec<u8> = [vec![0x4c, 200], (0..200).collect(), vec![0x75]].concat();
        self.display(&mixed, b"", 0, 0);
        self.display(&mixed, b"", 2, 0);
        self.display(&mixed, &mixed[..201], 0, 1);
        self.some_generated(Kind::Display, 20, 0);
    }

    /// Tallies: each sum at 4,294,967,295 and one over it, alone and with the others; the peak is a maximum.
    fn tallies(&mut self) {
        const MOST: u32 = u32::MAX;
        for verdict in [[0, 0, 0], [0, 6, 2], [7, 1, 0], [3, 0, 0], [22, 0, 0], [MOST, 1, 1], [0, 10_000, 244]] {
            self.tally([0; 4], verdict);
            self.tally([5, 3, 40, 12], verdict);
        }
        // Fragments and accepted ones.
        for number in [0, 7] {
            for counter in [MOST - 2, MOST - 1, MOST] {
                self.tally([counter, 0, 0, 0], [number, 1, 1]);
                self.tally([0, counter, 0, 0], [number, 1, 1]);
                self.tally([counter, counter, 0, 0], [number, 1, 1]);
            }
        }
        // Rows.
        let half = 1 << 31;
        for (had, more) in [(MOST, 0), (MOST, 1), (MOST - 1, 1), (MOST - 1, 2), (0, MOST), (1, MOST), (MOST, MOST)] {
            self.tally([1, 1, had, 0], [0, more, 1]);
            self.tally([1, 1, had, 9], [16, more, 1]);
        }
        for (had, more) in [(half, half - 1), (half, half), (half - 1, half), (4_294_957_296, 10_000), (4_294_957_295, 10_000)] {
            self.tally([9, 2, had, 244], [0, more, 3]);
        }
        // The peak: never a sum, and unchanged with the rest on 22.
        for (had, peak) in [(0, 0), (3, 5), (5, 3), (5, 5), (244, 0), (0, 244), (MOST, 1), (1, MOST), (MOST, MOST)] {
            self.tally([1, 0, 2, had], [0, 3, peak]);
            self.tally([MOST, 0, 2, had], [0, 3, peak]);
        }
        // All of them at once, each at its edge or one over.
        for number in [0, 12] {
            for over in 0..8 {
                let counter = |k: u32, add: u32| MOST - add + (over >> k & 1);
                self.tally([counter(0, 1), counter(1, 1), counter(2, 4), 7], [number, 4, 9]);
            }
        }
        self.some_generated(Kind::Tally, 10, 0);
        self.some_generated(Kind::Tally, 10, 22);
    }

    /// So many generated cases of this kind and number.
    fn some_generated(&mut self, kind: Kind, count: usize, wanted: u32) {
        let mut rng = Rng::new(2_028);
        let mut left = count;
        while left > 0 {
            let case = case(&mut rng, kind);
            let text = case.to_string();
            if case.answer().0 == Some(wanted) && text.len() < 500 && !self.seen.contains(&text) {
                left -= 1;
                self.add(case);
            }
        }
    }

    /// How often the numbers occur that count as this one of the Rust's messages.
    fn count(&self, word: &str, number: u32) -> usize {
        let same = |given: u32| as_message(given.into()) == number.into();
        self.counts.iter().filter(|((w, given), _)| *w == word && same(*given)).map(|(_, count)| count).sum()
    }

    /// Prints the counts and says what is wrong with them.
    fn examine(&self) -> Result<(), String> {
        let size = self.text().len();
        println!("{} cases, {size} bytes", self.cases.len());
        for (word, numbers) in WANTED {
            let line: Vec<String> = numbers.iter().map(|&number| format!("{number}: {}", self.count(word, number))).collect();
            println!("{word}  {}", line.join(", "));
            if numbers.contains(&9) {
                let [unknown, crooked, negative] = [9, 24, 25].map(|number| self.counts.get(&(word, number)).unwrap_or(&0));
                println!("  of the Rust's one message  9: {unknown}, 24: {crooked}, 25: {negative}");
            }
        }
        for (word, numbers) in WANTED {
            for &number in numbers {
                let count = self.count(word, number);
                if count < AT_LEAST {
                    return Err(format!("{word} {number} occurs {count} times, not {AT_LEAST}"));
                }
            }
        }
        let listed = |word: &str, number: u32| {
            WANTED.iter().any(|(w, n)| *w == word && n.iter().any(|&n| u64::from(n) == as_message(number.into())))
        };
        let unlisted = self.counts.keys().find(|(word, number)| !listed(word, *number));
        if let Some((word, number)) = unlisted {
            return Err(format!("{word} {number} is not a number that was thought possible"));
        }
        let longest = self.cases.iter().map(|case| case.size()).max().unwrap_or(0);
        if longest > LONGEST {
            return Err(format!("a case has {longest} bytes, over {LONGEST}"));
        }
        if size >= MOST_BYTES {
            return Err(format!("cases.txt would have {size} bytes, not below {MOST_BYTES}"));
        }
        Ok(())
    }

    fn text(&self) -> String {
        self.cases.iter().map(|case| format!("{case}\n")).collect()
    }

    /// The two files: name and content.
    fn files(&self) -> [(PathBuf, String); 2] {
        let folder = PathBuf::from(env!("CARGO_MANIFEST_DIR")).join("../list");
        let answers = self.answers.iter().map(|answer| format!("{answer}\n")).collect();
        [(folder.join("cases.txt"), self.text()), (folder.join("answers.txt"), answers)]
    }

    fn write(&self) -> Result<(), String> {
        for (path, content) in self.files() {
            fs::write(&path, content).map_err(|error| format!("{}: {error}", path.display()))?;
        }
        Ok(())
    }

    /// The committed files are what would be written.
    fn check(&self) -> Result<(), String> {
        for (path, content) in self.files() {
            let there = fs::read_to_string(&path).map_err(|error| format!("{}: {error}", path.display()))?;
            if there != content {
                let same = there.lines().zip(content.lines()).take_while(|(a, b)| a == b).count();
                return Err(format!("{}: not reproduced from line {}", path.display(), same + 1));
            }
        }
        println!("the list is reproduced");
        Ok(())
    }
}
