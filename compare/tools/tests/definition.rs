//! Document 01 once more, the plain reading of `definition.rs`, held against the
//! Rust: on every small fragment and on generated cases.

use reference::{Answer, as_message};
use tools::case::Case;
use tools::definition::{self, limit_check};
use tools::generate::{Kind, case};
use tools::rng::Rng;

/// Number, offset and figures, with a log long enough.
fn analysis(bytes: &[u8], main: u32, alt: u32) -> Answer {
    definition::analysis(bytes, main, alt, &mut vec![0; 3 * bytes.len()]).answer
}

// The display and the tally.

fn shown(body: &[u8], init: &[u8], offset: usize, mark: u32) -> Vec<u8> {
    let fragment = [body, init, &[]][mark.min(2) as usize];
    if offset >= fragment.len() {
        return Vec::new();
    }
    // The instruction is the shortest part that decodes.
    let rest = &fragment[offset..];
    let ends = (1..=rest.len()).find(|end| definition::decode(&rest[..*end]).is_ok());
    rest[..ends.unwrap_or(rest.len())].to_vec()
}

/// Four counters and a verdict's number, rows and peak: the answer and the counters.
fn tallied(t: [u32; 4], number: u32, rows: u32, peak: u32) -> [u64; 5] {
    let [fragments, accepted, had, greatest] = t.map(u64::from);
    let sums = [fragments + 1, accepted + if number == 0 { 1 } else { 0 }, had + u64::from(rows)];
    if sums.iter().any(|sum| *sum > 4_294_967_295) {
        return [22, fragments, accepted, had, greatest];
    }
    [0, sums[0], sums[1], sums[2], greatest.max(peak.into())]
}

// The comparison.

/// The line by document 01; outside the shared limits as the driver has it.
fn by_definition(case: &Case) -> String {
    match case {
        Case::Fragment { main, alt, bytes } => {
            let r = analysis(bytes, *main, *alt);
            if matches!(r.number, 1 | 5) {
                return "fragment outside".into();
            }
            format!("fragment {} {} {} {}", r.number, r.offset, r.a, r.b)
        }
        Case::Limits { bytes } => {
            let r = limit_check(bytes);
            format!("limits {} {} {} {}", r.number, r.offset, r.a, r.b)
        }
        Case::Paper { bytes } => {
            let r = definition::mark(bytes, &mut [0; 24_000]).answer;
            if r.number == 5 {
                return "paper outside".into();
            }
            format!("paper {} {} {} {} {}", r.number, r.entry, r.offset, r.a, r.b)
        }
        Case::Display { body, init, offset, mark } => {
            let bytes = shown(body, init, *offset as usize, *mark);
            // The same bytes in the form of a case.
            let line = Case::Limits { bytes }.to_string();
            format!("display {}", line.trim_start_matches("limits "))
        }
        Case::Tally { tally: t, number, rows, peak } => {
            let r = tallied([t.fragments, t.accepted, t.rows, t.peak], *number, *rows, *peak);
            format!("tally {} {} {} {} {}", r[0], r[1], r[2], r[3], r[4])
        }
    }
}

fn generated(seed: u64, count: usize, kind: Kind) {
    let mut rng = Rng::new(seed);
    for _ in 0..count {
        let case = case(&mut rng, kind);
        assert_eq!(by_definition(&case), case.told_apart().1, "{case}");
    }
}

/// Every fragment of this length over the codes, from each of the starts.
fn every(codes: &[u8], length: u32, starts: &[(u32, u32)]) {
    let mut bytes = vec![0; length as usize];
    for number in 0..codes.len().pow(length) {
        let mut rest = number;
        for byte in &mut bytes {
            *byte = codes[rest % codes.len()];
            rest /= codes.len();
        }
        for &(main, alt) in starts {
            let (mut wanted, got) = (analysis(&bytes, main, alt), reference::fragment(&bytes, main, alt));
            // One message of the Rust.
            wanted.number = as_message(wanted.number.into()) as u32;
            assert_eq!(wanted, got, "{main} {alt} {bytes:02x?}");
        }
    }
}

const STARTS: [(u32, u32); 10] = [(0, 0), (1, 0), (2, 0), (3, 1), (5, 0), (6, 0), (33, 1), (244, 0), (1, 243), (240, 3)];

#[test]
fn every_fragment_of_two_bytes() {
    let codes: Vec<u8> = (0..=255).collect();
    for length in 0..=2 {
        every(&codes, length, &STARTS);
    }
}

#[test]
fn every_short_fragment_of_chosen_codes() {
    every(b"\x00\x01\x02\x20\x21\x4c\x4f\x51\x52\x58\x61\x63\x64\x67\x68\x6a\x6b\x6c\x6d\x6e\x6f\x70\x71\x72\x74\x75\x76\x77\x79\x7a\x7b\x7d\x7f\x82\x93\xa6\xb2\xff", 3, &STARTS);
    every(b"\x00\x51\x52\x63\x67\x68\x6a\x6b\x75\x79", 5, &[(0, 0), (2, 0), (3, 1)]);
    every(b"\x51\x63\x67\x68\x6a\x6c", 7, &[(2, 0), (4, 1)]);
}

#[test]
fn generated_cases() {
    generated(7, 40_000, Kind::All);
    generated(8, 20_000, Kind::Display);
    generated(9, 20_000, Kind::Tally);
}

#[test]
fn the_fixed_list() {
    let cases = include_str!("../../list/cases.txt");
    let answers = include_str!("../../list/answers.txt");
    for (case, answer) in cases.lines().zip(answers.lines()) {
        assert_eq!(by_definition(&Case::parse(case).unwrap()), answer, "{case}");
    }
}

/// Some minutes in release: `cargo test --release -- --ignored`.
#[test]
#[ignore = "long"]
fn many_more() {
    let codes: Vec<u8> = (0..=255).collect();
    every(&codes, 3, &[(0, 0), (2, 1), (6, 0), (243, 0)]);
    every(b"\x00\x51\x52\x63\x67\x68\x6a\x6b\x6c\x75\x79\x7a\xff", 6, &[(2, 1), (4, 0)]);
    for seed in 100..130 {
        generated(seed, 100_000, Kind::All);
    }
}
