//! Many papers, and papers of any bytes.
mod common;

use std::time::{Duration, Instant};

use command::arguments::Form;
use command::marking::{Marker, split, under_name};
use command::register::{Records, fragment};
use command::summary::Summary;
use common::{Folder, Numbers, SAMPLE};

#[test]
fn two_thousand_papers_take_less_than_a_second() {
    let folder = Folder::new();
    folder.folder("pile");
    let mut numbers = Numbers(2);
    for number in 0..2_000 {
        folder.file(format!("pile/{number:04}"), &random_paper(&mut numbers));
    }
    for form in [&["mark", "pile"][..], &["mark", "--csv", "pile"], &["mark", "--json", "pile"]] {
        // the best of three: other work may go on
        let times = (0..3).map(|_| {
            let start = Instant::now();
            let ran = folder.run(form);
            let time = start.elapsed();
            assert_eq!(ran.status, Some(1));
            assert!([ran.err.as_str(), ran.out()].concat().contains("papers 2000, "));
            time
        });
        let best = times.min().unwrap();
        assert!(best < Duration::from_secs(1), "{form:?}: {best:?}");
    }
}

/// Bytes of one of several kinds: random, or a header with parts, most of them good, over random bytes or over opcodes that
/// are often accepted, sometimes damaged.
fn random_paper(numbers: &mut Numbers) -> Vec<u8> {
    if numbers.below(8) == 0 {
        let size = numbers.below(60);
        return numbers.bytes(size);
    }
    if numbers.below(200) == 0 {
        let size = 7_990 + numbers.below(20);
        return numbers.bytes(size);
    }
    let script = |numbers: &mut Numbers| -> Vec<u8> {
        let most = if numbers.below(20) == 0 { 2_000 } else { 30 };
        let size = numbers.below(most);
        if numbers.below(3) == 0 {
            return numbers.bytes(size);
        }
        let common = [0x51, 0x52, 0x00, 0x76, 0x75, 0x63, 0x67, 0x68, 0x6b, 0x6c, 0x93, 0x79, 0x7a, 0x61, 0x6a, 0x74, 0x82, 0x7b];
        (0..size).map(|_| common[numbers.below(common.len() as u64) as usize]).collect()
    };
    let entries = if numbers.below(20) == 0 { numbers.below(40) } else { 1 + numbers.below(4) };
    let init = if numbers.below(2) == 0 { Vec::new() } else { script(numbers) };
    // some start near the limit
    let most = if numbers.below(20) == 0 { 238 } else { 0 };
    let bodies: Vec<_> = (0..entries).map(|_| (most + numbers.below(12) as u16, script(numbers))).collect();
    let mut paper = command::writing::written(numbers.below(6) as u16, &init, &bodies).unwrap_or_default();
    if numbers.below(10) == 0 && !paper.is_empty() {
        let place = numbers.below(paper.len() as u64) as usize;
        paper[place] = numbers.next() as u8;
    }
    paper
}

/// What is done with a paper of any bytes: nothing panics, the lines are lines, the records hold what the verdict and the lines
/// say, the tally gains it.
#[test]
fn a_hundred_thousand_papers_of_any_bytes() {
    let mut numbers = Numbers(1);
    let mut marker = Marker::default();
    let mut summary = Summary::default();
    let mut seen = [0; listochur::NUMBERS];
    let (mut csv, mut json) = (Records::new(Form::Csv), Records::new(Form::Json));
    for _ in 0..100_000 {
        let paper = random_paper(&mut numbers);
        let verdict = marker.verdict(&paper);
        let (number, lines) = marker.lines(&paper);
        let lines = lines.to_vec();
        assert_eq!(number, verdict.number);
        seen[number as usize] += 1;
        let told: Vec<&[u8]> = split(&lines).collect();
        let (last, accepted) = told.split_last().unwrap();
        let listochur::PaperVerdict { entry, offset, first, second, peak, .. } = verdict;
        let expected =
            if number == 0 { "accepted".into() } else { format!("refused {number} at {entry} {offset} {first} {second}") };
        assert_eq!(*last, expected.as_bytes());
        let peaks = accepted.iter().map(|line| fragment(line).unwrap().peak);
        assert_eq!(u64::from(peak), if number == 0 { peaks.max().unwrap() } else { 0 });
        assert_eq!(under_name(b"x", &lines).len(), lines.len() + 3 * told.len());
        assert!(csv.record(b"x", &verdict, &lines).is_some());
        assert!(json.record(b"x", &verdict, &lines).is_some());
        summary.gain(&verdict);
        let (number, text) = marker.log(&paper);
        assert_eq!(number, verdict.number);
        assert!(text.ends_with([last, &b"\n"[..]].concat().as_slice()));
        assert!(split(text).all(|line| line.len() <= 80));
    }
    assert_eq!(summary.tally.fragments, 100_000);
    assert_eq!(summary.tally.accepted, seen[0]);
    assert_eq!(summary.refused.values().sum::<u64>(), 100_000 - u64::from(seen[0]));
    // every number that a paper can get without long bodies occurs, and many are accepted
    for number in [0, 3, 6, 7, 8, 9, 11, 12, 13, 14, 15, 16, 19, 21, 25] {
        assert!(seen[number] > 0, "{seen:?}");
    }
    assert!(seen[0] > 1_000, "{seen:?}");
}

/// The same bytes by way of the program: a few hundred, as standard input.
#[test]
fn papers_of_any_bytes_through_the_program() {
    let folder = Folder::new();
    let mut numbers = Numbers(3);
    let mut marker = Marker::default();
    for _ in 0..300 {
        let paper = random_paper(&mut numbers);
        let (number, lines) = marker.lines(&paper);
        folder.run_on(&["mark", "-"], &paper).gives((number != 0).into(), str::from_utf8(lines).unwrap());
    }
}

#[test]
fn a_fragment_of_any_bytes() {
    use command::fragments::analysed;
    let mut numbers = Numbers(4);
    let mut log = vec![0; 30_000];
    for _ in 0..20_000 {
        let size = numbers.below(40);
        let bytes = numbers.bytes(size);
        let (main, alt) = (numbers.below(250) as u32, numbers.below(5) as u32);
        let (verdict, end) = listochur::analyze_items(&bytes, main, alt, &mut log);
        let text = analysed(&bytes, &verdict, end.main(), end.alt(), &log);
        let items = verdict.end.map_or(0, |end| end.main + end.alt) as usize;
        assert_eq!(text.lines().count(), 1 + items + verdict.rows + usize::from(verdict.rows > 0), "{text}");
    }
}

#[test]
fn many_at_once() {
    let folder = Folder::new();
    folder.file("good", &SAMPLE);
    let folder = &folder;
    std::thread::scope(|scope| {
        for _ in 0..16 {
            scope.spawn(move || {
                for _ in 0..10 {
                    folder.run(&["mark", "good"]).gives(0, common::SAMPLE_LINES);
                }
            });
        }
    });
}
