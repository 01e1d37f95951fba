//! The driver as a program: answers, refusals of bad input; lines that parse and
//! print back; the generator; the fixed list.

use std::io::Write;
use std::process::{Command, Output, Stdio};

use tools::case::Case;
use tools::generate::{Kind, case, planned};
use tools::rng::Rng;

fn driver(input: &[u8]) -> Output {
    let mut child = Command::new(env!("CARGO_BIN_EXE_driver"))
        .stdin(Stdio::piped())
        .stdout(Stdio::piped())
        .stderr(Stdio::piped())
        .spawn()
        .unwrap();
    // A driver that has refused a line may have closed its input.
    let _ = child.stdin.take().unwrap().write_all(input);
    child.wait_with_output().unwrap()
}

#[test]
fn answers() {
    let input = "fragment 0 0 -\nfragment 1 0 02000179\nlimits 4c\npaper -\npaper 01000100\nfragment 0 0 6a63*25\nlimits 60*10001\n\
                 fragment 0 0 61*10001\nfragment 244 1 75\ndisplay 5102aabb75 6c 1 0\ndisplay - 4cff07*100 0 1\ndisplay 75 75 0 2\n\
                 tally 1 0 4294967294 9 0 1 3\ntally 1 0 4294967295 9 0 1 3";
    let output = driver(input.as_bytes());
    assert_eq!(output.status.code(), Some(0));
    assert_eq!(String::from_utf8_lossy(&output.stderr), "");
    assert_eq!(
        String::from_utf8_lossy(&output.stdout),
        "fragment 0 0 0 0\nfragment 7 3 257 1\nlimits 3 0 0 0\npaper 19 0 0 0 0\npaper 19 0 0 0 0\nfragment outside\n\
         limits 18 0 10001 10000\nfragment outside\nfragment 2 0 245 244\n\
         display 02aabb\ndisplay 4cff07*100\ndisplay -\ntally 0 2 1 4294967295 9\ntally 22 1 0 4294967295 9\n"
    );
    assert_eq!(driver(b"").stdout, b"");
}

#[test]
fn refusals() {
    let bad: [(&[u8], &str); 32] = [
        (b"", "unknown word"),
        (b"mark 75", "unknown word"),
        (b"Fragment 0 0 75", "unknown word"),
        (b" fragment 0 0 75", "unknown word"),
        (b"fragment 0 0", "fields"),
        (b"fragment 0 0 75 75", "fields"),
        (b"fragment 0  0 75", "fields"),
        (b"limits", "fields"),
        (b"limits 0 75", "fields"),
        (b"paper 00 ", "fields"),
        (b"display 75 75 0", "fields"),
        (b"display 75 75 0 0 0", "fields"),
        (b"tally 0 0 0 0 0 0", "fields"),
        (b"tally 0 0 0 0 0 0 0 0", "fields"),
        (b"limits 7", "bad hex"),
        (b"limits 7g", "bad hex"),
        (b"limits 7A", "bad hex"),
        (b"limits 0x75", "bad hex"),
        (b"limits 75\r", "bad hex"),
        (b"limits ", "bad hex"),
        (b"limits *3", "bad hex"),
        (b"limits 75*0", "bad repeat"),
        (b"limits 75*1000001", "bad repeat"),
        (b"limits 75*", "bad number"),
        (b"fragment -1 0 75", "bad number"),
        (b"fragment +1 0 75", "bad number"),
        (b"fragment 0 4294967296 75", "bad number"),
        (b"fragment 0 99999999999999999999999 75", "bad number"),
        (b"display 75 75 -1 0", "bad number"),
        (b"display 75 7 0 0", "bad hex"),
        (b"tally 0 0 4294967296 0 0 0 0", "bad number"),
        (b"limits \xff", "not UTF-8"),
    ];
    for (line, message) in bad {
        let output = driver(&[b"fragment 0 0 75\n", line, b"\nlimits -\n"].concat());
        let shown = String::from_utf8_lossy(&output.stderr).into_owned();
        assert_eq!(output.status.code(), Some(2), "{line:?}");
        assert!(shown.starts_with("line 2: ") && shown.contains(message), "{line:?}: {shown}");
        // The line before it is answered, those after it are not.
        assert_eq!(String::from_utf8_lossy(&output.stdout), "fragment 7 0 1 0\n", "{line:?}");
    }
}

#[test]
fn lines_parse_and_print_back() {
    let mut rng = Rng::new(3);
    for round in 0..6_000 {
        let case = case(&mut rng, [Kind::All, Kind::Display, Kind::Tally][round % 3]);
        assert_eq!(Case::parse(&case.to_string()).as_ref(), Ok(&case));
        assert_eq!(Case::parse(&case.plain()).as_ref(), Ok(&case));
    }
    let case = Case::parse("fragment 4294967295 007 00ff*3").unwrap();
    assert_eq!(case, Case::Fragment { main: u32::MAX, alt: 7, bytes: vec![0, 255, 255, 255] });
    assert_eq!(case.to_string(), "fragment 4294967295 7 00ffffff");
    let long = Case::Limits { bytes: [vec![1, 2], vec![7; 100]].concat() };
    assert_eq!(long.to_string(), "limits 010207*100");
    assert!(!long.plain().contains('*'));
}

#[test]
fn same_seed_same_cases() {
    let cases = |seed: u64| {
        let output = Command::new(env!("CARGO_BIN_EXE_generate")).args([&seed.to_string(), "200", "all"]).output().unwrap();
        assert!(output.status.success());
        String::from_utf8(output.stdout).unwrap()
    };
    assert_eq!(cases(5), cases(5));
    assert_ne!(cases(5), cases(6));
    assert_eq!(cases(5).lines().count(), 200);
    for arguments in [&["1", "2"][..], &["1", "2", "papers"], &["x", "2", "all"], &["1", "-2", "all"], &["1", "2", "all", "3"]] {
        let output = Command::new(env!("CARGO_BIN_EXE_generate")).args(arguments).output().unwrap();
        assert_eq!(output.status.code(), Some(2), "{arguments:?}");
    }
}

/// What the generator writes without a fault is accepted, so that it goes deep.
#[test]
fn faultless_fragments_are_accepted() {
    let mut rng = Rng::new(11);
    for round in 0..3_000 {
        let (main, alt) = [(0, 0), (3, 1), (33, 0), (240, 4), (0, 244), (20, 200)][round % 6];
        let bytes = planned(&mut rng, main, alt, 1 + round % 90, None);
        assert_eq!(reference::fragment(&bytes, main as u32, alt as u32).number, 0, "{main} {alt} {bytes:02x?}");
    }
}

#[test]
fn the_fixed_list_is_answered_as_committed() {
    let cases = include_str!("../../list/cases.txt");
    let answers = include_str!("../../list/answers.txt");
    assert_eq!(cases.lines().count(), answers.lines().count());
    for (number, (case, answer)) in cases.lines().zip(answers.lines()).enumerate() {
        assert_eq!(Case::parse(case).unwrap().told_apart().1, answer, "line {}", number + 1);
    }
}
