//! The command beside the proved programs `stackmark` and `stacklog`, and beside the fixed list of compare/.
mod common;

use std::fs;
use std::path::PathBuf;
use std::process::Command;

use command::marking::Marker;
use common::{Folder, ROOT, ran};

/// A program that `rt run` leaves.
fn program(name: &str) -> PathBuf {
    let path = PathBuf::from(format!("{ROOT}/crates/{name}/out/{name}"));
    assert!(path.is_file(), "{} is missing: run ./build, or tools/program.sh {name}", path.display());
    path
}

/// The papers of the fixed list with the Rust's answers, and those of the folder examples/.
fn papers() -> Vec<(Vec<u8>, Option<String>)> {
    let read = |name: &str| fs::read_to_string(format!("{ROOT}/compare/list/{name}.txt")).unwrap();
    let (cases, answers) = (read("cases"), read("answers"));
    let mut papers = Vec::new();
    for (case, answer) in cases.lines().zip(answers.lines()) {
        if let (Some(bytes), Some(answer)) = (case.strip_prefix("paper "), answer.strip_prefix("paper ")) {
            papers.push((parse(bytes), Some(answer.to_owned())));
        }
    }
    assert!(papers.len() > 700, "{}", papers.len());
    for entry in fs::read_dir(format!("{ROOT}/examples")).unwrap() {
        let path = entry.unwrap().path();
        if path.is_file() {
            papers.push((fs::read(path).unwrap(), None));
        }
    }
    papers
}

/// Bytes as the protocol writes them: `-`, or hex, or hex and `*N` for the last byte N times.
fn parse(text: &str) -> Vec<u8> {
    let (hex, times) = text.split_once('*').unwrap_or((text, "1"));
    let hex = if hex == "-" { "" } else { hex };
    let mut bytes: Vec<u8> = (0..hex.len()).step_by(2).map(|at| u8::from_str_radix(&hex[at..at + 2], 16).unwrap()).collect();
    if let Some(last) = bytes.last().copied() {
        bytes.resize(bytes.len() - 1 + times.parse::<usize>().unwrap(), last);
    }
    bytes
}

#[test]
fn the_fixed_list() {
    let mut marker = Marker::default();
    for (paper, answer) in papers() {
        let Some(answer) = answer else { continue };
        let (_, lines) = marker.lines(&paper);
        let last = str::from_utf8(lines).unwrap().lines().last().unwrap().to_owned();
        let ours = last.strip_prefix("refused ").map_or("0 0 0 0 0".into(), |rest| rest.replace(" at ", " "));
        assert_eq!(ours, answer, "{paper:02x?}");
        assert_eq!(last == "accepted", answer == "0 0 0 0 0");
    }
}

#[test]
fn lines_are_those_of_stackmark_and_logs_those_of_stacklog() {
    let (stackmark, stacklog) = (program("stackmark"), program("stacklog"));
    let mut marker = Marker::default();
    for (paper, _) in papers() {
        // a longer one is cut by the programs, and judged whole here
        if paper.len() > 8_001 {
            continue;
        }
        let printed = ran(&mut Command::new(&stackmark), &paper);
        assert_eq!((printed.status, printed.err.as_str()), (Some(0), ""));
        assert_eq!(marker.lines(&paper).1, printed.out, "{paper:02x?}");
        let printed = ran(&mut Command::new(&stacklog), &paper);
        assert_eq!((printed.status, printed.err.as_str()), (Some(0), ""));
        assert_eq!(marker.log(&paper).1, printed.out, "{paper:02x?}");
    }
}

#[test]
fn through_the_command() {
    let (stackmark, stacklog) = (program("stackmark"), program("stacklog"));
    let folder = Folder::new();
    for entry in fs::read_dir(format!("{ROOT}/examples")).unwrap() {
        let path = entry.unwrap().path();
        if path.is_file() {
            let paper = fs::read(&path).unwrap();
            let path = path.into_os_string();
            let run = |name: &str| folder.run(&[name.as_ref(), path.as_os_str()]);
            assert_eq!(run("mark").out, ran(&mut Command::new(&stackmark), &paper).out, "{path:?}");
            assert_eq!(run("log").out, ran(&mut Command::new(&stacklog), &paper).out, "{path:?}");
        }
    }
}
