//! The papers of the folder examples/, each with the lines expected of it, and how each is written.
mod common;

use std::collections::BTreeSet;
use std::fs;

use common::{Folder, ROOT, SAMPLE, ran};

/// A paper's name, and the words that `paper` writes it from; the others are written by hand.
const WRITTEN: [(&str, &str); 18] = [
    ("sample", "--fields 1 1:635167526875"),
    ("initialiser", "--fields 0 --init 5175 0:51 2:75"),
    ("no-end", "--fields 0 0:6aff"),
    ("known-index", "--fields 0 3:5279"),
    ("nested", "--fields 0 3:63635167526867755368"),
    ("zk", "--fields 2 6:0121a6"),
    ("malformed", "--fields 0 0:51050102"),
    ("nesting", "--fields 0 0:6a63636363636363636363636363636363636363636363636363"),
    ("stacks-full", "--fields 0 241:51515151"),
    ("main-dry", "--fields 1 1:63516752686f"),
    ("alt-dry", "--fields 0 1:6b6c6c"),
    ("unknown-index", "--fields 0 2:79"),
    ("crooked-number", "--fields 0 1:018079"),
    ("negative-index", "--fields 0 1:4f79"),
    ("unmodelled", "--fields 0 --init 5175ff 1:-"),
    ("arms-differ", "--fields 0 1:635168"),
    ("open-if", "--fields 0 0:5163"),
    ("dispatch", "--fields 1 241:-"),
];

fn example(name: &str) -> Vec<u8> {
    fs::read(format!("{ROOT}/examples/{name}.paper")).unwrap()
}

fn expected(name: &str) -> String {
    fs::read_to_string(format!("{ROOT}/examples/expected/{name}.lines")).unwrap()
}

/// The names in a folder of files with this ending.
fn names(folder: &str, ending: &str) -> BTreeSet<String> {
    let files = fs::read_dir(format!("{ROOT}/{folder}")).unwrap().map(|entry| entry.unwrap());
    files
        .filter(|entry| entry.file_type().unwrap().is_file())
        .map(|entry| entry.file_name().into_string().unwrap().strip_suffix(ending).expect(ending).to_owned())
        .collect()
}

#[test]
fn each_has_its_lines() {
    let all = names("examples", ".paper");
    assert_eq!(all, names("examples/expected", ".lines"));
    assert!(all.len() >= 12);
    let folder = Folder::new();
    let mut numbers = BTreeSet::new();
    for name in &all {
        let expected = expected(name);
        let last = expected.lines().last().unwrap();
        numbers.insert(last.split(' ').nth(1).unwrap_or("0").to_owned());
        let status = (last != "accepted").into();
        folder.run(&["mark", &format!("{ROOT}/examples/{name}.paper")]).gives(status, &expected);
    }
    assert_eq!(numbers.len(), all.len() - 5, "one of each number, and six accepted: {numbers:?}");
}

#[test]
fn each_is_written_as_it_says() {
    let folder = Folder::new();
    let mut all = names("examples", ".paper");
    for (name, words) in WRITTEN {
        let ran = folder.shell(&format!("listochur paper {words}"));
        assert_eq!((ran.status, ran.out), (Some(0), example(name)), "{name}");
        all.remove(name);
    }
    assert_eq!(example("header"), SAMPLE[..7]);
    assert_eq!(example("long"), [&SAMPLE[..], &[0; 7_981]].concat());
    assert_eq!(example("sample"), SAMPLE);
    assert_eq!(all.into_iter().collect::<Vec<_>>(), ["header", "long"]);
}

#[test]
fn the_folder_is_a_pile() {
    let all = names("examples", ".paper");
    let ran = ran(std::process::Command::new(common::LISTOCHUR).args(["mark", "examples"]).current_dir(ROOT), b"");
    let mut text = String::new();
    // in the order of the bytes of their names, ending included
    let mut files: Vec<String> = all.iter().map(|name| format!("{name}.paper")).collect();
    files.sort();
    for file in files {
        for line in expected(file.strip_suffix(".paper").unwrap()).lines() {
            text += &format!("examples/{file}: {line}\n");
        }
    }
    assert_eq!(ran.status, Some(1));
    let summary = ran.out().strip_prefix(&text).unwrap_or_else(|| panic!("{}", ran.out()));
    assert!(summary.starts_with(&format!("papers {}, accepted 6, refused {} (", all.len(), all.len() - 6)), "{summary}");
    assert_eq!(summary.lines().count(), 1);
    assert_eq!(ran.err, "listochur: examples/expected is a folder in a folder, and passed over\n");
}
