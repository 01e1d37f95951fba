//! What an operator falls into with a script that marks one paper, by way of ./mark and ./log: each is tried once.
mod common;

use std::fs;
use std::os::unix::fs::{PermissionsExt, symlink};
use std::path::PathBuf;
use std::process::{Command, Stdio};
use std::thread;
use std::time::{Duration, Instant};

use common::{DRY, DRY_LINES, Folder, LISTOCHUR, ROOT, Ran, SAMPLE, SAMPLE_LINES, ran};

/// A folder with the two papers and, in `a tree`, the scripts of the repository around the command under test.
struct Tree(Folder);

impl Tree {
    fn new() -> Self {
        let tree = Self::without_build();
        tree.0.folder("a tree/built");
        tree.0.program("a tree/built/listochur", &fs::read(LISTOCHUR).unwrap());
        tree.0.file("a tree/built/stamp", b"");
        tree
    }

    fn without_build() -> Self {
        let folder = Folder::with_papers();
        folder.folder("a tree");
        for name in ["tools", "bindings", "cli", "crates"] {
            folder.folder(&format!("a tree/{name}"));
        }
        for name in ["bindings/rust", "crates/one", "crates/export"] {
            folder.folder(&format!("a tree/{name}"));
        }
        for name in ["bindings/rust/src", "cli/src", "crates/one/src", "crates/one/specs", "crates/one/proofs"] {
            folder.folder(&format!("a tree/{name}"));
        }
        for name in ["crates.txt", "bindings/rust/build.rs", "bindings/rust/Cargo.toml", "cli/Cargo.toml"] {
            folder.file(format!("a tree/{name}"), b"");
        }
        folder.file("a tree/tools/command.sh", &fs::read(format!("{ROOT}/tools/command.sh")).unwrap());
        for name in ["build", "mark", "log", "listochur"] {
            folder.program(&format!("a tree/{name}"), &fs::read(format!("{ROOT}/{name}")).unwrap());
        }
        Self(folder)
    }

    fn script(&self, name: &str) -> PathBuf {
        self.0.0.join("a tree").join(name)
    }

    /// Runs ./mark with these words and this standard input.
    fn mark(&self, words: &[&str], input: &[u8]) -> Ran {
        ran(Command::new(self.script("mark")).args(words).current_dir(&self.0.0), input)
    }

    /// Runs a shell line in which $mark and $log are the scripts.
    fn shell(&self, line: &str) -> Ran {
        let mut command = Command::new("sh");
        command.args(["-c", line]).env("mark", self.script("mark")).env("log", self.script("log"));
        ran(command.current_dir(&self.0.0), b"")
    }
}

#[test]
fn no_name_marks_nothing() {
    let tree = Tree::new();
    tree.mark(&[], &DRY).fails("", &["usage: ./mark"]);
    tree.mark(&[], &SAMPLE).fails("", &["usage: ./mark"]);
    tree.mark(&[""], &SAMPLE).fails("", &["an empty name"]);
    tree.mark(&["-"], &DRY).gives(1, DRY_LINES);
    tree.mark(&["-"], &SAMPLE).gives(0, SAMPLE_LINES);
}

#[test]
fn the_second_paper_is_marked_too() {
    let ran = Tree::new().mark(&["good", "bad"], b"");
    assert_eq!(ran.status, Some(1));
    assert!(ran.out().contains("good: accepted\n") && ran.out().contains("bad: refused 7 at 0 5 3 2\n"), "{ran:?}");
}

#[test]
fn the_status_tells() {
    let tree = Tree::new();
    tree.mark(&["good"], b"").gives(0, SAMPLE_LINES);
    tree.mark(&["bad"], b"").gives(1, DRY_LINES);
    tree.shell("\"$mark\" good >&-").fails("", &["standard output", "closed"]);
    tree.shell("\"$mark\" good >/dev/full").fails("", &["standard output", "No space"]);
    tree.shell("\"$log\" good >/dev/full").fails("", &["standard output", "No space"]);
}

#[test]
fn what_cannot_be_read_has_no_verdict() {
    let tree = Tree::new();
    tree.mark(&["none"], b"").fails("", &["cannot read none"]);
    tree.mark(&["/proc/self/mem"], b"").fails("", &["cannot read /proc/self/mem"]);
    tree.shell("\"$mark\" - <.").fails("", &["cannot read standard input"]);
    tree.shell("\"$log\" .").fails("", &["cannot read ."]);
    tree.0.folder("empty");
    let ran = tree.mark(&["empty"], b"");
    assert!(ran.status == Some(2) && !ran.out().contains("19") && ran.err.contains("empty has no paper"), "{ran:?}");
}

#[test]
fn several_at_once() {
    let tree = &Tree::new();
    thread::scope(|scope| {
        for paper in [("good", 0, SAMPLE_LINES), ("bad", 1, DRY_LINES), ("good", 0, SAMPLE_LINES), ("bad", 1, DRY_LINES)] {
            scope.spawn(move || (0..21).for_each(|_| tree.mark(&[paper.0], b"").gives(paper.1, paper.2)));
        }
    });
}

#[test]
fn through_a_link_and_from_any_folder() {
    let tree = Tree::new();
    tree.0.folder("elsewhere");
    symlink("../a tree/mark", tree.0.0.join("elsewhere/first")).unwrap();
    symlink(tree.0.0.join("elsewhere/first"), tree.0.0.join("elsewhere/second")).unwrap();
    for name in ["./first", "./second", "../a tree/mark"] {
        let mut command = Command::new("sh");
        command.args(["-c", "\"$0\" ../good", name]).current_dir(tree.0.0.join("elsewhere"));
        ran(&mut command, b"").gives(0, SAMPLE_LINES);
    }
}

/// Where the tests are run by root: by nobody, who may write nothing there.
#[test]
fn as_another_user() {
    let tree = Tree::new();
    let nobody = ["--reuid=65534", "--regid=65534", "--clear-groups"];
    let can = Command::new("setpriv").args(nobody).arg("true").stderr(Stdio::null()).status();
    if !can.is_ok_and(|status| status.success()) {
        return;
    }
    let run = |paper: &str| {
        let mut command = Command::new("setpriv");
        ran(command.args(nobody).arg(tree.script("mark")).arg(paper).current_dir(&tree.0.0), b"")
    };
    run("good").gives(0, SAMPLE_LINES);
    fs::set_permissions(tree.0.0.join("bad"), fs::Permissions::from_mode(0o600)).unwrap();
    run("bad").fails("", &["cannot read bad", "Permission denied"]);
}

#[test]
fn fifty_papers_take_no_time() {
    let tree = Tree::new();
    let start = Instant::now();
    let ran = tree.mark(&["good"; 50], b"");
    assert!(ran.status == Some(0) && ran.out().contains("papers 50, accepted 50, "), "{ran:?}");
    assert!(start.elapsed() < Duration::from_secs(1), "{:?}", start.elapsed());
    let start = Instant::now();
    (0..50).for_each(|_| tree.mark(&["good"], b"").gives(0, SAMPLE_LINES));
    assert!(start.elapsed() < Duration::from_secs(5), "{:?}", start.elapsed());
}

#[test]
fn help_is_no_file() {
    let tree = Tree::new();
    let ran = tree.mark(&["--help"], b"");
    assert!(ran.status == Some(0) && ran.out().starts_with("usage: listochur mark "), "{ran:?}");
    let ran = tree.shell("\"$log\" --help");
    assert!(ran.status == Some(0) && ran.out().starts_with("usage: listochur log "), "{ran:?}");
}

/// The first run says how long it will take, and shows each crate; here the toolchain ends after one.
#[test]
fn the_first_run_is_not_silent() {
    let tree = Tree::without_build();
    tree.0.folder("bin");
    tree.0.program("bin/cargo", b"#!/bin/sh\n");
    tree.0.program("bin/rt", b"#!/bin/sh\nprintf 'rt: chose --jobs 2 for one\\nlogic=proved functions=3\\n'\n[ $1 = version ]\n");
    let path = format!("{}:{}", tree.0.0.join("bin").display(), std::env::var("PATH").unwrap());
    let mut command = Command::new(tree.script("mark"));
    let ran = ran(command.arg("good").env("PATH", path).current_dir(&tree.0.0), b"");
    ran.fails("", &["about a quarter of an hour", "build: one proved (", "failed: rt lib"]);
}

#[test]
fn a_build_that_is_older_than_its_sources_marks_nothing() {
    let tree = Tree::new();
    tree.mark(&["good"], b"").gives(0, SAMPLE_LINES);
    thread::sleep(Duration::from_millis(20));
    tree.0.file("a tree/crates/one/src/lib.rt", b"");
    tree.mark(&["good"], b"").fails("", &["older than its sources", "crates/one/src/lib.rt"]);
}

#[test]
fn nothing_is_written() {
    let tree = Tree::new();
    let files = || ran(Command::new("find").arg(&tree.0.0).args(["-printf", "%p %T@ %C@ %s\n"]), b"").out;
    let before = files();
    tree.mark(&["good", "bad"], b"");
    tree.shell("\"$log\" good");
    assert_eq!(files(), before);
}
