//! `mark`: one paper, several, folders, what cannot be read, what cannot be written.
mod common;

use std::fs;
use std::os::unix::ffi::OsStrExt;
use std::os::unix::fs::symlink;
use std::process::{Command, Stdio};

use common::{DRY, DRY_LINES, Folder, LISTOCHUR, SAMPLE, SAMPLE_LINES, ran};

#[test]
fn one_paper_has_the_lines_alone() {
    let folder = Folder::with_papers();
    folder.run(&["mark", "good"]).gives(0, SAMPLE_LINES);
    folder.run(&["mark", "bad"]).gives(1, DRY_LINES);
    folder.run_on(&["mark", "-"], &SAMPLE).gives(0, SAMPLE_LINES);
    folder.run_on(&["mark", "-"], &DRY).gives(1, DRY_LINES);
    folder.run_on(&["mark", "--", "-"], &DRY).gives(1, DRY_LINES);
    folder.run_on(&["mark", "-"], b"").gives(1, "refused 19 at 0 0 0 0\n");
}

#[test]
fn a_long_paper_is_judged_whole() {
    let folder = Folder::new();
    for size in [8_001, 9_000, 1_000_000] {
        folder.file("long", &vec![0; size]);
        folder.run(&["mark", "long"]).gives(1, &format!("refused 21 at 0 0 {size} 8000\n"));
    }
    let padded = [&SAMPLE[..], &[0; 7_980]].concat();
    folder.run_on(&["mark", "-"], &padded).gives(0, SAMPLE_LINES);
}

#[test]
fn of_several_each_line_has_the_name() {
    let folder = Folder::with_papers();
    folder.run(&["mark", "good", "bad"]).gives(
        1,
        "good: entry 0 peak 2 end 1 0\ngood: accepted\nbad: refused 7 at 0 5 3 2\n\
         papers 2, accepted 1, refused 1 (1 with 7), rows 12, greatest peak 2\n",
    );
    folder.run_on(&["mark", "good", "-", "good"], &SAMPLE).gives(
        0,
        "good: entry 0 peak 2 end 1 0\ngood: accepted\n-: entry 0 peak 2 end 1 0\n-: accepted\n\
         good: entry 0 peak 2 end 1 0\ngood: accepted\npapers 3, accepted 3, refused 0, rows 18, greatest peak 2\n",
    );
}

#[test]
fn a_folder_is_every_file_in_it_in_order_of_name() {
    let folder = Folder::new();
    folder.folder("pile");
    for (name, paper) in [("b", &DRY), ("a10", &SAMPLE), ("a9", &SAMPLE), ("Z", &DRY), (".hidden", &SAMPLE)] {
        folder.file(format!("pile/{name}"), paper);
    }
    symlink("../elsewhere", folder.0.join("pile/link")).unwrap();
    folder.file("elsewhere", &SAMPLE);
    let lines = |name: &str, refused: bool| {
        if refused {
            format!("pile/{name}: refused 7 at 0 5 3 2\n")
        } else {
            format!("pile/{name}: entry 0 peak 2 end 1 0\npile/{name}: accepted\n")
        }
    };
    let all = [(".hidden", false), ("Z", true), ("a10", false), ("a9", false), ("b", true), ("link", false)];
    let mut text: String = all.iter().map(|(name, refused)| lines(name, *refused)).collect();
    text += "papers 6, accepted 4, refused 2 (2 with 7), rows 36, greatest peak 2\n";
    folder.run(&["mark", "pile"]).gives(1, &text);
    // with a slash the names are the same
    folder.run(&["mark", "pile/"]).gives(1, &text);
}

#[test]
fn a_folder_of_one_paper_has_its_name_and_the_summary() {
    let folder = Folder::new();
    folder.folder("pile");
    folder.file("pile/one", &SAMPLE);
    folder.run(&["mark", "pile"]).gives(
        0,
        "pile/one: entry 0 peak 2 end 1 0\npile/one: accepted\npapers 1, accepted 1, refused 0, rows 6, greatest peak 2\n",
    );
}

#[test]
fn what_is_no_file_in_a_folder_is_said() {
    let folder = Folder::new();
    folder.folder("pile");
    folder.folder("pile/sub");
    folder.file("pile/sub/one", &DRY);
    folder.file("pile/one", &SAMPLE);
    assert!(Command::new("mkfifo").arg(folder.0.join("pile/pipe")).status().unwrap().success());
    let ran = folder.run(&["mark", "pile"]);
    assert_eq!(ran.status, Some(0), "{ran:?}");
    assert!(ran.out().ends_with("papers 1, accepted 1, refused 0, rows 6, greatest peak 2\n"));
    assert!(ran.err.contains("pile/sub is a folder in a folder, and passed over"), "{ran:?}");
    assert!(ran.err.contains("pile/pipe is no file, and passed over"), "{ran:?}");
}

#[test]
fn an_empty_folder_is_a_failure() {
    let folder = Folder::new();
    folder.folder("pile");
    let none = "papers 0, accepted 0, refused 0, rows 0, greatest peak 0, not read 1\n";
    folder.run(&["mark", "pile"]).fails(none, &["pile has no paper in it"]);
    folder.folder("pile/sub");
    folder.run(&["mark", "pile"]).fails(none, &["pile has no paper in it", "pile/sub is a folder"]);
}

#[test]
fn what_cannot_be_read_gets_no_verdict_and_the_others_are_marked() {
    let folder = Folder::with_papers();
    folder.folder("pile");
    folder.run(&["mark", "none"]).fails("", &["cannot read none"]);
    folder.run(&["mark", ""]).fails("", &["an empty name"]);
    folder.run(&["mark", "good/x"]).fails("", &["cannot read good/x"]);
    symlink("nowhere", folder.0.join("pile/dangling")).unwrap();
    folder.file("pile/good", &SAMPLE);
    folder.run(&["mark", "none", "good", "pile", "", "bad"]).fails(
        "good: entry 0 peak 2 end 1 0\ngood: accepted\npile/good: entry 0 peak 2 end 1 0\npile/good: accepted\n\
         bad: refused 7 at 0 5 3 2\n\
         papers 3, accepted 2, refused 1 (1 with 7), rows 18, greatest peak 2, not read 3\n",
        &["cannot read none", "cannot read pile/dangling", "an empty name"],
    );
}

#[test]
fn a_read_that_fails_gets_no_verdict() {
    let folder = Folder::with_papers();
    // a file whose read fails: the process's own memory, from address 0
    folder.run(&["mark", "/proc/self/mem"]).fails("", &["cannot read /proc/self/mem"]);
    folder.shell("listochur mark - <.").fails("", &["cannot read standard input"]);
    folder.shell("listochur mark - <&-").fails("", &["standard input", "closed"]);
    folder.shell("listochur mark - 0>x").fails("", &["cannot read standard input"]);
    folder.shell("listochur log . ").fails("", &["cannot read ."]);
    folder.shell("listochur log - <&-").fails("", &["standard input", "closed"]);
    // the others are marked
    folder.shell("listochur mark - good <&-").fails(
        "good: entry 0 peak 2 end 1 0\ngood: accepted\n\
         papers 1, accepted 1, refused 0, rows 6, greatest peak 2, not read 1\n",
        &["standard input"],
    );
}

#[test]
fn the_output_is_no_paper() {
    let folder = Folder::with_papers();
    folder.folder("pile");
    folder.file("pile/good", &SAMPLE);
    folder
        .shell("listochur mark --csv pile >pile/register")
        .fails("", &["cannot read pile/register: it is where the output goes"]);
    let register = fs::read_to_string(folder.0.join("pile/register")).unwrap();
    assert!(register.ends_with("pile/good,0,accepted,0,0,0,0,6,2,entry 0 peak 2 end 1 0\n"), "{register}");
    assert_eq!(register.lines().count(), 2);
    folder.shell("listochur mark good >>good").fails("", &["cannot read good: it is where the output goes"]);
    folder.shell("listochur mark - <good >>good").fails("", &["cannot read standard input: it is where the output goes"]);
    folder.shell("listochur mark good >/dev/null").gives(0, "");
}

#[test]
fn an_endless_file_is_not_read() {
    Folder::new().run(&["mark", "/dev/zero"]).fails("", &["cannot read /dev/zero", "268435456"]);
}

#[test]
fn a_write_that_fails_is_status_2() {
    let folder = Folder::with_papers();
    for words in [
        "mark good",
        "mark bad",
        "mark good bad",
        "mark --csv good",
        "mark --json good",
        "log good",
        "fragment 0 0 51",
        "limits 51",
        "mark --limit 5 good",
        "fragment --limit 5 0 0 51",
        "map",
        "paper --fields 0 0:51",
        "explain 7",
        "help",
        "help mark",
        "--version",
    ] {
        folder.shell(&format!("listochur {words} >/dev/full")).fails("", &["standard output", "No space"]);
        folder.shell(&format!("listochur {words} >&-")).fails("", &["standard output", "closed"]);
        folder.shell(&format!("listochur {words} 1</dev/null")).fails("", &["standard output"]);
    }
}

#[test]
fn a_closed_pipe_is_status_2() {
    let folder = Folder::with_papers();
    let papers = vec!["good"; 3_000];
    let mut child = Command::new(LISTOCHUR)
        .arg("mark")
        .args(papers)
        .current_dir(&folder.0)
        .stdout(Stdio::piped())
        .stderr(Stdio::piped())
        .spawn()
        .unwrap();
    drop(child.stdout.take());
    let output = child.wait_with_output().unwrap();
    assert_eq!(output.status.code(), Some(2));
    let err = String::from_utf8(output.stderr).unwrap();
    assert!(err.contains("standard output: Broken pipe") && !err.contains("panicked"), "{err}");
}

#[test]
fn nobody_to_tell_is_no_panic() {
    let folder = Folder::with_papers();
    for end in ["2>&-", "2>/dev/full", ">&- 2>&-", ">/dev/full 2>/dev/full"] {
        assert_eq!(folder.shell(&format!("listochur mark none good {end}")).status, Some(2), "{end}");
    }
}

#[test]
fn names_stay_in_their_line() {
    let folder = Folder::new();
    folder.folder("pile");
    let names: [&[u8]; 6] =
        [b" lead and trail ", b"a: accepted", b"new\nline: accepted", b"no\xffutf", b"quo\"te,'", b"back\\nslash"];
    for name in names {
        folder.file(std::ffi::OsStr::from_bytes(&[b"pile/", name].concat()), &DRY);
    }
    let shown = [" lead and trail ", "a: accepted", "back\\\\nslash", "new\\nline: accepted", "no\\xffutf", "quo\"te,'"];
    let mut text: String = shown.iter().map(|name| format!("pile/{name}: refused 7 at 0 5 3 2\n")).collect();
    text += "papers 6, accepted 0, refused 6 (6 with 7), rows 36, greatest peak 0\n";
    folder.run(&["mark", "pile"]).gives(1, &text);
    // behind the last `: ` stands what the proved function wrote
    for line in text.lines().take(6) {
        assert_eq!(line.rsplit_once(": ").unwrap().1, "refused 7 at 0 5 3 2");
    }
}

#[test]
fn names_that_look_like_options() {
    let folder = Folder::new();
    folder.file("--csv", &SAMPLE);
    folder.file("-x", &DRY);
    folder.run(&["mark", "--", "--csv"]).gives(0, SAMPLE_LINES);
    folder.run(&["mark", "./-x"]).gives(1, DRY_LINES);
    folder.run(&["mark", "-x"]).fails("", &["no option '-x'", "usage: listochur mark"]);
}

#[test]
fn the_stack_of_the_first_thread_may_be_small() {
    let folder = Folder::with_papers();
    folder.shell("ulimit -s 128 && listochur mark good").gives(0, SAMPLE_LINES);
}

#[test]
fn a_paper_in_pieces() {
    let folder = Folder::with_papers();
    folder.shell("{ head -c 5 good; sleep 0.05; tail -c +6 good; } | listochur mark -").gives(0, SAMPLE_LINES);
    folder.shell("mkfifo pipe && { cat good >pipe & listochur mark pipe; }").gives(0, SAMPLE_LINES);
}

#[test]
fn progress_is_for_a_terminal_and_many_papers() {
    let folder = Folder::new();
    folder.folder("pile");
    for number in 0..300 {
        folder.file(format!("pile/{number}"), &SAMPLE);
    }
    let ran = folder.run(&["mark", "pile"]);
    assert_eq!((ran.status, ran.err.as_str()), (Some(0), ""));
    // standard error is a terminal, standard output a file or the terminal too
    let script = "import os, pty, sys\n\
                  pid, end = pty.fork()\n\
                  if pid == 0:\n\
                  \x20   if sys.argv[1]: os.dup2(os.open(sys.argv[1], os.O_WRONLY | os.O_CREAT), 1)\n\
                  \x20   os.execv(sys.argv[2], sys.argv[2:])\n\
                  said = b''\n\
                  try:\n    while True:\n        part = os.read(end, 4096)\n        if not part: break\n        said += part\n\
                  except OSError: pass\n\
                  print(os.waitstatus_to_exitcode(os.waitpid(pid, 0)[1]), said)\n";
    let shown = |papers: &str, out: &str| {
        let mut python = Command::new("python3");
        let ran = self::ran(python.args(["-c", script, out, LISTOCHUR, "mark", papers]).current_dir(&folder.0), b"");
        assert_eq!((ran.status, ran.err.as_str()), (Some(0), ""));
        ran.out().to_owned()
    };
    let many = shown("pile", "out");
    assert!(many.starts_with("0 b'\\r0 of 300 papers"), "{many}");
    assert!(many.ends_with("\\r\\x1b[K'\n"), "{many}");
    let out = fs::read_to_string(folder.0.join("out")).unwrap();
    assert!(out.ends_with("papers 300, accepted 300, refused 0, rows 1800, greatest peak 2\n"));
    assert_eq!(shown("pile/0", "out"), "0 b''\n");
    // the count is taken away before the line of a paper
    let among = shown("pile", "");
    assert!(among.starts_with("0 b'\\r0 of 300 papers\\r\\x1b[Kpile/0: entry 0"), "{among}");
    assert!(among.contains("\\r\\npile/99: accepted\\r\\n"), "{among}");
}
