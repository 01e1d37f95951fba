//! `side_by_side quick|full [--seed N] [--threads N] [--only PART]`: compares, and ends with a report of counts. Code 0 if
//! there is no difference, 1 if there is one, 2 if the words are not understood.

use std::io::{IsTerminal, Write, stderr};
use std::process::ExitCode;
use std::thread::available_parallelism;

use side_by_side::marker::Proved;
use side_by_side::parts::{Sizes, parts};
use side_by_side::run::{Counts, Outcome, Tally, run};

const USAGE: &str = "usage: side_by_side quick|full [--seed N] [--threads N] [--only PART]";

struct Words {
    full: bool,
    seed: u64,
    threads: usize,
    only: Option<String>,
}

fn words(mut given: impl Iterator<Item = String>) -> Option<Words> {
    let full = match given.next()?.as_str() {
        "quick" => false,
        "full" => true,
        _ => return None,
    };
    let mut words = Words { full, seed: 1, threads: available_parallelism().map_or(1, usize::from), only: None };
    while let Some(word) = given.next() {
        let value = given.next()?;
        match word.as_str() {
            "--seed" => words.seed = value.parse().ok()?,
            "--threads" => words.threads = value.parse().ok().filter(|threads| *threads > 0)?,
            "--only" => words.only = Some(value),
            _ => return None,
        }
    }
    Some(words)
}

fn main() -> ExitCode {
    let Some(words) = words(std::env::args().skip(1)) else {
        eprintln!("{USAGE}");
        return ExitCode::from(2);
    };
    let mut parts = parts::<Proved>(if words.full { &Sizes::FULL } else { &Sizes::QUICK });
    if let Some(only) = &words.only {
        let names: Vec<_> = parts.iter().map(|part| part.name).collect();
        parts.retain(|part| part.name == only);
        if parts.is_empty() {
            eprintln!("no part {only:?}; there are {names:?}");
            return ExitCode::from(2);
        }
    }
    let outcome = run(&Proved, &parts, words.seed, words.threads, &progress);
    progress("");
    let mode = if words.full { "full" } else { "quick" };
    println!("{mode}, seed {}, threads {}", words.seed, words.threads);
    report(&outcome);
    ExitCode::from(u8::from(outcome.found.is_some()))
}

/// One line on standard error, rewritten in place.
fn progress(line: &str) {
    let mut stderr = stderr();
    let written = if stderr.is_terminal() { write!(stderr, "\r\x1b[K{line}") } else { write!(stderr, "\r{line:<78}") };
    // Nothing depends on it.
    let _ = written.and_then(|()| stderr.flush());
}

fn report(outcome: &Outcome) {
    println!("\n{:<27}{:>12}{:>12}{:>12}{:>10}", "part", "cases", "accepted", "bytes each", "seconds");
    let mut sum = Tally::default();
    let mut seconds = 0.0;
    let line = |name: &str, tally: &Tally, seconds: f64| {
        let each = tally.bytes() as f64 / tally.cases().max(1) as f64;
        println!("{name:<27}{:>12}{:>12}{each:>12.1}{seconds:>10.1}", tally.cases(), tally.accepted());
    };
    for part in &outcome.parts {
        line(part.name, &part.tally, part.seconds);
        sum.add(&part.tally);
        seconds += part.seconds;
    }
    line("all", &sum, seconds);

    let row = |first: &str, kinds: [String; 6]| {
        println!("{first:>14}{}", kinds.map(|kind| format!("{kind:>14}")).concat());
    };
    println!();
    let kinds = ["fragments", "limit checks", "papers", "pairs", "by a map", "papers by one"];
    row("verdict number", kinds.map(String::from));
    for number in 0..sum.fragments.numbers.len() {
        let times = sum.judged().map(|counts| counts.numbers[number]);
        if times != [0; 6] {
            row(&number.to_string(), times.map(|times| times.to_string()));
        }
    }
    // The additions of document 01: see README.md.
    let unasked = |counts: &Counts| [1, 4, 5, 19, 21].iter().map(|number| counts.numbers[*number]).sum::<u64>();
    let by_maps = sum.fragments_by.cases + sum.papers_by.cases;
    let alone = unasked(&sum.fragments)
        + unasked(&sum.papers)
        + sum.pairs.numbers[19]
        + sum.pairs.numbers[21]
        + sum.displays.cases
        + by_maps;
    println!("\nanswered by the Rust: {}; not by it (1, 4, 5, 19, 21, display, maps): {alone}", sum.cases() - alone);
    println!("by lent maps and limits: {by_maps}; accepted ones asked again at another limit: {}", sum.raised);
    println!(
        "accepted in plain mode and asked in the examined one: {}; 30 there: {}; told by replays: {}",
        sum.examined, sum.long, sum.decided
    );
    let r = sum.replays;
    println!(
        "replays: {} of {} accepted fragments, all choices tried for {}; {} instructions reached, {} ran off the end",
        r.replays, r.fragments, r.exhaustive, r.reached, r.ran_off
    );
    match &outcome.found {
        None => println!("differences: none"),
        Some(found) => {
            let (case, difference) = &**found;
            println!("differences: the smallest case found, held against {}", difference.against);
            println!("  {case}\n  ours   {}\n  theirs {}", difference.ours, difference.theirs);
        }
    }
}
