//! Answers the cases on standard input, one line each: what the Rust says.

use std::io::{self, BufRead, Read, Write};
use std::process::ExitCode;

use tools::case::Case;

fn main() -> ExitCode {
    let stdout = io::stdout().lock();
    let mut out = io::BufWriter::new(stdout);
    let result = run(&mut io::BufReader::new(io::stdin().lock()), &mut out);
    // Answers to the lines before a bad one are given in any case.
    let flushed = out.flush();
    match result.and(flushed.map_err(Stop::from)) {
        Ok(()) => ExitCode::SUCCESS,
        Err(Stop::BadInput(message)) => {
            eprintln!("{message}");
            ExitCode::from(2)
        }
        Err(Stop::Io(error)) => {
            eprintln!("{error}");
            ExitCode::from(1)
        }
    }
}

enum Stop {
    BadInput(String),
    Io(io::Error),
}

impl From<io::Error> for Stop {
    fn from(error: io::Error) -> Self {
        Self::Io(error)
    }
}

fn run<R: Read>(input: &mut io::BufReader<R>, out: &mut impl Write) -> Result<(), Stop> {
    let mut line = Vec::new();
    for number in 1u64.. {
        line.clear();
        if input.read_until(b'\n', &mut line)? == 0 {
            break;
        }
        let text = line.strip_suffix(b"\n").unwrap_or(&line);
        let bad = |message: String| Stop::BadInput(format!("line {number}: {message}"));
        let text = std::str::from_utf8(text).map_err(|_| bad("not UTF-8".into()))?;
        let (_, answer) = Case::parse(text).map_err(bad)?.answer();
        writeln!(out, "{answer}")?;
        // Whoever waits for an answer before the next case gets it.
        if input.buffer().is_empty() {
            out.flush()?;
        }
    }
    Ok(())
}
