//! `generate SEED COUNT KIND` prints COUNT cases made from SEED.

use std::io::{self, Write};
use std::process::ExitCode;

use tools::generate::{Kind, case};
use tools::rng::Rng;

fn main() -> ExitCode {
    let arguments: Vec<String> = std::env::args().skip(1).collect();
    let Some((seed, count, kind)) = read(&arguments) else {
        eprintln!(
            "usage: generate SEED COUNT KIND\nKIND is fragment, limits, paper, all, display or tally; SEED and COUNT are below 2^64"
        );
        return ExitCode::from(2);
    };
    let mut out = io::BufWriter::new(io::stdout().lock());
    let mut rng = Rng::new(seed);
    for _ in 0..count {
        if let Err(error) = writeln!(out, "{}", case(&mut rng, kind)) {
            eprintln!("{error}");
            return ExitCode::from(1);
        }
    }
    match out.flush() {
        Ok(()) => ExitCode::SUCCESS,
        Err(error) => {
            eprintln!("{error}");
            ExitCode::from(1)
        }
    }
}

fn read(arguments: &[String]) -> Option<(u64, u64, Kind)> {
    let [seed, count, kind] = arguments else {
        return None;
    };
    Some((seed.parse().ok()?, count.parse().ok()?, Kind::parse(kind)?))
}
