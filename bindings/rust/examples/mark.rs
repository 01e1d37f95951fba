//! Marks the sample paper of document 01, section 6, prints its lines and its log, analyses a fragment that is refused and says
//! why in words, shows the items of an end, keeps a tally, sums up a sitting, and lists a fragment and
//! assembles it again.
use listochur::Item;
use std::io::{self, Write};

/// These items of a stack, from bottom to top: their bytes, or `unknown`.
fn show(stack: &str, items: &[Item]) {
    for item in items {
        match item.bytes() {
            Some(bytes) => println!("{stack} {}", bytes.iter().map(|b| format!("{b:02x}")).collect::<String>()),
            None => println!("{stack} unknown"),
        }
    }
}

fn main() -> io::Result<()> {
    let paper = [1, 0, 1, 0, 0x0e, 0, 0, 0, 1, 0, 0x0e, 0, 6, 0, 0x63, 0x51, 0x67, 0x52, 0x68, 0x75];
    let mut log = [0; 24_000];
    let p = listochur::mark_paper(&paper, &mut log);
    if p.number == 0 {
        println!("accepted: {} rows, peak {}", p.rows, p.peak);
    } else {
        println!("refused {} at {} {} {} {}", p.number, p.entry, p.offset, p.first, p.second);
    }

    let mut text = [0; listochur::LINES_BYTES];
    let lines = listochur::mark_lines(&paper, &mut log, &mut text);
    io::stdout().write_all(&text[..lines.size])?;

    // How much to lend, and then the log.
    let mut rows = vec![0; listochur::log_lines(&paper, &mut log, &mut []).size];
    listochur::log_lines(&paper, &mut log, &mut rows);
    io::stdout().write_all(&rows)?;

    let v = listochur::analyze(&[0x51, 0x79], 1, 0, &mut log);
    println!("{} at {}, {}, {}", v.number, v.offset, v.first, v.second);
    let mut words = [0; listochur::REASON_BYTES];
    let size = listochur::reason(v.number, v.first, v.second, &mut words);
    println!("{}", String::from_utf8_lossy(&words[..size]));

    // 1; 05 06, to alt; a plain effect that pushes
    let (_, end) = listochur::analyze_items(&[0x51, 0x02, 0x05, 0x06, 0x6b, 0xb2], 0, 0, &mut log);
    show("main", end.main());
    show("alt", end.alt());

    // The paper has one fragment, so its verdict is that fragment's.
    let mut tally = listochur::Tally::default();
    listochur::gain(&mut tally, p.number, p.rows, p.peak);
    listochur::gain(&mut tally, v.number, v.rows, v.peak);
    println!("{} fragments, {} accepted, {} rows, peak {}", tally.fragments, tally.accepted, tally.rows, tally.peak);

    let sums = listochur::sums(&[p.number, p.peak, v.number, v.peak]);
    println!(
        "{} with 0, {} with 7, peaks of the accepted: sum {}, count {}",
        sums.counts[0], sums.counts[7], sums.sum, sums.count
    );

    let mut listing = [0; 80];
    let listed = listochur::list(&[0x76, 0x4c, 0x01, 0x05, 0x50], &mut listing);
    println!("{}", String::from_utf8_lossy(&listing[..listed.size]));
    let mut shortest = [0; 80];
    let assembled = listochur::assemble(&listing[..listed.size], &mut shortest);
    println!("{}", shortest[..assembled.size].iter().map(|b| format!("{b:02x}")).collect::<String>());
    Ok(())
}
