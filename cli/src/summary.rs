//! The line at the end of several papers.
use std::collections::BTreeMap;
use std::fmt::Write;

use listochur::{PaperVerdict, Tally, gain};

/// The proved tally of the papers, how many were refused with each number, and those that are in neither.
#[derive(Default)]
pub struct Summary {
    pub tally: Tally,
    pub refused: BTreeMap<u32, u64>,
    /// Papers and folders that could not be read.
    pub unread: u64,
    /// Papers that the tally has no room for: its answer was 22.
    pub beyond: u64,
}

impl Summary {
    pub fn gain(&mut self, verdict: &PaperVerdict) {
        if gain(&mut self.tally, verdict.number, verdict.rows, verdict.peak) != 0 {
            self.beyond += 1;
        } else if verdict.number != 0 {
            *self.refused.entry(verdict.number).or_default() += 1;
        }
    }

    /// It has no `: `, which each line of a paper has behind the paper's name.
    pub fn line(&self) -> String {
        let Tally { fragments, accepted, rows, peak } = self.tally;
        let refused: u64 = self.refused.values().sum();
        let mut text = format!("papers {fragments}, accepted {accepted}, refused {refused}");
        let mut add = |part: std::fmt::Arguments| {
            // writing to a string does not fail
            let _ = text.write_fmt(part);
        };
        for (count, (number, times)) in self.refused.iter().enumerate() {
            add(format_args!("{}{times} with {number}", if count == 0 { " (" } else { ", " }));
        }
        add(format_args!("{}, rows {rows}, greatest peak {peak}", if refused == 0 { "" } else { ")" }));
        if self.beyond > 0 {
            add(format_args!(", {} more that the tally has no room for (22)", self.beyond));
        }
        if self.unread > 0 {
            add(format_args!(", not read {}", self.unread));
        }
        text
    }
}

#[cfg(test)]
mod tests {
    use super::Summary;
    use listochur::{PaperVerdict, Tally};

    fn verdict(number: u32, rows: usize, peak: u32) -> PaperVerdict {
        PaperVerdict { number, entry: 0, offset: 0, first: 0, second: 0, rows, peak }
    }

    fn line(verdicts: &[PaperVerdict]) -> String {
        let mut summary = Summary::default();
        verdicts.iter().for_each(|verdict| summary.gain(verdict));
        summary.line()
    }

    #[test]
    fn counts() {
        assert_eq!(line(&[]), "papers 0, accepted 0, refused 0, rows 0, greatest peak 0");
        assert_eq!(line(&[verdict(0, 6, 2), verdict(0, 1, 9)]), "papers 2, accepted 2, refused 0, rows 7, greatest peak 9");
        assert_eq!(
            line(&[verdict(19, 0, 0), verdict(0, 3, 4), verdict(7, 1, 0), verdict(19, 0, 0)]),
            "papers 4, accepted 1, refused 3 (1 with 7, 2 with 19), rows 4, greatest peak 4"
        );
    }

    #[test]
    fn what_was_not_read_is_said() {
        let summary = Summary { unread: 2, ..Summary::default() };
        assert_eq!(summary.line(), "papers 0, accepted 0, refused 0, rows 0, greatest peak 0, not read 2");
    }

    #[test]
    fn a_full_tally_stays_and_is_said() {
        let tally = Tally { fragments: 5, accepted: 5, rows: u32::MAX - 1, peak: 3 };
        let mut summary = Summary { tally, ..Summary::default() };
        summary.gain(&verdict(7, 2, 0));
        summary.gain(&verdict(0, 2, 244));
        assert_eq!(summary.tally, tally);
        let more = "2 more that the tally has no room for (22)";
        assert_eq!(summary.line(), format!("papers 5, accepted 5, refused 0, rows 4294967294, greatest peak 3, {more}"));
        summary.gain(&verdict(7, 1, 0));
        assert_eq!(summary.tally.fragments, 6);
    }

    #[test]
    fn no_line_is_like_that_of_a_paper() {
        let all: Vec<_> = (0..listochur::NUMBERS as u32).map(|number| verdict(number, 1, 1)).collect();
        assert!(!line(&all).contains(": "));
    }
}
