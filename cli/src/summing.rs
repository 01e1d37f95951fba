//! `sums`: how often each verdict number stands in registers, and the peaks of the accepted.
use std::ffi::OsString;
use std::fmt::Write;

use listochur::Sums;

use crate::marking::reason;
use crate::names::shown;
use crate::papers::{Source, single};
use crate::streams::Output;
use crate::{Status, Stop, register};

/// `sums`. All registers are one sitting; where one cannot be read there are no sums.
pub fn sums(out: &mut Output, registers: &[OsString]) -> Result<Status, Stop> {
    let mut sitting = Vec::new();
    for word in registers {
        let pairs = register::pairs(&single(word)?).map_err(|wrong| {
            Stop::Failed(format!("{} is no register of mark --csv: {wrong}", shown(Source::new(word).name())))
        })?;
        sitting.extend(pairs.into_iter().flatten());
    }
    let sums = listochur::sums(&sitting);
    out.write(told(&sums).as_bytes())?;
    Ok(Status::of(sums.number))
}

/// A line for each number that occurs, and one for the peaks of the accepted; or the refusal.
fn told(sums: &Sums) -> String {
    if sums.number != 0 {
        return format!("refused {}, {}\n", sums.number, reason(sums.number, 0, 0));
    }
    let mut text = String::new();
    for (number, times) in (0..).zip(sums.counts).filter(|(_, times)| *times > 0) {
        // writing to a string does not fail
        let _ = writeln!(text, "{times} with {number}, {}", register::word(number, 0, 0));
    }
    text + &format!("peaks of the accepted: sum {}, count {}\n", sums.sum, sums.count)
}

#[cfg(test)]
mod tests {
    use super::told;

    #[test]
    fn numbers_that_occur() {
        assert_eq!(told(&listochur::sums(&[])), "peaks of the accepted: sum 0, count 0\n");
        assert_eq!(
            told(&listochur::sums(&[7, 0, 0, 5, 23, 0, 0, 244, 7, 0])),
            "2 with 0, accepted\n2 with 7, main dry\n1 with 23, bad sitting\npeaks of the accepted: sum 249, count 2\n"
        );
        assert_eq!(told(&listochur::sums(&[0])), "refused 23, bad sitting\n");
    }
}
