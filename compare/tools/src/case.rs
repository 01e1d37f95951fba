//! The protocol: one case a line, one answer a line. README.md describes it.

use std::fmt;

use reference::{Tally, as_message, display, fragment, fragment_outside, limits, paper, paper_outside};

use crate::definition;

#[derive(Clone, Debug, PartialEq, Eq)]
pub enum Case {
    Fragment { main: u32, alt: u32, bytes: Vec<u8> },
    Limits { bytes: Vec<u8> },
    Paper { bytes: Vec<u8> },
    Display { body: Vec<u8>, init: Vec<u8>, offset: u32, mark: u32 },
    Tally { tally: Tally, number: u32, rows: u32, peak: u32 },
}

/// The most bytes that the repeat form may stand for.
const MOST_BYTES: usize = 1_000_000;

/// A tail of equal bytes this long is written in the repeat form.
const LONG_TAIL: usize = 100;

impl Case {
    pub fn parse(line: &str) -> Result<Self, String> {
        let fields: Vec<&str> = line.split(' ').collect();
        let wanted = match fields[0] {
            "fragment" => 4,
            "limits" | "paper" => 2,
            "display" => 5,
            "tally" => 8,
            word => return Err(format!("unknown word {word:?}")),
        };
        if fields.len() != wanted {
            return Err(format!("{} fields, and {:?} has {wanted}", fields.len(), fields[0]));
        }
        let number = |at: usize| parse_u32(fields[at]);
        let bytes = |at: usize| parse_bytes(fields[at]);
        Ok(match fields[0] {
            "fragment" => Self::Fragment { main: number(1)?, alt: number(2)?, bytes: bytes(3)? },
            "limits" => Self::Limits { bytes: bytes(1)? },
            "paper" => Self::Paper { bytes: bytes(1)? },
            "display" => Self::Display { body: bytes(1)?, init: bytes(2)?, offset: number(3)?, mark: number(4)? },
            _ => Self::Tally {
                tally: Tally { fragments: number(1)?, accepted: number(2)?, rows: number(3)?, peak: number(4)? },
                number: number(5)?,
                rows: number(6)?,
                peak: number(7)?,
            },
        })
    }

    pub fn word(&self) -> &'static str {
        match self {
            Self::Fragment { .. } => "fragment",
            Self::Limits { .. } => "limits",
            Self::Paper { .. } => "paper",
            Self::Display { .. } => "display",
            Self::Tally { .. } => "tally",
        }
    }

    /// How many bytes the case has.
    pub fn size(&self) -> usize {
        match self {
            Self::Fragment { bytes, .. } | Self::Limits { bytes } | Self::Paper { bytes } => bytes.len(),
            Self::Display { body, init, .. } => body.len() + init.len(),
            Self::Tally { .. } => 0,
        }
    }

    /// The answer line, and the verdict number unless the case is outside the
    /// limits that the Rust shares. A display has no number, and counts as 0.
    pub fn answer(&self) -> (Option<u32>, String) {
        let word = self.word();
        match self {
            Self::Fragment { main, alt, bytes } => {
                if fragment_outside(bytes, *main, *alt) {
                    return (None, format!("{word} outside"));
                }
                let r = fragment(bytes, *main, *alt);
                (Some(r.number), format!("{word} {} {} {} {}", r.number, r.offset, r.a, r.b))
            }
            Self::Limits { bytes } => {
                let r = limits(bytes);
                (Some(r.number), format!("{word} {} {} {} {}", r.number, r.offset, r.a, r.b))
            }
            Self::Paper { bytes } => {
                if paper_outside(bytes) {
                    return (None, format!("{word} outside"));
                }
                let r = paper(bytes);
                (Some(r.number), format!("{word} {} {} {} {} {}", r.number, r.entry, r.offset, r.a, r.b))
            }
            Self::Display { body, init, offset, mark } => {
                let shown = display(body, init, *offset as usize, *mark);
                (Some(0), format!("{word} {}", show_bytes(shown, LONG_TAIL)))
            }
            Self::Tally { tally, number, rows, peak } => {
                let mut t = *tally;
                let answer = t.gain(*number, *rows, *peak);
                (Some(answer), format!("{word} {answer} {} {} {} {}", t.fragments, t.accepted, t.rows, t.peak))
            }
        }
    }
}

impl Case {
    /// The same as the marker answers: the Rust's one message for 9, 24 and 25 is told apart by the plain reading, which has to
    /// agree that it is one of them.
    pub fn told_apart(&self) -> (Option<u32>, String) {
        let (number, line) = self.answer();
        let told = match self {
            Self::Fragment { main, alt, bytes } if number == Some(9) => {
                definition::analysis(bytes, *main, *alt, &mut vec![0; 3 * bytes.len()]).answer.number
            }
            Self::Paper { bytes } if number == Some(9) => definition::mark(bytes, &mut [0; 24_000]).answer.number,
            _ => return (number, line),
        };
        assert_eq!(as_message(told.into()), 9, "{self}");
        (Some(told), line.replacen(" 9 ", &format!(" {told} "), 1))
    }

    /// The line with the bytes as hex alone.
    pub fn plain(&self) -> String {
        self.line(usize::MAX)
    }

    /// The line, with a tail of this many equal bytes or more in the repeat form.
    fn line(&self, long_tail: usize) -> String {
        let word = self.word();
        let show = |bytes: &[u8]| show_bytes(bytes, long_tail);
        match self {
            Self::Fragment { main, alt, bytes } => format!("{word} {main} {alt} {}", show(bytes)),
            Self::Limits { bytes } | Self::Paper { bytes } => format!("{word} {}", show(bytes)),
            Self::Display { body, init, offset, mark } => format!("{word} {} {} {offset} {mark}", show(body), show(init)),
            Self::Tally { tally: t, number, rows, peak } => {
                format!("{word} {} {} {} {} {number} {rows} {peak}", t.fragments, t.accepted, t.rows, t.peak)
            }
        }
    }
}

impl fmt::Display for Case {
    fn fmt(&self, f: &mut fmt::Formatter<'_>) -> fmt::Result {
        f.write_str(&self.line(LONG_TAIL))
    }
}

/// `-` for none, or hex, with a tail of this many equal bytes or more in the repeat form.
fn show_bytes(bytes: &[u8], long_tail: usize) -> String {
    let Some(last) = bytes.last() else {
        return "-".into();
    };
    let tail = bytes.iter().rev().take_while(|byte| *byte == last).count();
    let repeat = tail >= long_tail;
    let hex = &bytes[..bytes.len() - if repeat { tail - 1 } else { 0 }];
    let mut shown: String = hex.iter().map(|byte| format!("{byte:02x}")).collect();
    if repeat {
        shown += &format!("*{tail}");
    }
    shown
}

/// `-`, or hex, or hex and `*N`: the last byte stands N times.
fn parse_bytes(field: &str) -> Result<Vec<u8>, String> {
    if field == "-" {
        return Ok(Vec::new());
    }
    let (hex, times) = match field.split_once('*') {
        Some((hex, times)) => (hex, parse_u32(times)? as usize),
        None => (field, 1),
    };
    let digit = |byte: u8| match byte {
        b'0'..=b'9' => Ok(byte - b'0'),
        b'a'..=b'f' => Ok(byte - b'a' + 10),
        _ => Err(format!("bad hex: a byte {byte:#04x}, not one of 0 to 9 and a to f")),
    };
    let (pairs, odd) = hex.as_bytes().as_chunks::<2>();
    let mut bytes = pairs.iter().map(|[high, low]| Ok(digit(*high)? << 4 | digit(*low)?)).collect::<Result<Vec<u8>, String>>()?;
    if !odd.is_empty() {
        return Err("bad hex: an odd number of digits".into());
    }
    let Some(&last) = bytes.last() else {
        return Err("bad hex: no digits; no bytes are written -".into());
    };
    if times == 0 || bytes.len() - 1 + times > MOST_BYTES.max(bytes.len()) {
        return Err(format!("bad repeat: {times} times, not from 1 up to {MOST_BYTES} bytes in all"));
    }
    bytes.resize(bytes.len() - 1 + times, last);
    Ok(bytes)
}

fn parse_u32(field: &str) -> Result<u32, String> {
    if field.is_empty() || !field.bytes().all(|byte| byte.is_ascii_digit()) {
        return Err(format!("bad number {field:?}"));
    }
    field.parse().map_err(|_| format!("bad number {field}: over 4294967295"))
}
