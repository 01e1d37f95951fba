//! The register: a record for each paper, as comma-separated values or as JSON.
//!
//! A record's numbers are those of the proved verdict. What it has of each fragment is read from the lines that the proved
//! function wrote.
use std::fmt::Write;

use listochur::PaperVerdict;

use crate::arguments::Form;
use crate::marking::{reason, split};
use crate::names::shown;

/// The first line of comma-separated values: the columns in their order.
pub const COLUMNS: &str = "name,number,word,entry,offset,first,second,rows,peak,fragments\n";

/// What a line says of a fragment that was accepted.
#[derive(Clone, Debug, PartialEq, Eq)]
pub struct Fragment {
    /// `entry K` or `state`.
    pub fragment: String,
    pub peak: u64,
    /// The heights of main and alt; none where no run comes to the end.
    pub end: Option<(u64, u64)>,
}

/// Reads such a line; `None` if it is none.
pub fn fragment(line: &[u8]) -> Option<Fragment> {
    let words: Vec<&str> = str::from_utf8(line).ok()?.split(' ').collect();
    let (fragment, rest) = match words.as_slice() {
        ["entry", number, rest @ ..] => (format!("entry {}", count(number)?), rest),
        ["state", rest @ ..] => ("state".into(), rest),
        _ => return None,
    };
    let (peak, end) = match rest {
        ["peak", peak, "end", "none"] => (peak, None),
        ["peak", peak, "end", main, alt] => (peak, Some((count(main)?, count(alt)?))),
        _ => return None,
    };
    Some(Fragment { fragment, peak: count(peak)?, end })
}

fn count(word: &str) -> Option<u64> {
    word.parse().ok()
}

/// The records of a register, one after another.
pub struct Records {
    pub form: Form,
    begun: bool,
}

impl Records {
    pub fn new(form: Form) -> Self {
        Self { form, begun: false }
    }

    pub fn start(&self) -> &'static [u8] {
        match self.form {
            Form::Lines => b"",
            Form::Csv => COLUMNS.as_bytes(),
            Form::Json => b"[",
        }
    }

    pub fn end(&self) -> &'static [u8] {
        match self.form {
            Form::Json => b"\n]\n",
            _ => b"",
        }
    }

    /// The record of a paper with this verdict and these lines; `None` if a line is not understood.
    pub fn record(&mut self, name: &[u8], verdict: &PaperVerdict, lines: &[u8]) -> Option<Vec<u8>> {
        let mut accepted: Vec<&[u8]> = split(lines).collect();
        // the last line is the verdict
        accepted.pop()?;
        let fragments = accepted.iter().map(|line| fragment(line)).collect::<Option<Vec<_>>>()?;
        let record = match self.form {
            Form::Json => json(name, verdict, &fragments, self.begun),
            _ => csv(name, verdict, &accepted.join(&b"; "[..])),
        };
        self.begun = true;
        Some(record)
    }
}

/// The word of a verdict: its words up to the figures.
pub fn word(number: u32, first: u64, second: u64) -> String {
    let words = reason(number, first, second);
    words.split_once(':').map_or(words.as_str(), |(word, _)| word).to_owned()
}

/// A record and a newline. The fragments are the lines as they were written, parted by `; `.
fn csv(name: &[u8], verdict: &PaperVerdict, fragments: &[u8]) -> Vec<u8> {
    let PaperVerdict { number, entry, offset, first, second, rows, peak } = *verdict;
    let numbers = format!(",{entry},{offset},{first},{second},{rows},{peak},");
    let start = if formula(name) { &b"./"[..] } else { b"" };
    let name = field(&[start, name].concat());
    let word = field(word(number, first, second).as_bytes());
    [&name, &format!(",{number},").into_bytes(), &word, numbers.as_bytes(), &field(fragments), b"\n"].concat()
}

/// Whether a spreadsheet would take the name for a formula. Such a name is written with `./` before it, which names the same
/// file. `-` alone is standard input, and no formula.
fn formula(name: &[u8]) -> bool {
    matches!(name, [b'=' | b'+' | b'@' | b'\t' | b'\r', ..] | [b'-', _, ..])
}

/// A field, in quotes where it has a comma, a quote, a line break or a space at an end; a quote in it is doubled.
fn field(text: &[u8]) -> Vec<u8> {
    let quoted = text.iter().any(|byte| b",\"\r\n".contains(byte)) || text.starts_with(b" ") || text.ends_with(b" ");
    if !quoted {
        return text.into();
    }
    let mut field = vec![b'"'];
    for byte in text {
        if *byte == b'"' {
            field.push(b'"');
        }
        field.push(*byte);
    }
    field.push(b'"');
    field
}

/// Comma-separated values that are read back.
struct Reader<'a> {
    rest: &'a [u8],
    /// The line that the rest begins in, from 1.
    line: usize,
}

impl Reader<'_> {
    fn byte(&mut self) -> Option<u8> {
        let (byte, rest) = self.rest.split_first()?;
        self.rest = rest;
        self.line += usize::from(*byte == b'\n');
        Some(*byte)
    }

    fn next_is(&mut self, byte: u8) -> bool {
        self.rest.first() == Some(&byte) && self.byte().is_some()
    }

    /// The next field, without its quotes, and whether it is the last of its record.
    fn field(&mut self) -> Result<(Vec<u8>, bool), &'static str> {
        let mut field = Vec::new();
        let quoted = self.next_is(b'"');
        while quoted {
            match self.byte() {
                Some(b'"') if !self.next_is(b'"') => break,
                Some(byte) => field.push(byte),
                None => return Err("a quote is open at the end"),
            }
        }
        loop {
            match self.byte() {
                Some(b',') => return Ok((field, false)),
                Some(b'\n') => return Ok((field, true)),
                Some(_) if quoted => return Err("something stands behind a closing quote"),
                Some(b'"') => return Err("a quote stands in a field without quotes"),
                Some(byte) => field.push(byte),
                None => return Err("the record has no newline"),
            }
        }
    }

    fn record(&mut self) -> Result<Vec<Vec<u8>>, &'static str> {
        let mut record = Vec::new();
        loop {
            let (field, last) = self.field()?;
            record.push(field);
            if last {
                return Ok(record);
            }
        }
    }
}

/// A number of 32 bits, digits alone.
fn number(column: &str, field: &[u8]) -> Result<u32, String> {
    let digits = str::from_utf8(field).ok().filter(|text| !text.is_empty() && text.bytes().all(|byte| byte.is_ascii_digit()));
    digits
        .and_then(|text| text.parse().ok())
        .ok_or_else(|| format!("{column} is a number up to {}, and '{}' is none", u32::MAX, shown(field)))
}

/// Number and peak of each record of comma-separated values; where they are no such register, what is wrong, and where.
pub fn pairs(text: &[u8]) -> Result<Vec<[u32; 2]>, String> {
    let Some(rest) = text.strip_prefix(COLUMNS.as_bytes()) else {
        return Err("line 1 does not name its columns".into());
    };
    let mut reader = Reader { rest, line: 2 };
    let mut pairs = Vec::new();
    while !reader.rest.is_empty() {
        let line = reader.line;
        let at = |wrong: String| format!("record at line {line}: {wrong}");
        let record = reader.record().map_err(|wrong| at(wrong.into()))?;
        let [_, own, _, _, _, _, _, _, peak, _] = record.as_slice() else {
            return Err(at(format!("it has {} fields, and not 10", record.len())));
        };
        pairs.push([number("number", own).map_err(at)?, number("peak", peak).map_err(at)?]);
    }
    Ok(pairs)
}

/// An object on a line of its own, with a comma before it where one has been written.
fn json(name: &[u8], verdict: &PaperVerdict, fragments: &[Fragment], comma: bool) -> Vec<u8> {
    let PaperVerdict { number, entry, offset, first, second, rows, peak } = *verdict;
    let fragments: Vec<String> = fragments
        .iter()
        .map(|Fragment { fragment, peak, end }| {
            let end = end.map_or("null".into(), |(main, alt)| format!("{{\"main\":{main},\"alt\":{alt}}}"));
            format!("{{\"fragment\":{},\"peak\":{peak},\"end\":{end}}}", string(fragment.as_bytes()))
        })
        .collect();
    format!(
        "{}\n{{\"name\":{},\"number\":{number},\"word\":{},\"entry\":{entry},\"offset\":{offset},\"first\":{first},\
         \"second\":{second},\"rows\":{rows},\"peak\":{peak},\"fragments\":[{}]}}",
        if comma { "," } else { "" },
        string(name),
        string(word(number, first, second).as_bytes()),
        fragments.join(",")
    )
    .into_bytes()
}

/// A JSON string. A byte that is no UTF-8 is the lone surrogate that Python's `surrogateescape` has for it.
fn string(text: &[u8]) -> String {
    let mut json = String::from('"');
    let escape = |json: &mut String, code: u32| {
        // writing to a string does not fail
        let _ = write!(json, "\\u{code:04x}");
    };
    for chunk in text.utf8_chunks() {
        for char in chunk.valid().chars() {
            match char {
                '"' | '\\' => json.extend(['\\', char]),
                '\n' => json.push_str("\\n"),
                '\0'..='\x1f' | '\x7f'..='\u{9f}' | '\u{2028}' | '\u{2029}' => escape(&mut json, char as u32),
                _ => json.push(char),
            }
        }
        for byte in chunk.invalid() {
            escape(&mut json, 0xdc00 + u32::from(*byte));
        }
    }
    json.push('"');
    json
}

#[cfg(test)]
mod tests {
    use super::*;

    #[test]
    fn lines_of_fragments() {
        let made = |fragment: &str, peak, end| Some(Fragment { fragment: fragment.into(), peak, end });
        assert_eq!(fragment(b"entry 0 peak 2 end 1 0"), made("entry 0", 2, Some((1, 0))));
        assert_eq!(fragment(b"entry 31 peak 244 end none"), made("entry 31", 244, None));
        assert_eq!(fragment(b"state peak 3 end 0 1"), made("state", 3, Some((0, 1))));
        for line in ["", "accepted", "refused 7 at 0 5 3 2", "entry 0", "entry 0 peak 2 end 1", "entry x peak 2 end none"] {
            assert_eq!(fragment(line.as_bytes()), None, "{line}");
        }
    }

    #[test]
    fn fields() {
        let shown = |text: &str| String::from_utf8(field(text.as_bytes())).unwrap();
        assert_eq!(shown("a b"), "a b");
        assert_eq!(shown("a,b"), "\"a,b\"");
        assert_eq!(shown("a\"b"), "\"a\"\"b\"");
        assert_eq!(shown("a\nb\r"), "\"a\nb\r\"");
        assert_eq!(shown(" a"), "\" a\"");
        assert_eq!(shown(""), "");
        assert_eq!(field(b"\xff,"), b"\"\xff,\"");
    }

    #[test]
    fn names_that_a_spreadsheet_would_compute() {
        for name in ["=1+1", "+1", "-1", "@a", "\t=1"] {
            assert!(formula(name.as_bytes()), "{name}");
        }
        for name in ["-", "a=1", "./=1", "1"] {
            assert!(!formula(name.as_bytes()), "{name}");
        }
    }

    #[test]
    fn strings() {
        assert_eq!(string(b"a b"), "\"a b\"");
        assert_eq!(string(b"\"\\\n\t\x7f"), "\"\\\"\\\\\\n\\u0009\\u007f\"");
        assert_eq!(string("é\u{2028}".as_bytes()), "\"é\\u2028\"");
        assert_eq!(string(b"a\xff\xc3"), "\"a\\udcff\\udcc3\"");
    }

    #[test]
    fn records() {
        let verdict = PaperVerdict { number: 7, entry: 1, offset: 2, first: 1, second: 0, rows: 4, peak: 0 };
        let lines = b"entry 0 peak 102 end none\nrefused 7 at 1 2 1 0\n";
        let mut csv = Records::new(Form::Csv);
        assert_eq!(csv.record(b"a", &verdict, lines).unwrap(), b"a,7,main dry,1,2,1,0,4,0,entry 0 peak 102 end none\n");
        let mut json = Records::new(Form::Json);
        let object = "\n{\"name\":\"a\",\"number\":7,\"word\":\"main dry\",\"entry\":1,\"offset\":2,\"first\":1,\"second\":0,\
                      \"rows\":4,\"peak\":0,\"fragments\":[{\"fragment\":\"entry 0\",\"peak\":102,\"end\":null}]}";
        assert_eq!(json.record(b"a", &verdict, lines).unwrap(), object.as_bytes());
        assert_eq!(json.record(b"a", &verdict, lines).unwrap(), format!(",{object}").as_bytes());
        assert_eq!(json.record(b"a", &verdict, b"entry 0\naccepted\n"), None);
        assert_eq!(json.record(b"a", &verdict, b""), None);
    }
}
