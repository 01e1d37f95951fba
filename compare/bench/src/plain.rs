//! The assembler and the lister of request L4 as one would write them in Rust: a map of names, vectors of bytes. They answer what
//! ours answer, and are what ours are timed beside.
use std::collections::HashMap;

pub struct Names {
    by_name: HashMap<&'static [u8], u8>,
    by_code: HashMap<u8, &'static [u8]>,
    /// The same as `by_code`, with no letters for a code that has no name.
    array: Vec<&'static [u8]>,
}

impl Names {
    /// The names, taken from what ours lists of each code; no letters for a code that has none.
    pub fn new() -> Self {
        let word = |code: u8| {
            let mut text = [0; 32];
            let size = listochur::list(&[code], &mut text).size;
            text[..size].to_vec()
        };
        let array: Vec<&'static [u8]> = (0..=255)
            .map(|code| if code == 0 || code > 0x4e { word(code) } else { Vec::new() })
            .map(|name| if name.starts_with(b"0x") { &[][..] } else { &*name.leak() })
            .collect();
        let named = || (0..=255u8).zip(&array).filter(|(_, name)| !name.is_empty());
        let by_name = named().map(|(code, name)| (*name, code)).collect();
        let by_code = named().map(|(code, name)| (code, *name)).collect();
        Self { by_name, by_code, array }
    }

    /// The bytes of a listing, or the offset of its first strange word.
    pub fn assemble(&self, listing: &[u8]) -> Result<Vec<u8>, usize> {
        let mut out = Vec::new();
        if listing.is_empty() {
            return Ok(out);
        }
        let mut at = 0;
        for word in listing.split(|letter| *letter == b' ') {
            self.word(word, &mut out).ok_or(at)?;
            at += word.len() + 1;
        }
        Ok(out)
    }

    fn word(&self, word: &[u8], out: &mut Vec<u8>) -> Option<()> {
        if let Some(digits) = word.strip_prefix(b"<").and_then(|rest| rest.strip_suffix(b">")) {
            let data = hex(digits).filter(|data| !data.is_empty())?;
            match data.len() {
                size @ ..=0x4b => out.push(size as u8),
                size @ ..=0xff => out.extend([0x4c, size as u8]),
                size @ ..=0xffff => {
                    out.push(0x4d);
                    out.extend((size as u16).to_le_bytes());
                }
                size => {
                    out.push(0x4e);
                    out.extend(u32::try_from(size).ok()?.to_le_bytes());
                }
            }
            out.extend(data);
        } else if let Some(digits) = word.strip_prefix(b"0x") {
            let [code] = hex(digits)?[..] else { return None };
            if code <= 0x4e || self.by_code.contains_key(&code) {
                return None;
            }
            out.push(code);
        } else {
            out.push(*self.by_name.get(word)?);
        }
        Some(())
    }

    /// The listing of a fragment, or the offset where it is malformed.
    pub fn list(&self, fragment: &[u8]) -> Result<Vec<u8>, usize> {
        list_by(fragment, |code| self.by_code.get(&code).copied().unwrap_or_default())
    }

    /// The same with the names in an array.
    pub fn list_by_array(&self, fragment: &[u8]) -> Result<Vec<u8>, usize> {
        list_by(fragment, |code| self.array[usize::from(code)])
    }
}

fn list_by(fragment: &[u8], name_of: impl Fn(u8) -> &'static [u8]) -> Result<Vec<u8>, usize> {
    let mut out = Vec::new();
    let mut at = 0;
    while at < fragment.len() {
        if at > 0 {
            out.push(b' ');
        }
        let code = fragment[at];
        let rest = &fragment[at + 1..];
        if code > 0x4e {
            let name = name_of(code);
            if name.is_empty() {
                out.extend(b"0x");
                add_hex(&mut out, &[code]);
            } else {
                out.extend(name);
            }
            at += 1;
            continue;
        }
        let width = match code {
            0x4c => 1,
            0x4d => 2,
            0x4e => 4,
            _ => 0,
        };
        let size = match rest.get(..width).ok_or(at)? {
            [] => usize::from(code),
            length => length.iter().rev().fold(0, |size, byte| size << 8 | usize::from(*byte)),
        };
        let data = rest[width..].get(..size).ok_or(at)?;
        if data.is_empty() {
            out.extend(b"Op0");
        } else {
            out.push(b'<');
            add_hex(&mut out, data);
            out.push(b'>');
        }
        at += 1 + width + size;
    }
    Ok(out)
}

fn add_hex(out: &mut Vec<u8>, bytes: &[u8]) {
    let digit = |n: u8| b"0123456789abcdef"[usize::from(n)];
    out.extend(bytes.iter().flat_map(|byte| [digit(byte >> 4), digit(byte & 15)]));
}

fn hex(digits: &[u8]) -> Option<Vec<u8>> {
    let digit = |letter: u8| match letter {
        b'0'..=b'9' => Some(letter - b'0'),
        b'a'..=b'f' => Some(letter - b'a' + 10),
        _ => None,
    };
    let (pairs, rest) = digits.as_chunks::<2>();
    if !rest.is_empty() {
        return None;
    }
    pairs.iter().map(|[high, low]| Some(digit(*high)? << 4 | digit(*low)?)).collect()
}
