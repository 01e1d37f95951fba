//! Bytes as a word names them: hexadecimal digits, `-` for none, `@FILE` for those of a file, `@-` for standard input.
use std::ffi::OsStr;
use std::os::unix::ffi::OsStrExt;

use crate::Stop;
use crate::papers::{self, Source};

#[derive(Clone, Debug, PartialEq, Eq)]
pub enum Bytes {
    Given(Vec<u8>),
    Of(Source),
}

impl Bytes {
    /// Reads the word; what is wrong with it otherwise.
    pub fn parse(word: &OsStr) -> Result<Self, String> {
        match word.as_bytes() {
            b"" => Err("no bytes are named; write - for none".into()),
            b"@" => Err("@ names no file".into()),
            b"@-" => Ok(Self::Of(Source::Input)),
            [b'@', name @ ..] => Ok(Self::Of(Source::File(OsStr::from_bytes(name).into()))),
            b"-" => Ok(Self::Given(Vec::new())),
            digits => hex(digits).map(Self::Given),
        }
    }

    pub fn read(self) -> Result<Vec<u8>, Stop> {
        match self {
            Self::Given(bytes) => Ok(bytes),
            Self::Of(source) => papers::read(&source).map_err(|error| Stop::Failed(source.unread(&error))),
        }
    }
}

/// Two digits to a byte; spaces may stand between bytes.
fn hex(digits: &[u8]) -> Result<Vec<u8>, String> {
    let mut bytes = Vec::new();
    for group in digits.split(|byte| *byte == b' ').filter(|group| !group.is_empty()) {
        let (pairs, rest) = group.as_chunks::<2>();
        for [high, low] in pairs {
            bytes.push(digit(*high)? << 4 | digit(*low)?);
        }
        if let [single] = rest {
            digit(*single)?;
            return Err("bytes have two hexadecimal digits each, and one digit is left over".into());
        }
    }
    if bytes.is_empty() { Err("no bytes are named; write - for none".into()) } else { Ok(bytes) }
}

fn digit(byte: u8) -> Result<u8, String> {
    match byte {
        b'0'..=b'9' => Ok(byte - b'0'),
        b'a'..=b'f' => Ok(byte - b'a' + 10),
        b'A'..=b'F' => Ok(byte - b'A' + 10),
        _ => Err("bytes are hexadecimal digits, - for none, or @FILE".into()),
    }
}

#[cfg(test)]
mod tests {
    use super::{Bytes, Source};

    fn parse(word: &str) -> Result<Bytes, String> {
        Bytes::parse(word.as_ref())
    }

    #[test]
    fn digits() {
        let given = |bytes: &[u8]| Ok(Bytes::Given(bytes.into()));
        assert_eq!(parse("-"), given(&[]));
        assert_eq!(parse("00"), given(&[0]));
        assert_eq!(parse("5179"), given(&[0x51, 0x79]));
        assert_eq!(parse(" aB  Cd01 "), given(&[0xab, 0xcd, 1]));
        for word in ["", " ", "5", "517", "5 1", "0x51", "51,79", "zz", "5\n", "é"] {
            assert!(parse(word).is_err(), "{word:?}");
        }
    }

    #[test]
    fn files() {
        assert_eq!(parse("@a b"), Ok(Bytes::Of(Source::File("a b".into()))));
        assert_eq!(parse("@-"), Ok(Bytes::Of(Source::Input)));
        assert!(parse("@").is_err());
    }
}
