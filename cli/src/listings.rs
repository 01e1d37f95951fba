//! `asm` and `list`: a listing into bytes, and bytes into a listing.
use std::ffi::OsStr;
use std::os::unix::ffi::OsStrExt;

use listochur::Converted;

use crate::fragments::told;
use crate::names::shown;
use crate::papers::{self, Source};
use crate::streams::{Output, say};
use crate::{Status, Stop};

/// A listing as a word names it: the word itself, `@FILE` for the bytes of a file, `-` for standard input.
#[derive(Clone, Debug, PartialEq, Eq)]
pub enum Listing {
    Given(Vec<u8>),
    Of(Source),
}

impl Listing {
    /// Reads the word; what is wrong with it otherwise.
    pub fn parse(word: &OsStr) -> Result<Self, String> {
        match word.as_bytes() {
            b"@" => Err("@ names no file".into()),
            b"-" | b"@-" => Ok(Self::Of(Source::Input)),
            [b'@', name @ ..] => Ok(Self::Of(Source::File(OsStr::from_bytes(name).into()))),
            text => Ok(Self::Given(text.into())),
        }
    }

    pub fn read(self) -> Result<Vec<u8>, Stop> {
        match self {
            Self::Given(text) => Ok(text),
            Self::Of(source) => papers::read(&source).map_err(|error| Stop::Failed(source.unread(&error))),
        }
    }
}

/// `asm`: the bytes of a listing, raw or in hexadecimal on a line. A refusal is said on standard error, since the output may be a
/// file of bytes.
pub fn asm(out: &mut Output, hex: bool, listing: &[u8]) -> Result<Status, Stop> {
    // no word gives more bytes than it has letters
    let mut fragment = vec![0; listing.len()];
    let answer = listochur::assemble(listing, &mut fragment);
    if answer.number != 0 {
        say(&refused(&answer, listing));
        return Ok(Status::of(answer.number));
    }
    fragment.truncate(answer.size);
    if hex {
        let digits: String = fragment.iter().map(|byte| format!("{byte:02x}")).collect();
        out.write(format!("{digits}\n").as_bytes())?;
    } else {
        out.write(&fragment)?;
    }
    Ok(Status::Good)
}

/// As many letters of a strange word are shown.
const SHOWN: usize = 40;

/// What is said of a listing that is refused: the verdict, the word, and what is the matter with it where that is hard to see.
fn refused(answer: &Converted, listing: &[u8]) -> String {
    let words = told(answer.number, answer.offset, 0, 0);
    let rest = listing.get(answer.offset..).unwrap_or_default();
    let word = rest.split(|byte| *byte == b' ').next().unwrap_or_default();
    let seen = match word {
        [] => "it is empty: words are parted by one space, and none stands at either end".into(),
        _ if word.len() > SHOWN => format!("'{}..'", shown(&word[..SHOWN])),
        _ => format!("'{}'", shown(word)),
    };
    let newline = word.iter().position(|byte| *byte == b'\n').map_or_else(String::new, |place| {
        format!(", with a newline at offset {}, which has no place in a listing, also not at its end", answer.offset + place)
    });
    format!("{words}: {seen}{newline}")
}

/// `list`: the listing of a fragment, and a newline behind it where a person sees it.
pub fn list(out: &mut Output, fragment: &[u8]) -> Result<Status, Stop> {
    let (answer, text) = listed(fragment);
    if answer.number != 0 {
        say(&told(answer.number, answer.offset, 0, 0));
        return Ok(Status::of(answer.number));
    }
    out.write(&text)?;
    if out.terminal() {
        out.write(b"\n")?;
    }
    Ok(Status::Good)
}

/// The listing of a fragment. More room is lent as long as it is short; a byte takes at most 25 letters.
pub fn listed(fragment: &[u8]) -> (Converted, Vec<u8>) {
    let mut text = vec![0; 4 * fragment.len() + 64];
    loop {
        let answer = listochur::list(fragment, &mut text);
        if answer.number != 27 {
            text.truncate(answer.size);
            return (answer, text);
        }
        text.resize(2 * text.len(), 0);
    }
}

#[cfg(test)]
mod tests {
    use super::{Listing, listed, refused};
    use crate::papers::Source;

    #[test]
    fn words() {
        let parse = |word: &str| Listing::parse(word.as_ref());
        assert_eq!(parse("OpDup <05>"), Ok(Listing::Given(b"OpDup <05>".into())));
        assert_eq!(parse(""), Ok(Listing::Given(Vec::new())));
        assert_eq!(parse("@a b"), Ok(Listing::Of(Source::File("a b".into()))));
        assert_eq!(parse("-"), Ok(Listing::Of(Source::Input)));
        assert_eq!(parse("@-"), Ok(Listing::Of(Source::Input)));
        assert!(parse("@").is_err());
    }

    fn said(listing: &str) -> String {
        let answer = listochur::assemble(listing.as_bytes(), &mut [0; 99]);
        refused(&answer, listing.as_bytes())
    }

    #[test]
    fn refusals() {
        assert_eq!(said("OpDup opdup Op1"), "refused 26 at offset 6, strange word: 'opdup'");
        assert_eq!(
            said("OpDup "),
            "refused 26 at offset 6, strange word: it is empty: words are parted by one space, and none stands at either end"
        );
        assert_eq!(
            said("OpDup Op1\n"),
            "refused 26 at offset 6, strange word: 'Op1\\n', with a newline at offset 9, which has no place in a listing, also not at its end"
        );
        assert_eq!(said(&"x".repeat(41)), format!("refused 26 at offset 0, strange word: '{}..'", "x".repeat(40)));
    }

    #[test]
    fn room_is_lent_as_it_is_needed() {
        let (answer, text) = listed(&[0xd9; 1_000]);
        assert_eq!((answer.number, answer.size), (0, 25 * 1_000 - 1));
        assert_eq!(text, ["OpCheckSigFromStackECDSA"; 1_000].join(" ").into_bytes());
    }
}
