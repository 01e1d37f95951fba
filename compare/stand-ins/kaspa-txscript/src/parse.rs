//! Decoding (document 01, section 1).

use std::fmt;
use std::marker::PhantomData;

/// One decoded opcode with the data that follows it, lent from the script.
#[derive(Clone, Copy, Debug)]
pub struct Opcode<'a> {
    value: u8,
    data: &'a [u8],
}

impl<'a> Opcode<'a> {
    #[inline]
    pub fn value(&self) -> u8 {
        self.value
    }

    #[inline]
    pub fn get_data(&self) -> &'a [u8] {
        self.data
    }

    /// Length of the data alone, without opcode and length bytes.
    #[inline]
    #[allow(clippy::len_without_is_empty)]
    pub fn len(&self) -> usize {
        self.data.len()
    }
}

/// Length bytes or data bytes are missing.
#[derive(Clone, Copy, Debug, PartialEq, Eq)]
pub struct MalformedPush;

impl MalformedPush {
    pub const MESSAGE: &'static str = "malformed push: length or data bytes are missing";
}

impl fmt::Display for MalformedPush {
    fn fmt(&self, f: &mut fmt::Formatter<'_>) -> fmt::Result {
        f.write_str(Self::MESSAGE)
    }
}

/// Yields the opcodes of a script in order, then the end or one error.
pub struct Script<'a, T, Reused> {
    rest: &'a [u8],
    types: PhantomData<fn() -> (T, Reused)>,
}

/// The type arguments are those of the real function; nothing depends on them.
#[inline]
pub fn parse_script<T, Reused>(script: &[u8]) -> Script<'_, T, Reused> {
    Script { rest: script, types: PhantomData }
}

impl<'a, T, Reused> Iterator for Script<'a, T, Reused> {
    type Item = Result<Opcode<'a>, MalformedPush>;

    #[inline]
    fn next(&mut self) -> Option<Self::Item> {
        let (&value, after) = self.rest.split_first()?;
        let length_bytes = match value {
            0x4c => 1,
            0x4d => 2,
            0x4e => 4,
            _ => 0,
        };
        let split = match value {
            0x01..=0x4b => after.split_at_checked(usize::from(value)),
            0x4c..=0x4e => after.split_at_checked(length_bytes).and_then(|(length, after)| {
                let length = length.iter().rev().fold(0, |sum, &byte| sum << 8 | usize::from(byte));
                after.split_at_checked(length)
            }),
            _ => Some((&after[..0], after)),
        };
        let Some((data, rest)) = split else {
            self.rest = &[];
            return Some(Err(MalformedPush));
        };
        self.rest = rest;
        Some(Ok(Opcode { value, data }))
    }
}
