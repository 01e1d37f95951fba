//! Stands where `stack.rs` says `#[cfg(test)] mod tests;`. A module sees the
//! private items of those it stands in, so this one can start `analyze` from any
//! stacks. The order is that of `validate_bytecode_stack_limits`.

use super::super::{Location, analyze, instructions};
use super::Stack;
use crate::errors::CompilerError;
use crate::{Analysis, Stage};

impl Analysis {
    /// Analyses a fragment from stacks of unknown items.
    #[inline]
    pub(crate) fn run(bytecode: &[u8], main: usize, alt: usize) -> Result<(), (Stage, CompilerError)> {
        const NAME: &str = "fragment";
        let initial = Stack::new(main, alt, &Location { function: NAME, offset: 0 }).map_err(|error| (Stage::Start, error))?;
        let decoded = instructions(bytecode).map_err(|error| (Stage::Walk, error))?;
        analyze(&decoded, NAME, initial).map_err(|error| (Stage::Walk, error))
    }
}
