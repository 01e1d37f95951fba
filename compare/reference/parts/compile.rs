//! Stands for `compile.rs`: what its three functions and `stack_analysis.rs` name,
//! the functions themselves (`cut.rs`, text unchanged), and ways in for this crate.

use crate::ast::FunctionAst;
use crate::checked_arithmetic::checked_add;
use crate::errors::CompilerError;
use kaspa_consensus_core::hashing::sighash::SigHashReusedValuesUnsync;
use kaspa_consensus_core::tx::PopulatedTransaction;
use kaspa_txscript::{MAX_OPS_PER_SCRIPT, MAX_SCRIPTS_SIZE, MAX_STACK_SIZE, NO_COST_OPCODE, parse_script};

// An opcode constant that the stand-in lacked would turn a pattern into a name
// that matches everything.
#[deny(unreachable_patterns, unused_variables, bindings_with_variant_name)]
mod stack_analysis;

include!("cut.rs");

#[inline]
pub(crate) fn limits(bytecode: &[u8]) -> Result<(), CompilerError> {
    validate_txscript_bytecode_limits(bytecode)
}

#[inline]
pub(crate) fn dispatch(entrypoints: &[&FunctionAst<'_>], state_fields: usize) -> Result<(), CompilerError> {
    validate_entrypoint_stack_limits(entrypoints, state_fields)
}

#[inline]
pub(crate) fn stack_limits(
    compiled_entrypoints: &[(String, Vec<u8>)],
    entrypoints: &[&FunctionAst<'_>],
    state_fields: usize,
    state_push_bytecode: &[u8],
) -> Result<(), CompilerError> {
    stack_analysis::validate_bytecode_stack_limits(compiled_entrypoints, entrypoints, state_fields, state_push_bytecode)
}
