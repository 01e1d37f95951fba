//! Stand-in for `kaspa_txscript`, written from document 01: decoding and number
//! form (section 1), opcode numbers (section 2), stack limit and ZK tags
//! (section 3), limits of the limit check (section 6).

mod number;
mod parse;

pub mod opcodes;

pub use number::{SerializationError, deserialize_i64, serialize_i64};
pub use parse::{MalformedPush, Opcode, Script, parse_script};

/// Main and alt hold at most this many items together (section 3).
pub const MAX_STACK_SIZE: usize = 244;

/// The most counted opcodes of a script (section 6).
pub const MAX_OPS_PER_SCRIPT: i32 = 201;

/// The most bytes of a script (section 6).
pub const MAX_SCRIPTS_SIZE: usize = 10_000;

/// Opcodes above this one are counted (section 6).
pub const NO_COST_OPCODE: u8 = 0x60;

pub mod zk_precompiles {
    pub mod tags {
        /// The two tags of section 3, bytes 20 and 21.
        #[derive(Clone, Copy, Debug, PartialEq, Eq)]
        pub enum ZkTag {
            Groth16 = 0x20,
            R0Succinct = 0x21,
        }

        #[derive(Debug)]
        pub struct UnknownTag;

        impl TryFrom<u8> for ZkTag {
            type Error = UnknownTag;

            #[inline]
            fn try_from(byte: u8) -> Result<Self, UnknownTag> {
                match byte {
                    0x20 => Ok(Self::Groth16),
                    0x21 => Ok(Self::R0Succinct),
                    _ => Err(UnknownTag),
                }
            }
        }
    }
}

pub mod script_builder {
    /// Named by `errors.rs` in a variant that the analysis never makes.
    #[derive(Debug)]
    pub struct ScriptBuilderError;
}
