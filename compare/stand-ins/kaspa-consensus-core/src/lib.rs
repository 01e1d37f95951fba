//! Stand-in for `kaspa_consensus_core`. The Rust sources pass these two types to
//! `parse_script` as type arguments and make no other use of them.

pub mod hashing {
    pub mod sighash {
        pub struct SigHashReusedValuesUnsync;
    }
}

pub mod tx {
    use std::marker::PhantomData;

    pub struct PopulatedTransaction<'a>(PhantomData<&'a ()>);
}
