//! Stand-in for the parts of `ast/mod.rs` that are in use: a function has a name
//! and parameters, and of the parameters only the count matters.

use std::marker::PhantomData;

pub struct FunctionAst<'i> {
    pub name: String,
    pub params: Vec<ParamAst<'i>>,
}

#[derive(Clone, Copy)]
pub struct ParamAst<'i>(PhantomData<&'i ()>);

impl FunctionAst<'_> {
    pub fn new(name: String, params: usize) -> Self {
        Self { name, params: vec![ParamAst(PhantomData); params] }
    }
}
