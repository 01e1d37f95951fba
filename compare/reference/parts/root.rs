// The modules whose files are laid out beside this one.

#[allow(dead_code)]
mod checked_arithmetic;
#[allow(dead_code)]
mod compile;
#[allow(dead_code, unused_imports)]
mod errors;
