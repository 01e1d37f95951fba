//! Stand-in for the names that `errors.rs` takes from `diagnostic.rs`. None of
//! them occurs in an error of the analysis.

#[derive(Clone, Copy, Debug)]
pub struct ErrorSpan {
    pub start: usize,
    pub end: usize,
}

#[derive(Debug)]
pub struct ParseDiagnostic;

pub struct ParseDiagnosticLabel;
pub struct ParseDisplayLocation;
pub struct ParseErrorInterpretation;
