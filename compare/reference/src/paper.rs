//! Papers (document 01, section 6). Reading the header, with its 21 and 19, is an
//! addition of document 01 and written here; everything after it asks the Rust.

use std::ops::Range;

use crate::ast::FunctionAst;
use crate::{Answer, Stage, analysis_answer, compile, dispatch_answer, fragment, fragment_outside};

/// A paper's verdict: as `Answer`, with the entry K of section 6.
#[derive(Clone, Copy, Debug, Default, PartialEq, Eq)]
pub struct PaperAnswer {
    pub number: u32,
    pub entry: u64,
    pub offset: u64,
    pub a: u64,
    pub b: u64,
}

impl PaperAnswer {
    pub const ACCEPTED: Self = Self { number: 0, entry: 0, offset: 0, a: 0, b: 0 };

    fn new(entry: usize, answer: Answer) -> Self {
        Self { number: answer.number, entry: entry as u64, offset: answer.offset, a: answer.a, b: answer.b }
    }

    fn without_entry(self) -> Answer {
        Answer { number: self.number, offset: self.offset, a: self.a, b: self.b }
    }
}

struct Paper<'a> {
    state_fields: usize,
    initialiser: &'a [u8],
    entries: Vec<Entry<'a>>,
}

struct Entry<'a> {
    params: usize,
    body: &'a [u8],
}

/// Reads the header: 21, then 19.
fn read(bytes: &[u8]) -> Result<Paper<'_>, PaperAnswer> {
    const MOST_BYTES: usize = 8_000;
    const HEAD: usize = 8;
    const ROW: usize = 6;
    let wrong_header = PaperAnswer::new(0, Answer::at(19, 0, 0, 0));

    if bytes.len() > MOST_BYTES {
        return Err(PaperAnswer::new(0, Answer::at(21, 0, bytes.len(), MOST_BYTES)));
    }
    if bytes.len() < HEAD {
        return Err(wrong_header);
    }
    let field = |at: usize| usize::from(u16::from_le_bytes([bytes[at], bytes[at + 1]]));
    let count = field(0);
    let header = HEAD + ROW * count;
    if !(1..=32).contains(&count) || bytes.len() < header {
        return Err(wrong_header);
    }

    // A part lies after the header and within the paper, an empty one too.
    let part = |at: usize| {
        let part = field(at)..field(at) + field(at + 2);
        if part.start < header || part.end > bytes.len() { Err(wrong_header) } else { Ok(part) }
    };
    let mut parts: Vec<Range<usize>> = vec![part(4)?];
    for entry in 0..count {
        parts.push(part(HEAD + ROW * entry + 2)?);
    }

    // No two parts share a byte; an empty one shares none.
    let mut sorted: Vec<_> = parts.iter().filter(|part| !part.is_empty()).collect();
    sorted.sort_by_key(|part| part.start);
    if sorted.windows(2).any(|pair| pair[0].end > pair[1].start) {
        return Err(wrong_header);
    }

    Ok(Paper {
        state_fields: field(2),
        initialiser: &bytes[parts[0].clone()],
        entries: (0..count)
            .map(|entry| Entry { params: field(HEAD + ROW * entry), body: &bytes[parts[1 + entry].clone()] })
            .collect(),
    })
}

/// What the Rust is given for a paper.
struct Compiled<'a> {
    state_fields: usize,
    initialiser: &'a [u8],
    functions: Vec<FunctionAst<'static>>,
    bodies: Vec<(String, Vec<u8>)>,
}

impl<'a> Compiled<'a> {
    fn new(paper: &Paper<'a>) -> Self {
        let name = |entry: usize| format!("entry {entry}");
        let entries = || paper.entries.iter().enumerate();
        Self {
            state_fields: paper.state_fields,
            initialiser: paper.initialiser,
            functions: entries().map(|(k, entry)| FunctionAst::new(name(k), entry.params)).collect(),
            bodies: entries().map(|(k, entry)| (name(k), entry.body.to_vec())).collect(),
        }
    }

    /// Asks fragment by fragment, so that the entry of a refusal is known. All
    /// entries are given each time: the Rust itself picks the most parameters.
    fn by_parts(&self) -> PaperAnswer {
        let all: Vec<&FunctionAst<'_>> = self.functions.iter().collect();
        for k in 0..all.len() {
            if let Err(error) = compile::dispatch(&all[k..=k], self.state_fields) {
                return PaperAnswer::new(k, dispatch_answer(error));
            }
        }
        // The dispatch check has passed, so no start is too large.
        for k in 0..all.len() {
            if let Err(error) = compile::stack_limits(&self.bodies[k..=k], &all, self.state_fields, &[]) {
                return PaperAnswer::new(k, analysis_answer(Stage::Walk, error));
            }
        }
        match compile::stack_limits(&[], &all, self.state_fields, self.initialiser) {
            Ok(()) => PaperAnswer::ACCEPTED,
            Err(error) => PaperAnswer::new(all.len(), analysis_answer(Stage::Walk, error)),
        }
    }

    /// Asks once for all.
    fn as_a_whole(&self) -> Answer {
        let all: Vec<&FunctionAst<'_>> = self.functions.iter().collect();
        if let Err(error) = compile::dispatch(&all, self.state_fields) {
            return dispatch_answer(error);
        }
        match compile::stack_limits(&self.bodies, &all, self.state_fields, self.initialiser) {
            Ok(()) => Answer::ACCEPTED,
            Err(error) => analysis_answer(Stage::Walk, error),
        }
    }
}

/// Marks a paper fragment by fragment and checks the answer against that of the
/// Rust for the whole paper.
pub fn paper(bytes: &[u8]) -> PaperAnswer {
    let compiled = match read(bytes) {
        Ok(paper) => Compiled::new(&paper),
        Err(answer) => return answer,
    };
    let answer = compiled.by_parts();
    let whole = compiled.as_a_whole();
    assert!(answer.without_entry() == whole, "by parts the Rust answers {answer:?}, for the whole paper {whole:?}");
    answer
}

/// As `paper`, without the second question.
pub fn paper_by_parts(bytes: &[u8]) -> PaperAnswer {
    match read(bytes) {
        Ok(paper) => Compiled::new(&paper).by_parts(),
        Err(answer) => answer,
    }
}

/// True if document 01 answers 5 where the Rust goes on.
pub fn paper_outside(bytes: &[u8]) -> bool {
    let Ok(paper) = read(bytes) else {
        return false;
    };
    if paper.entries.iter().any(|entry| entry.params + paper.state_fields + 3 > 244) {
        return false;
    }
    let most = paper.entries.iter().map(|entry| entry.params).max().expect("a paper has an entry");
    let bodies = paper.entries.iter().map(|entry| (entry.body, entry.params + paper.state_fields, 0));
    for (bytes, main, alt) in bodies.chain([(paper.initialiser, most, 1)]) {
        let (main, alt) = (main as u32, alt as u32);
        if fragment_outside(bytes, main, alt) {
            return true;
        }
        if fragment(bytes, main, alt).number != 0 {
            return false;
        }
    }
    false
}
