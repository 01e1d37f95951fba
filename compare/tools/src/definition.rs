//! Document 01 once more, written from its text alone: sections 1 to 4, 6 and 7, with
//! requests L2, L6 and L7 of document 02. Section 5 is in `replay.rs`.

use reference::{Answer, PaperAnswer};

// Section 1.

#[derive(Clone, Debug, PartialEq, Eq)]
pub enum Item {
    Unknown,
    Exact(Vec<u8>),
}

/// An instruction with what it pushes, whole; no bytes if it pushes no literal.
pub struct Instruction<'a> {
    pub opcode: u8,
    pub offset: usize,
    pub data: &'a [u8],
}

impl Instruction<'_> {
    /// Data of 0 to 8 bytes is exact, 9 or more unknown.
    fn literal(&self) -> Item {
        if self.data.len() <= 8 { Item::Exact(self.data.to_vec()) } else { Item::Unknown }
    }
}

/// What 51 to 60 push.
static SMALL: [u8; 16] = [1, 2, 3, 4, 5, 6, 7, 8, 9, 10, 11, 12, 13, 14, 15, 16];

/// The opcode's length with its data, and where the data begins; nothing if bytes are missing.
fn extent(bytes: &[u8], offset: usize) -> Option<(usize, usize)> {
    let opcode = bytes[offset];
    let (skip, length) = match opcode {
        0x01..=0x4b => (1, opcode as usize),
        0x4c => (2, *bytes.get(offset + 1)? as usize),
        0x4d => {
            let low = bytes.get(offset + 1..offset + 3)?;
            (3, low[0] as usize + 256 * low[1] as usize)
        }
        0x4e => {
            let low = bytes.get(offset + 1..offset + 5)?;
            (5, u32::from_le_bytes([low[0], low[1], low[2], low[3]]) as usize)
        }
        _ => (1, 0),
    };
    if offset + skip + length <= bytes.len() { Some((skip + length, skip)) } else { None }
}

/// The instructions, or the offset of the malformed one.
pub fn decode(bytes: &[u8]) -> Result<Vec<Instruction<'_>>, usize> {
    let mut list = Vec::new();
    let mut offset = 0;
    while offset < bytes.len() {
        let opcode = bytes[offset];
        let (size, skip) = extent(bytes, offset).ok_or(offset)?;
        let data = match opcode {
            0x4f => &[0x81],
            0x51..=0x60 => &SMALL[opcode as usize - 0x51..][..1],
            _ => &bytes[offset + skip..offset + size],
        };
        list.push(Instruction { opcode, offset, data });
        offset += size;
    }
    Ok(list)
}

/// The number form of a number that is not negative.
pub fn written(mut number: u64) -> Vec<u8> {
    let mut bytes = Vec::new();
    while number != 0 {
        bytes.push((number % 256) as u8);
        number /= 256;
    }
    if bytes.last().is_some_and(|last| *last >= 0x80) {
        bytes.push(0);
    }
    bytes
}

/// Why bytes are no index: they are no number, or one below zero.
#[derive(Clone, Copy, Debug, PartialEq, Eq)]
pub enum NoIndex {
    Crooked,
    Negative,
}

/// The number that these bytes are the form of, unless it is negative.
pub fn index(bytes: &[u8]) -> Result<u64, NoIndex> {
    let Some(last) = bytes.last() else {
        return Ok(0);
    };
    let needless = matches!(*last, 0x00 | 0x80) && (bytes.len() < 2 || bytes[bytes.len() - 2] < 0x80);
    if bytes.len() > 8 || needless {
        return Err(NoIndex::Crooked);
    }
    if *last >= 0x80 {
        return Err(NoIndex::Negative);
    }
    let mut number = 0u64;
    for (place, byte) in bytes.iter().enumerate() {
        number += u64::from(*byte) << (8 * place);
    }
    Ok(number)
}

// Section 2, the map and the limit of request L6, and the mode of request L7.

#[derive(Clone, Copy, Debug, PartialEq, Eq)]
pub enum Class {
    Unmodelled,
    Push,
    Nothing,
    If,
    NotIf,
    Else,
    EndIf,
    Return,
    ToAlt,
    FromAlt,
    Depth,
    Size,
    Nip,
    Tuck,
    Pick,
    Roll,
    Zk,
    /// Depth, count.
    Copy(usize, usize),
    /// Count, shift.
    Rotation(usize, usize),
    /// Pops, pushes.
    Plain(u64, usize),
}

/// The classes at their numbers: "unmodelled 0, push 1, nothing 2, then IF 3 to (2 and 1) 31 as listed".
pub const CLASSES: [Class; 32] = [
    Class::Unmodelled,
    Class::Push,
    Class::Nothing,
    Class::If,
    Class::NotIf,
    Class::Else,
    Class::EndIf,
    Class::Return,
    Class::ToAlt,
    Class::FromAlt,
    Class::Depth,
    Class::Size,
    Class::Nip,
    Class::Tuck,
    Class::Pick,
    Class::Roll,
    Class::Zk,
    Class::Copy(1, 1),
    Class::Copy(2, 2),
    Class::Copy(3, 3),
    Class::Copy(2, 1),
    Class::Copy(4, 2),
    Class::Rotation(3, 1),
    Class::Rotation(6, 2),
    Class::Rotation(2, 1),
    Class::Rotation(4, 2),
    Class::Plain(1, 0),
    Class::Plain(2, 0),
    Class::Plain(0, 1),
    Class::Plain(1, 1),
    Class::Plain(3, 1),
    Class::Plain(2, 1),
];

/// The class of an opcode by the ranges.
pub const fn class_of(opcode: u8) -> Class {
    match opcode {
        0x00..=0x4f | 0x51..=0x60 => Class::Push,
        0x61 => Class::Nothing,
        0x63 => Class::If,
        0x64 => Class::NotIf,
        0x67 => Class::Else,
        0x68 => Class::EndIf,
        0x6a => Class::Return,
        0x6b => Class::ToAlt,
        0x6c => Class::FromAlt,
        0x74 => Class::Depth,
        0x82 => Class::Size,
        0x77 => Class::Nip,
        0x7d => Class::Tuck,
        0x79 => Class::Pick,
        0x7a => Class::Roll,
        0xa6 => Class::Zk,
        0x76 => Class::Copy(1, 1),
        0x6e => Class::Copy(2, 2),
        0x6f => Class::Copy(3, 3),
        0x78 => Class::Copy(2, 1),
        0x70 => Class::Copy(4, 2),
        0x7b => Class::Rotation(3, 1),
        0x71 => Class::Rotation(6, 2),
        0x7c => Class::Rotation(2, 1),
        0x72 => Class::Rotation(4, 2),
        0x69 | 0x75 | 0xb0 | 0xb1 => Class::Plain(1, 0),
        0x6d | 0x88 | 0x9d | 0xad => Class::Plain(2, 0),
        0xb2..=0xb9 => Class::Plain(0, 1),
        0x83 | 0x8b | 0x8c | 0x8f..=0x92 | 0xa8 | 0xaa | 0xba..=0xce => Class::Plain(1, 1),
        0x7f | 0xa5 | 0xd5..=0xd9 => Class::Plain(3, 1),
        0x7e | 0x84..=0x87 | 0x93..=0x97 | 0x9a..=0x9c | 0x9e..=0xa4 | 0xa7 | 0xab | 0xac | 0xcf..=0xd4 => Class::Plain(2, 1),
        _ => Class::Unmodelled,
    }
}

/// The class of each opcode, how many items both stacks hold at most, and whether the mode is the examined one.
#[derive(Clone, Debug, PartialEq, Eq)]
pub struct Rules {
    classes: [Class; 256],
    pub limit: usize,
    pub examined: bool,
}

/// Document 01's own.
pub static BUILT_IN: Rules = Rules { classes: built_in_classes(), limit: 244, examined: false };

/// "its element limit is 520 bytes"
pub const ELEMENT: usize = 520;

const fn built_in_classes() -> [Class; 256] {
    let mut classes = [Class::Unmodelled; 256];
    let mut code = 0;
    while code < 256 {
        classes[code] = class_of(code as u8);
        code += 1;
    }
    classes
}

impl Rules {
    /// Those of a lent map and limit in plain mode, or the number that is given of them: 28 goes before 29.
    pub fn read(map: &[u8], limit: u32) -> Result<Self, u32> {
        let classes = classes_of_map(map).ok_or(28u32)?;
        if limit < 1 || limit > 244 {
            return Err(29);
        }
        Ok(Self { classes, limit: limit as usize, examined: false })
    }

    /// The same in this mode.
    pub fn in_mode(self, examined: bool) -> Self {
        Self { examined, ..self }
    }

    /// Whether this instruction is a push of "a literal above 520 bytes".
    pub fn pushes_long(&self, instruction: &Instruction) -> bool {
        self.class(instruction.opcode) == Class::Push && instruction.data.len() > ELEMENT
    }

    pub fn class(&self, opcode: u8) -> Class {
        self.classes[opcode as usize]
    }
}

/// The class of each code by a map; nothing if the map is bad.
fn classes_of_map(map: &[u8]) -> Option<[Class; 256]> {
    // "a header of two 16-bit numbers, lowest byte first, the count of rows (256) and the offset of the first (4 or more)"
    if map.len() < 4 {
        return None;
    }
    let count = map[0] as usize + 256 * map[1] as usize;
    let offset = map[2] as usize + 256 * map[3] as usize;
    if count != 256 || offset < 4 {
        return None;
    }
    // "then one byte a row, its class number"
    let mut classes = [Class::Unmodelled; 256];
    for code in 0..256 {
        let row = *map.get(offset + code)?;
        let class = *CLASSES.get(row as usize)?;
        // "a code up to 60 differs from the built-in table, or a later one is push"
        if code <= 0x60 && class != class_of(code as u8) || code > 0x60 && class == Class::Push {
            return None;
        }
        classes[code] = class;
    }
    Some(classes)
}

/// The built-in map.
pub fn built_in_map() -> Vec<u8> {
    let number = |code: u8| CLASSES.iter().position(|class| *class == class_of(code)).unwrap() as u8;
    [0x00, 0x01, 0x04, 0x00].into_iter().chain((0..=255).map(number)).collect()
}

/// Request L8: the map of the classic year, which "leaves b2 to d9, 7e, 7f, 83 to 86, 95, 96, 97, a6 and a7 unmodelled".
pub fn classic_map() -> Vec<u8> {
    let mut map = built_in_map();
    for code in (0xb2..=0xd9).chain([0x7e, 0x7f]).chain(0x83..=0x86).chain([0x95, 0x96, 0x97, 0xa6, 0xa7]) {
        map[4 + code] = 0;
    }
    map
}

// Section 3.

/// Number and figures; the walk adds the offset.
type Refusal = (u32, u64, u64);

/// Tops last.
#[derive(Clone, Debug, PartialEq, Eq)]
pub struct Stacks {
    pub main: Vec<Item>,
    pub alt: Vec<Item>,
}

impl Stacks {
    fn unknown(main: usize, alt: usize) -> Self {
        Self { main: vec![Item::Unknown; main], alt: vec![Item::Unknown; alt] }
    }

    fn total(&self) -> usize {
        self.main.len() + self.alt.len()
    }

    fn need(&self, count: u64) -> Result<(), Refusal> {
        let had = self.main.len() as u64;
        if had < count { Err((7, count, had)) } else { Ok(()) }
    }

    fn want_room(&self, count: usize, limit: usize) -> Result<(), Refusal> {
        let wanted = self.total() + count;
        if wanted > limit { Err((6, wanted as u64, limit as u64)) } else { Ok(()) }
    }

    fn push(mut self, item: Item, limit: usize) -> Result<Self, Refusal> {
        self.want_room(1, limit)?;
        self.main.push(item);
        Ok(self)
    }

    fn pop(mut self) -> Result<(Item, Self), Refusal> {
        self.need(1)?;
        let item = self.main.pop().unwrap();
        Ok((item, self))
    }

    fn pop_index(self) -> Result<(u64, Self), Refusal> {
        let (item, rest) = self.pop()?;
        match item {
            Item::Unknown => Err((9, 0, 0)),
            // Request L2: at the place of 9.
            Item::Exact(bytes) => match index(&bytes) {
                Ok(number) => Ok((number, rest)),
                Err(NoIndex::Crooked) => Err((24, 0, 0)),
                Err(NoIndex::Negative) => Err((25, 0, 0)),
            },
        }
    }

    fn drop_count(mut self, count: u64) -> Result<Self, Refusal> {
        self.need(count)?;
        self.main.truncate(self.main.len() - count as usize);
        Ok(self)
    }

    fn plain(self, pops: u64, pushes: usize, limit: usize) -> Result<Self, Refusal> {
        let mut rest = self.drop_count(pops)?;
        rest.want_room(pushes, limit)?;
        for _ in 0..pushes {
            rest.main.push(Item::Unknown);
        }
        Ok(rest)
    }

    fn copy(mut self, depth: usize, count: usize, limit: usize) -> Result<Self, Refusal> {
        self.need(depth as u64)?;
        self.want_room(count, limit)?;
        let lowest = self.main.len() - depth;
        for place in lowest..lowest + count {
            self.main.push(self.main[place].clone());
        }
        Ok(self)
    }

    fn rotate(mut self, count: usize, shift: usize) -> Result<Self, Refusal> {
        self.need(count as u64)?;
        let lowest = self.main.len() - count;
        for _ in 0..shift {
            let item = self.main.remove(lowest);
            self.main.push(item);
        }
        Ok(self)
    }
}

fn step(rules: &Rules, stacks: Stacks, instruction: &Instruction) -> Result<Stacks, Refusal> {
    let limit = rules.limit;
    match rules.class(instruction.opcode) {
        // "figures length and 520, ahead of the test for room at that push"
        Class::Push if rules.examined && rules.pushes_long(instruction) => {
            Err((30, instruction.data.len() as u64, ELEMENT as u64))
        }
        Class::Push => stacks.push(instruction.literal(), limit),
        Class::Nothing => Ok(stacks),
        Class::ToAlt => {
            let (item, mut rest) = stacks.pop()?;
            rest.alt.push(item);
            Ok(rest)
        }
        Class::FromAlt => {
            let mut stacks = stacks;
            let item = stacks.alt.pop().ok_or((8, 0, 0))?;
            stacks.main.push(item);
            Ok(stacks)
        }
        Class::Depth => {
            let height = stacks.main.len() as u64;
            stacks.push(Item::Exact(written(height)), limit)
        }
        Class::Size => {
            stacks.need(1)?;
            let length = match stacks.main.last().unwrap() {
                Item::Exact(bytes) => Item::Exact(written(bytes.len() as u64)),
                Item::Unknown => Item::Unknown,
            };
            stacks.push(length, limit)
        }
        Class::Nip => {
            stacks.need(2)?;
            let mut stacks = stacks;
            stacks.main.swap_remove(stacks.main.len() - 2);
            Ok(stacks)
        }
        Class::Tuck => {
            stacks.need(1)?;
            stacks.need(2)?;
            stacks.want_room(1, limit)?;
            let mut stacks = stacks;
            let top = stacks.main.pop().unwrap();
            let second = stacks.main.pop().unwrap();
            stacks.main.extend([top.clone(), second, top]);
            Ok(stacks)
        }
        class @ (Class::Pick | Class::Roll) => {
            let (index, mut rest) = stacks.pop_index()?;
            rest.need(index + 1)?;
            let place = rest.main.len() - 1 - index as usize;
            let item = rest.main[place].clone();
            if class == Class::Roll {
                rest.main.remove(place);
            }
            rest.push(item, limit)
        }
        Class::Zk => {
            let (tag, rest) = stacks.pop()?;
            let rest = match tag {
                Item::Exact(bytes) if bytes == [0x20] => {
                    let (_, rest) = rest.pop()?;
                    let (_, rest) = rest.pop()?;
                    let (count, rest) = rest.pop_index()?;
                    rest.drop_count(count)?
                }
                Item::Exact(bytes) if bytes == [0x21] => rest.drop_count(8)?,
                _ => return Err((10, 0, 0)),
            };
            rest.push(Item::Exact(vec![1]), limit)
        }
        Class::Copy(depth, count) => stacks.copy(depth, count, limit),
        Class::Rotation(count, shift) => stacks.rotate(count, shift),
        Class::Plain(pops, pushes) => stacks.plain(pops, pushes, limit),
        Class::Unmodelled => Err((11, u64::from(instruction.opcode), 0)),
        Class::If | Class::NotIf | Class::Else | Class::EndIf | Class::Return => unreachable!("the walk's own"),
    }
}

// Section 4: arm and conditional call each other.

/// What the verdict carries.
#[derive(Clone, Debug, PartialEq, Eq)]
pub struct Verdict {
    pub answer: Answer,
    pub rows: usize,
    pub peak: usize,
    pub end: Option<Stacks>,
}

impl Verdict {
    /// Refusals carry peak 0 and end none.
    fn refused(answer: Answer, rows: usize) -> Self {
        Self { answer, rows, peak: 0, end: None }
    }
}

struct Walk<'a> {
    rules: &'a Rules,
    instructions: &'a [Instruction<'a>],
    next: usize,
    peak: usize,
    log: &'a mut [u16],
}

/// How an arm stops, with the offset of the instruction that stops it.
enum Stop {
    Else(usize),
    EndIf(usize),
    End,
}

fn refuse(number: u32, offset: usize) -> Answer {
    Answer { number, offset: offset as u64, a: 0, b: 0 }
}

fn at(offset: usize) -> impl Fn(Refusal) -> Answer {
    move |(number, a, b)| Answer { number, offset: offset as u64, a, b }
}

/// Heights, or 65,535 twice if dead.
fn heights(state: &Option<Stacks>) -> [u16; 2] {
    match state {
        Some(stacks) => [stacks.main.len() as u16, stacks.alt.len() as u16],
        None => [65_535, 65_535],
    }
}

impl<'a> Walk<'a> {
    /// The next instruction, once its row is written. The state is that just before it, so after the one before.
    fn meet(&mut self, state: &Option<Stacks>) -> Option<&'a Instruction<'a>> {
        if let Some(stacks) = state {
            self.peak = self.peak.max(stacks.total());
        }
        let instruction = self.instructions.get(self.next)?;
        let [main, alt] = heights(state);
        self.log[3 * self.next..][..3].copy_from_slice(&[instruction.offset as u16, main, alt]);
        self.next += 1;
        Some(instruction)
    }

    fn arm(&mut self, mut state: Option<Stacks>, open: usize) -> Result<(Option<Stacks>, Stop), Answer> {
        while let Some(instruction) = self.meet(&state) {
            let offset = instruction.offset;
            match self.rules.class(instruction.opcode) {
                Class::If | Class::NotIf => state = self.conditional(state, open, offset)?,
                Class::Else => return Ok((state, Stop::Else(offset))),
                Class::EndIf => return Ok((state, Stop::EndIf(offset))),
                Class::Return => state = None,
                _ => {
                    if let Some(stacks) = state {
                        state = Some(step(self.rules, stacks, instruction).map_err(at(offset))?);
                    }
                }
            }
        }
        Ok((state, Stop::End))
    }

    fn conditional(&mut self, state: Option<Stacks>, open: usize, offset: usize) -> Result<Option<Stacks>, Answer> {
        if open == 24 {
            return Err(Answer { number: 5, offset: offset as u64, a: 24, b: 24 });
        }
        let start = match state {
            Some(stacks) => Some(stacks.pop().map_err(at(offset))?.1),
            None => None,
        };
        let last = self.instructions.last().unwrap().offset;
        let (first, stop) = self.arm(start.clone(), open + 1)?;
        let (one, other, end) = match stop {
            Stop::End => return Err(refuse(16, last)),
            Stop::EndIf(end) => (first, start, end),
            Stop::Else(_) => {
                let (second, stop) = self.arm(start, open + 1)?;
                match stop {
                    Stop::End => return Err(refuse(16, last)),
                    Stop::Else(offset) => return Err(refuse(14, offset)),
                    Stop::EndIf(end) => (first, second, end),
                }
            }
        };
        let (Some(one), Some(other)) = (&one, &other) else {
            return Ok(one.or(other));
        };
        if one.main.len() != other.main.len() || one.alt.len() != other.alt.len() {
            return Err(refuse(12, end));
        }
        let join = |a: &[Item], b: &[Item]| -> Vec<Item> {
            a.iter().zip(b).map(|(a, b)| if a == b { a.clone() } else { Item::Unknown }).collect()
        };
        Ok(Some(Stacks { main: join(&one.main, &other.main), alt: join(&one.alt, &other.alt) }))
    }
}

/// The analysis of a fragment from so many unknown items, with a lent log.
pub fn analysis(bytes: &[u8], main: u32, alt: u32, log: &mut [u16]) -> Verdict {
    analysis_by(&BUILT_IN, bytes, main, alt, log)
}

/// The same by a lent map and limit, which are judged first, in plain or examined mode.
pub fn analysis_with(map: &[u8], limit: u32, examined: bool, bytes: &[u8], main: u32, alt: u32, log: &mut [u16]) -> Verdict {
    match Rules::read(map, limit) {
        Ok(rules) => analysis_by(&rules.in_mode(examined), bytes, main, alt, log),
        Err(number) => Verdict::refused(refuse(number, 0), 0),
    }
}

pub fn analysis_by(rules: &Rules, bytes: &[u8], main: u32, alt: u32, log: &mut [u16]) -> Verdict {
    if bytes.len() > 10_000 {
        return Verdict::refused(Answer { number: 1, offset: 0, a: bytes.len() as u64, b: 10_000 }, 0);
    }
    let sum = u64::from(main) + u64::from(alt);
    if sum > rules.limit as u64 {
        return Verdict::refused(Answer { number: 2, offset: 0, a: sum, b: rules.limit as u64 }, 0);
    }
    let instructions = match decode(bytes) {
        Ok(instructions) => instructions,
        Err(offset) => return Verdict::refused(refuse(3, offset), 0),
    };
    let needed = 3 * instructions.len();
    if log.len() < needed {
        return Verdict::refused(Answer { number: 4, offset: 0, a: needed as u64, b: log.len() as u64 }, 0);
    }
    let start = Stacks::unknown(main as usize, alt as usize);
    let mut walk = Walk { rules, instructions: &instructions, next: 0, peak: 0, log };
    let answer = match walk.arm(Some(start), 0) {
        Ok((end, Stop::End)) => return Verdict { answer: Answer::ACCEPTED, rows: walk.next, peak: walk.peak, end },
        Ok((_, Stop::Else(offset))) => refuse(13, offset),
        Ok((_, Stop::EndIf(offset))) => refuse(15, offset),
        Err(answer) => answer,
    };
    Verdict::refused(answer, walk.next)
}

// Section 6.

pub fn limit_check(bytes: &[u8]) -> Answer {
    let instructions = match decode(bytes) {
        Ok(instructions) => instructions,
        Err(offset) => return refuse(3, offset),
    };
    let count = instructions.iter().filter(|instruction| instruction.opcode > 0x60).count();
    if count > 201 {
        return Answer { number: 17, offset: 0, a: count as u64, b: 201 };
    }
    if bytes.len() > 10_000 {
        return Answer { number: 18, offset: 0, a: bytes.len() as u64, b: 10_000 };
    }
    Answer::ACCEPTED
}

/// What a paper's verdict carries; its end is always none.
#[derive(Clone, Copy, Debug, PartialEq, Eq)]
pub struct PaperVerdict {
    pub answer: PaperAnswer,
    pub rows: usize,
    pub peak: usize,
}

impl PaperVerdict {
    fn refused(number: u32, entry: u64, a: u64, b: u64) -> Self {
        Self { answer: PaperAnswer { number, entry, offset: 0, a, b }, rows: 0, peak: 0 }
    }
}

/// Marks a paper, with a lent log.
pub fn mark(bytes: &[u8], log: &mut [u16]) -> PaperVerdict {
    mark_by(&BUILT_IN, bytes, log)
}

/// The same by a lent map and limit, which are judged first, in plain or examined mode.
pub fn mark_with(map: &[u8], limit: u32, examined: bool, bytes: &[u8], log: &mut [u16]) -> PaperVerdict {
    match Rules::read(map, limit) {
        Ok(rules) => mark_by(&rules.in_mode(examined), bytes, log),
        Err(number) => PaperVerdict::refused(number, 0, 0, 0),
    }
}

fn mark_by(rules: &Rules, bytes: &[u8], log: &mut [u16]) -> PaperVerdict {
    let refuse = PaperVerdict::refused;
    if bytes.len() > 8_000 {
        return refuse(21, 0, bytes.len() as u64, 8_000);
    }
    let fields: Vec<usize> = bytes.chunks_exact(2).map(|pair| pair[0] as usize + 256 * pair[1] as usize).collect();
    if fields.len() < 4 || fields[0] < 1 || fields[0] > 32 || fields.len() < 4 + 3 * fields[0] {
        return refuse(19, 0, 0, 0);
    }
    let (entries, state) = (fields[0], fields[1]);
    // Who owns each byte: the header does its own.
    let header = 2 * (4 + 3 * entries);
    let mut owned: Vec<bool> = (0..bytes.len()).map(|place| place < header).collect();
    let parts: Vec<(usize, usize)> =
        (0..entries).map(|k| (fields[5 + 3 * k], fields[6 + 3 * k])).chain([(fields[2], fields[3])]).collect();
    for (offset, length) in &parts {
        if *offset < header || offset + length > bytes.len() {
            return refuse(19, 0, 0, 0);
        }
        for owned in &mut owned[*offset..offset + length] {
            if *owned {
                return refuse(19, 0, 0, 0);
            }
            *owned = true;
        }
    }
    let params: Vec<usize> = (0..entries).map(|k| fields[4 + 3 * k]).collect();
    for (k, params) in params.iter().enumerate() {
        let sum = params + state + 3;
        if sum > rules.limit {
            return refuse(20, k as u64, sum as u64, rules.limit as u64);
        }
    }
    let most = *params.iter().max().unwrap();
    let (mut rows, mut peak) = (0, 0);
    for (k, (offset, length)) in parts.iter().enumerate() {
        let (main, alt) = if k < entries { (params[k] + state, 0) } else { (most, 1) };
        if k == entries && *length == 0 {
            continue;
        }
        let verdict = analysis_by(rules, &bytes[*offset..offset + length], main as u32, alt, &mut log[3 * rows..]);
        let Answer { number, offset, a, b } = verdict.answer;
        rows += verdict.rows;
        peak = peak.max(verdict.peak);
        if number != 0 {
            return PaperVerdict { answer: PaperAnswer { number, entry: k as u64, offset, a, b }, rows, peak: 0 };
        }
    }
    PaperVerdict { answer: PaperAnswer::ACCEPTED, rows, peak }
}

/// The fragments of a paper whose header is good, with the heights that each is analysed from; an empty initialiser is none.
pub fn fragments(bytes: &[u8]) -> Vec<(&[u8], u32, u32)> {
    let field = |at: usize| u32::from(bytes[at]) + 256 * u32::from(bytes[at + 1]);
    let part = |at: usize| &bytes[field(at) as usize..][..field(at + 2) as usize];
    let entries: Vec<usize> = (0..field(0) as usize).map(|k| 8 + 6 * k).collect();
    let most = entries.iter().map(|at| field(*at)).max().unwrap_or(0);
    let bodies = entries.iter().map(|at| (part(at + 2), field(*at) + field(2), 0));
    bodies.chain([(part(4), most, 1)].into_iter().filter(|(initialiser, _, _)| !initialiser.is_empty())).collect()
}

/// The part of the body (mark 0) or of the initialiser (mark 1) that stands at an offset.
pub fn display<'a>(body: &'a [u8], initialiser: &'a [u8], offset: usize, mark: u32) -> &'a [u8] {
    let fragment = match mark {
        0 => body,
        1 => initialiser,
        _ => &[],
    };
    if offset >= fragment.len() {
        return &[];
    }
    match extent(fragment, offset) {
        Some((size, _)) => &fragment[offset..offset + size],
        None => &fragment[offset..],
    }
}
