//! Document 01, section 5: replays with real bytes, written from its text alone, by any classes and limit and in both modes.

use crate::definition::{Class, Instruction, Rules, index, written};

/// How a replay ended, with its stacks where it ran off the end.
#[derive(Clone, Debug, PartialEq, Eq)]
pub enum Ending {
    RanOff { main: Vec<Vec<u8>>, alt: Vec<Vec<u8>> },
    Returned,
    Fault { place: usize, why: &'static str },
}

/// What a replay did: the instructions reached, by their place in the fragment, with
/// main and alt height just before; the greatest total; the choices used; its end.
#[derive(Clone, Debug, PartialEq, Eq)]
pub struct Trace {
    pub reached: Vec<(usize, usize, usize)>,
    pub peak: usize,
    pub choices: usize,
    pub ending: Ending,
}

struct Replay<'a> {
    rules: &'a Rules,
    main: Vec<Vec<u8>>,
    alt: Vec<Vec<u8>>,
    results: &'a mut dyn FnMut() -> Vec<u8>,
}

type Step = Result<(), &'static str>;

impl Replay<'_> {
    fn total(&self) -> usize {
        self.main.len() + self.alt.len()
    }

    fn push(&mut self, item: Vec<u8>) -> Step {
        if self.total() >= self.rules.limit {
            return Err("no room");
        }
        self.main.push(item);
        Ok(())
    }

    fn pop(&mut self) -> Result<Vec<u8>, &'static str> {
        self.main.pop().ok_or("a missing item")
    }

    fn pop_index(&mut self) -> Result<u64, &'static str> {
        index(&self.pop()?).map_err(|_| "an index that is no number or negative")
    }

    fn pops(&mut self, count: u64) -> Step {
        for _ in 0..count {
            self.pop()?;
        }
        Ok(())
    }

    /// Where the item stands that has `below` items above it.
    fn place(&self, below: u64) -> Result<usize, &'static str> {
        let height = self.main.len() as u64;
        if below < height { Ok((height - 1 - below) as usize) } else { Err("a missing item") }
    }

    fn copy(&mut self, depth: u64, count: usize) -> Step {
        let lowest = self.place(depth - 1)?;
        for place in lowest..lowest + count {
            self.push(self.main[place].clone())?;
        }
        Ok(())
    }

    fn rotate(&mut self, count: u64, shift: usize) -> Step {
        let lowest = self.place(count - 1)?;
        self.main[lowest..].rotate_left(shift);
        Ok(())
    }

    fn plain(&mut self, pops: u64, pushes: usize) -> Step {
        self.pops(pops)?;
        for _ in 0..pushes {
            let result = (self.results)();
            self.push(result)?;
        }
        Ok(())
    }

    /// One instruction that is no conditional and no RETURN.
    fn step(&mut self, instruction: &Instruction) -> Step {
        match self.rules.class(instruction.opcode) {
            // Request L7: "the replay faults on pushing a literal above 520 bytes".
            Class::Push if self.rules.examined && self.rules.pushes_long(instruction) => Err("a long element"),
            Class::Push => self.push(instruction.data.to_vec()),
            Class::Nothing => Ok(()),
            Class::ToAlt => {
                let item = self.pop()?;
                self.alt.push(item);
                Ok(())
            }
            Class::FromAlt => {
                let item = self.alt.pop().ok_or("a missing item")?;
                self.main.push(item);
                Ok(())
            }
            Class::Depth => self.push(written(self.main.len() as u64)),
            Class::Nip => {
                let second = self.place(1)?;
                self.main.remove(second);
                Ok(())
            }
            Class::Pick => {
                let index = self.pop_index()?;
                let place = self.place(index)?;
                self.push(self.main[place].clone())
            }
            Class::Roll => {
                let index = self.pop_index()?;
                let place = self.place(index)?;
                let item = self.main.remove(place);
                self.push(item)
            }
            Class::Tuck => {
                let (second, top) = (self.place(1)?, self.place(0)?);
                let item = self.main[top].clone();
                self.push(Vec::new())?;
                self.main.pop();
                self.main.insert(second, item);
                Ok(())
            }
            Class::Size => {
                let top = self.place(0)?;
                self.push(written(self.main[top].len() as u64))
            }
            Class::Zk => {
                match self.pop()?.as_slice() {
                    [0x20] => {
                        self.pops(2)?;
                        let count = self.pop_index()?;
                        self.pops(count)?;
                    }
                    [0x21] => self.pops(8)?,
                    _ => return Err("a bad tag"),
                }
                self.push(vec![1])
            }
            Class::Copy(depth, count) => self.copy(depth as u64, count),
            Class::Rotation(count, shift) => self.rotate(count as u64, shift),
            Class::Plain(pops, pushes) => self.plain(pops, pushes),
            Class::Unmodelled => Err("an unmodelled opcode"),
            Class::If | Class::NotIf | Class::Else | Class::EndIf | Class::Return => unreachable!("the replay's own"),
        }
    }
}

/// The place past the ELSE or the ENDIF that belongs to what stands before `place`,
/// past the ENDIF alone if an ELSE does not count; the end of the fragment if neither
/// is there.
fn past(rules: &Rules, instructions: &[Instruction], mut place: usize, or_else: bool) -> usize {
    let mut open = 0;
    while let Some(instruction) = instructions.get(place) {
        place += 1;
        match rules.class(instruction.opcode) {
            Class::If | Class::NotIf => open += 1,
            Class::Else if open == 0 && or_else => return place,
            Class::EndIf if open == 0 => return place,
            Class::EndIf => open -= 1,
            _ => {}
        }
    }
    place
}

/// Replays a fragment by these rules from these stacks. `choose` and `results` give the next choice
/// and the next byte string.
pub fn replay(
    rules: &Rules,
    instructions: &[Instruction],
    main: Vec<Vec<u8>>,
    alt: Vec<Vec<u8>>,
    choose: &mut dyn FnMut() -> bool,
    results: &mut dyn FnMut() -> Vec<u8>,
) -> Trace {
    let mut replay = Replay { rules, main, alt, results };
    let mut trace = Trace { reached: Vec::new(), peak: replay.total(), choices: 0, ending: Ending::Returned };
    let mut place = 0;
    while let Some(instruction) = instructions.get(place) {
        trace.reached.push((place, replay.main.len(), replay.alt.len()));
        let class = rules.class(instruction.opcode);
        let done = match class {
            Class::If | Class::NotIf => replay.pops(1),
            Class::Else | Class::EndIf => Ok(()),
            Class::Return => return trace,
            _ => replay.step(instruction),
        };
        if let Err(why) = done {
            trace.ending = Ending::Fault { place, why };
            return trace;
        }
        trace.peak = trace.peak.max(replay.total());
        place += 1;
        match class {
            Class::If | Class::NotIf => {
                trace.choices += 1;
                if !choose() {
                    place = past(rules, instructions, place, true);
                }
            }
            Class::Else => place = past(rules, instructions, place, false),
            _ => {}
        }
    }
    trace.ending = Ending::RanOff { main: replay.main, alt: replay.alt };
    trace
}
