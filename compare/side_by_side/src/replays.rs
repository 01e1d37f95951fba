//! Demand 3 on one accepted fragment: what was answered, held against replays; and whether a replay reaches a long push.

use tools::definition::{Instruction, Item, Rules, Stacks, decode, written};
use tools::replay::{Ending, Trace, replay};
use tools::rng::Rng;

/// Up to so many lists of choices are all tried; beyond, as many at random.
const MOST_LISTS: usize = 96;

#[derive(Clone, Copy, Debug, Default, PartialEq, Eq)]
pub struct Counts {
    /// Fragments, and those of them whose lists of choices were all tried.
    pub fragments: u64,
    pub exhaustive: u64,
    pub replays: u64,
    pub ran_off: u64,
    /// Instructions reached, by all replays.
    pub reached: u64,
}

impl Counts {
    pub fn add(&mut self, other: &Self) {
        self.fragments += other.fragments;
        self.exhaustive += other.exhaustive;
        self.replays += other.replays;
        self.ran_off += other.ran_off;
        self.reached += other.reached;
    }
}

/// A byte string: empty, a tag or a byte that is no number, a number, short, long, very long.
fn byte_string(rng: &mut Rng) -> Vec<u8> {
    match rng.below(16) {
        0 | 1 => Vec::new(),
        2 | 3 => vec![rng.pick(&[0x00, 0x20, 0x21, 0x80, 0x81, 0xff])],
        4..=8 => written(rng.below(20) as u64),
        9 => written(rng.below(300) as u64),
        10..=12 => {
            let length = rng.within(1, 9);
            rng.bytes(length)
        }
        13 | 14 => {
            let length = rng.within(9, 40);
            rng.bytes(length)
        }
        _ => vec![rng.byte(); rng.within(100, 600)],
    }
}

/// Ours, then what a replay shows.
type Against = (String, String);

/// Holds a verdict's nine numbers, its log and the bytes of its end stacks against replays by the same rules.
#[allow(clippy::too_many_arguments)]
pub fn demand_3(
    rules: &Rules,
    bytes: &[u8],
    main: u32,
    alt: u32,
    seed: u64,
    ours: &[u64; 9],
    log: &[u16],
    end: Option<&Stacks>,
) -> Result<Counts, Against> {
    let instructions = decode(bytes).map_err(|offset| ("accepted".into(), format!("malformed at {offset}")))?;
    let mut counts = Counts { fragments: 1, ..Counts::default() };
    let mut reached = vec![false; instructions.len()];
    let mut peak = 0;
    let mut ran_off = false;
    let all = each_replay(rules, &instructions, main, alt, seed, |trace, choices| {
        one_replay(rules, trace, ours, log, end).map_err(|(ours, theirs)| (ours, format!("{theirs} (choices {choices:?})")))?;
        for (place, _, _) in &trace.reached {
            reached[*place] = true;
        }
        peak = peak.max(trace.peak);
        counts.replays += 1;
        counts.reached += trace.reached.len() as u64;
        if matches!(trace.ending, Ending::RanOff { .. }) {
            counts.ran_off += 1;
            ran_off = true;
        }
        Ok(())
    })?;
    if all {
        counts.exhaustive = 1;
        every_replay(&reached, peak, ran_off, ours, log)?;
    }
    Ok(counts)
}

/// Replays with lists of choices in order, and with others at random where those are too many: whether all were tried.
fn each_replay(
    rules: &Rules,
    instructions: &[Instruction],
    main: u32,
    alt: u32,
    seed: u64,
    mut seen: impl FnMut(&Trace, &[bool]) -> Result<(), Against>,
) -> Result<bool, Against> {
    let mut rng = Rng::new(seed);
    // The lists of choices in order: those that were not asked for are left off.
    let mut choices: Vec<bool> = Vec::new();
    let mut lists = 0;
    let mut all = false;
    while !all && lists < 2 * MOST_LISTS {
        let at_random = lists >= MOST_LISTS;
        if at_random {
            choices.clear();
        }
        let start = |rng: &mut Rng, count: u32| (0..count).map(|_| byte_string(rng)).collect::<Vec<_>>();
        let (start_main, start_alt) = (start(&mut rng, main), start(&mut rng, alt));
        let mut strings = Rng::new(rng.number());
        let mut used = 0;
        let mut choose = || {
            if used == choices.len() {
                choices.push(if at_random { rng.percent(50) } else { true });
            }
            used += 1;
            choices[used - 1]
        };
        let trace = replay(rules, instructions, start_main, start_alt, &mut choose, &mut || byte_string(&mut strings));
        seen(&trace, &choices)?;
        lists += 1;
        if !at_random {
            while choices.last() == Some(&false) {
                choices.pop();
            }
            match choices.last_mut() {
                Some(last) => *last = false,
                None => all = true,
            }
        }
    }
    Ok(all)
}

/// Whether a replay by these rules reaches a push of a literal above 520 bytes: `None` where none was seen to and not all lists of
/// choices were tried.
pub fn reaches_long(rules: &Rules, bytes: &[u8], main: u32, alt: u32, seed: u64) -> Option<bool> {
    let instructions = decode(bytes).ok()?;
    let long: Vec<bool> = instructions.iter().map(|instruction| rules.pushes_long(instruction)).collect();
    if !long.contains(&true) {
        return Some(false);
    }
    let mut reached = false;
    let all = each_replay(rules, &instructions, main, alt, seed, |trace, _| {
        reached |= trace.reached.iter().any(|(place, _, _)| long[*place]);
        // No more are needed.
        if reached { Err(Against::default()) } else { Ok(()) }
    });
    if reached { Some(true) } else { all.ok().filter(|all| *all).map(|_| false) }
}

/// No fault, never over the limit nor over the peak, the logged heights at each instruction reached, the end stacks at the end.
fn one_replay(rules: &Rules, trace: &Trace, ours: &[u64; 9], log: &[u16], end: Option<&Stacks>) -> Result<(), Against> {
    for (place, main, alt) in &trace.reached {
        let logged = &log[3 * place + 1..3 * place + 3];
        if logged != [*main as u16, *alt as u16] {
            return Err((format!("heights logged for instruction {place}: {logged:?}"), format!("{main} {alt}")));
        }
    }
    let peak = ours[5];
    if trace.peak > rules.limit || trace.peak as u64 > peak {
        return Err((format!("peak {peak}"), format!("a total of {}", trace.peak)));
    }
    match &trace.ending {
        Ending::Fault { place, why } => Err(("accepted".into(), format!("a fault at instruction {place}: {why}"))),
        Ending::Returned => Ok(()),
        Ending::RanOff { main, alt } => {
            let heights = [1, main.len() as u64, alt.len() as u64];
            if ours[6..] != heights {
                return Err((format!("end {:?}", &ours[6..]), format!("ran off the end with {heights:?}")));
            }
            let known = |items: &[Item], real: &[Vec<u8>]| {
                items.len() == real.len()
                    && items.iter().zip(real).all(|(item, real)| match item {
                        Item::Unknown => true,
                        Item::Exact(bytes) => bytes == real,
                    })
            };
            match end {
                Some(end) if known(&end.main, main) && known(&end.alt, alt) => Ok(()),
                _ => Err((format!("end {end:02x?}"), format!("ran off the end with {main:02x?} {alt:02x?}"))),
            }
        }
    }
}

/// Where every list of choices was tried: rows live exactly where some replay came, an end exactly if one ran off the end,
/// the peak the greatest total.
fn every_replay(reached: &[bool], peak: usize, ran_off: bool, ours: &[u64; 9], log: &[u16]) -> Result<(), Against> {
    for (place, reached) in reached.iter().enumerate() {
        let live = log[3 * place + 1..3 * place + 3] != [65_535, 65_535];
        if live != *reached {
            return Err((format!("instruction {place} live: {live}"), format!("reached: {reached}")));
        }
    }
    if (ours[6] == 1) != ran_off {
        return Err((format!("an end: {}", ours[6]), format!("ran off the end: {ran_off}")));
    }
    if ours[5] != peak as u64 {
        return Err((format!("peak {}", ours[5]), format!("greatest total {peak}")));
    }
    Ok(())
}
