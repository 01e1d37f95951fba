//! Writes fragments and keeps track of the stacks as it goes, by document 01,
//! sections 2 to 4, so that what it writes without a fault is accepted.

use crate::rng::Rng;

/// An item: unknown, or its bytes.
type Item = Option<Vec<u8>>;

pub const MOST_ITEMS: usize = 244;

/// Data lengths that matter: exact to 8, direct to 75, one length byte to 255.
pub const LENGTHS: [usize; 9] = [0, 1, 7, 8, 9, 75, 76, 255, 256];

/// Opcodes by pops and pushes.
const PLAIN: [(usize, usize, &[u8]); 6] = [
    (1, 0, &[0x69, 0x75, 0xb0, 0xb1]),
    (2, 0, &[0x6d, 0x88, 0x9d, 0xad]),
    (0, 1, &[0xb2, 0xb3, 0xb4, 0xb5, 0xb6, 0xb7, 0xb8, 0xb9]),
    (
        1,
        1,
        &[
            0x83, 0x8b, 0x8c, 0x8f, 0x90, 0x91, 0x92, 0xa8, 0xaa, 0xba, 0xbb, 0xbc, 0xbd, 0xbe, 0xbf, 0xc0, 0xc1, 0xc2, 0xc3,
            0xc4, 0xc5, 0xc6, 0xc7, 0xc8, 0xc9, 0xca, 0xcb, 0xcc, 0xcd, 0xce,
        ],
    ),
    (3, 1, &[0x7f, 0xa5, 0xd5, 0xd6, 0xd7, 0xd8, 0xd9]),
    (
        2,
        1,
        &[
            0x7e, 0x84, 0x85, 0x86, 0x87, 0x93, 0x94, 0x95, 0x96, 0x97, 0x9a, 0x9b, 0x9c, 0x9e, 0x9f, 0xa0, 0xa1, 0xa2, 0xa3,
            0xa4, 0xa7, 0xab, 0xac, 0xcf, 0xd0, 0xd1, 0xd2, 0xd3, 0xd4,
        ],
    ),
];

/// Opcode, depth, count.
const COPIES: [(u8, usize, usize); 5] = [(0x76, 1, 1), (0x6e, 2, 2), (0x6f, 3, 3), (0x78, 2, 1), (0x70, 4, 2)];

/// Opcode, count, shift.
const ROTATIONS: [(u8, usize, usize); 4] = [(0x7b, 3, 1), (0x71, 6, 2), (0x7c, 2, 1), (0x72, 4, 2)];

/// A few of each gap between the modelled codes.
const UNMODELLED: [u8; 16] = [0x50, 0x62, 0x65, 0x66, 0x73, 0x80, 0x81, 0x89, 0x8a, 0x8d, 0x98, 0xa9, 0xae, 0xaf, 0xda, 0xff];

/// What a fragment may be made to fail on, by verdict number.
pub const FAULTS: [u32; 12] = [3, 6, 7, 8, 9, 10, 11, 12, 13, 14, 15, 16];

#[derive(Clone)]
struct Stacks {
    main: Vec<Item>,
    alt: Vec<Item>,
}

impl Stacks {
    fn total(&self) -> usize {
        self.main.len() + self.alt.len()
    }

    fn room(&self) -> usize {
        MOST_ITEMS.saturating_sub(self.total())
    }
}

/// The fault to come: after how many steps, and its verdict number.
#[derive(Clone, Copy)]
pub struct Fault {
    pub after: usize,
    pub number: u32,
}

pub struct Writer<'r> {
    rng: &'r mut Rng,
    out: Vec<u8>,
    /// None in dead code.
    stacks: Option<Stacks>,
    open: usize,
    deepest: usize,
    fault: Option<Fault>,
    /// Push more than pop until this many items are there.
    aim: usize,
}

impl<'r> Writer<'r> {
    pub fn new(rng: &'r mut Rng, main: usize, alt: usize) -> Self {
        let stacks = Stacks { main: vec![None; main.min(MOST_ITEMS)], alt: vec![None; alt.min(MOST_ITEMS)] };
        Self { rng, out: Vec::new(), stacks: Some(stacks), open: 0, deepest: 5, fault: None, aim: 12 }
    }

    pub fn deepest(mut self, deepest: usize) -> Self {
        self.deepest = deepest;
        self
    }

    pub fn fault(mut self, fault: Option<Fault>) -> Self {
        self.fault = fault;
        self
    }

    pub fn aim(mut self, aim: usize) -> Self {
        self.aim = aim;
        self
    }

    /// The fragment, once a fault that has not come yet is put at the end.
    pub fn finish(mut self) -> Vec<u8> {
        if let Some(fault) = self.fault.take() {
            self.fail(fault.number);
        }
        self.out
    }

    /// The bytes written so far.
    pub fn length(&self) -> usize {
        self.out.len()
    }

    /// Some `steps` steps, conditionals among them.
    pub fn steps(&mut self, steps: usize) {
        let mut left = steps;
        while left > 0 {
            left -= 1;
            if let Some(fault) = &mut self.fault {
                if fault.after == 0 && self.stacks.is_some() {
                    let number = fault.number;
                    self.fault = None;
                    self.fail(number);
                    continue;
                }
                fault.after = fault.after.saturating_sub(1);
            }
            if self.open < self.deepest && self.rng.percent(9) {
                let inside = self.rng.below(left.min(14) + 1);
                left -= inside;
                self.conditional(inside);
            } else if self.open > 0 && self.rng.percent(3) {
                self.return_op();
            } else {
                self.step();
            }
        }
    }

    pub fn return_op(&mut self) {
        self.op(0x6a);
        self.stacks = None;
    }

    /// A chain of `levels` conditionals, one in the other, each with an arm or two.
    pub fn nest(&mut self, levels: usize) {
        if levels == 0 {
            let steps = self.rng.below(3);
            self.deepest = 0;
            self.steps(steps);
            return;
        }
        self.enter();
        let start = self.stacks.clone();
        self.open += 1;
        let deep_first = self.rng.percent(70);
        if deep_first {
            self.nest(levels - 1);
        }
        if self.rng.percent(4) {
            self.return_op();
        }
        let two = !deep_first || self.rng.percent(40);
        self.close_arms(start, two, |writer| {
            if !deep_first {
                writer.nest(levels - 1);
            }
        });
    }

    /// A balanced conditional with `steps` steps in its arms.
    fn conditional(&mut self, steps: usize) {
        self.enter();
        let start = self.stacks.clone();
        self.open += 1;
        let two = self.rng.percent(65);
        let first = if two { self.rng.below(steps + 1) } else { steps };
        self.steps(first);
        self.close_arms(start, two, |writer| writer.steps(steps - first));
    }

    /// IF or NOTIF, with a condition to pop.
    fn enter(&mut self) {
        if self.stacks.as_ref().is_some_and(|stacks| stacks.main.is_empty()) {
            self.make_item();
        }
        let opcode = self.rng.pick(&[0x63, 0x63, 0x64]);
        self.op(opcode);
        if let Some(stacks) = &mut self.stacks {
            stacks.main.pop();
        }
    }

    /// At the end of the first arm: a second one perhaps, then ENDIF, with heights
    /// made equal before it.
    fn close_arms(&mut self, start: Option<Stacks>, two: bool, second: impl FnOnce(&mut Self)) {
        let other = if two {
            self.op(0x67);
            let first_end = std::mem::replace(&mut self.stacks, start);
            second(self);
            first_end
        } else {
            start
        };
        if let Some(other) = &other {
            self.level(other.main.len(), other.alt.len());
        }
        self.op(0x68);
        self.open -= 1;
        self.stacks = match (self.stacks.take(), other) {
            (None, stacks) | (stacks, None) => stacks,
            (Some(mut left), Some(right)) => {
                for (a, b) in left.main.iter_mut().zip(right.main).chain(left.alt.iter_mut().zip(right.alt)) {
                    if *a != b {
                        *a = None;
                    }
                }
                Some(left)
            }
        };
    }

    /// Brings live stacks to the given heights.
    fn level(&mut self, main: usize, alt: usize) {
        while let Some(stacks) = &self.stacks {
            let (has_main, has_alt) = (stacks.main.len(), stacks.alt.len());
            if has_alt > alt {
                self.move_from_alt();
            } else if has_alt < alt {
                if has_main == 0 {
                    self.push_some();
                }
                self.move_to_alt();
            } else if has_main > main + 1 && self.rng.percent(50) {
                self.plain(0x6d, 2, 0);
            } else if has_main > main {
                self.plain(0x75, 1, 0);
            } else if has_main < main {
                self.push_some();
            } else {
                break;
            }
        }
    }

    /// One instruction, or the few that go together. Live ones succeed.
    pub fn step(&mut self) {
        let Some(stacks) = &self.stacks else {
            return self.dead_step();
        };
        let (height, alt, room) = (stacks.main.len(), stacks.alt.len(), stacks.room());
        let grow = stacks.total() < self.aim;
        match self.rng.below(100) {
            0..=19 if room > 0 && (grow || self.rng.percent(40)) => self.push_some(),
            20..=24 if room > 0 => self.push_length(),
            25..=34 => {
                let (opcode, depth, count) = self.rng.pick(&COPIES);
                if height >= depth && room >= count {
                    self.copy(opcode, depth, count);
                }
            }
            35..=41 => {
                let (opcode, count, shift) = self.rng.pick(&ROTATIONS);
                if height >= count {
                    self.rotate(opcode, count, shift);
                }
            }
            42..=59 => {
                let (pops, pushes, codes) = self.rng.pick(&PLAIN);
                let opcode = self.rng.pick(codes);
                if height >= pops && room + pops >= pushes && !(grow && pops > pushes && self.rng.percent(60)) {
                    self.plain(opcode, pops, pushes);
                }
            }
            60..=63 if height >= 1 => self.move_to_alt(),
            64..=67 if alt >= 1 => self.move_from_alt(),
            68..=69 if room > 0 => self.depth(),
            70..=72 if height >= 1 && room > 0 => self.size(),
            73..=74 if height >= 2 => self.nip(),
            75..=76 if height >= 2 && room > 0 => self.tuck(),
            77..=86 => self.good_index(),
            87..=90 => self.good_zk(),
            91..=92 => self.op(0x61),
            93..=95 => self.joined_index(),
            96..=99 if !grow && height > 0 => self.plain(0x75, 1, 0),
            _ => {}
        }
    }

    /// One item more on main, from where it can be had.
    fn make_item(&mut self) {
        if self.room() > 0 { self.push_some() } else { self.move_from_alt() }
    }

    /// At least this height of main and this much room.
    fn make_way(&mut self, height: usize, room: usize) {
        while self.stacks.is_some() {
            let (has_height, has_room) = (self.height(), self.room());
            if has_room < room && has_height > height {
                self.plain(0x75, 1, 0);
            } else if has_room < room {
                self.move_from_alt();
            } else if has_height < height {
                self.push_some();
            } else {
                break;
            }
        }
    }

    fn room(&self) -> usize {
        self.stacks.as_ref().map_or(MOST_ITEMS, Stacks::room)
    }

    fn height(&self) -> usize {
        self.stacks.as_ref().map_or(0, |stacks| stacks.main.len())
    }

    fn op(&mut self, opcode: u8) {
        self.out.push(opcode);
    }

    /// Anything that decodes, skipped in dead code.
    fn dead_step(&mut self) {
        match self.rng.below(4) {
            0 => self.push_some(),
            1 => {
                let opcode = self.rng.pick(&UNMODELLED);
                self.op(opcode);
            }
            _ => {
                let opcode = self.rng.within(0x4f, 0xff) as u8;
                if !matches!(opcode, 0x63 | 0x64 | 0x67 | 0x68) {
                    self.op(opcode);
                }
            }
        }
    }

    // Pushes.

    /// Pushes these bytes in one of the forms that can hold them.
    pub fn push(&mut self, data: &[u8]) {
        let length = data.len();
        let small = match data {
            [] => Some(0x00),
            [0x81] => Some(0x4f),
            [number @ 1..=16] => Some(0x50 + number),
            _ => None,
        };
        let form = self.rng.below(12);
        match small {
            Some(opcode) if form < 7 => self.op(opcode),
            _ => {
                if form < 9 && (1..=75).contains(&length) {
                    self.op(length as u8);
                } else if form < 10 && length < 256 {
                    self.out.extend([0x4c, length as u8]);
                } else if form < 11 && length < 65536 {
                    self.op(0x4d);
                    self.out.extend((length as u16).to_le_bytes());
                } else {
                    self.op(0x4e);
                    self.out.extend((length as u32).to_le_bytes());
                }
                self.out.extend(data);
            }
        }
        self.pushed(if length <= 8 { Some(data.to_vec()) } else { None });
    }

    fn pushed(&mut self, item: Item) {
        if let Some(stacks) = &mut self.stacks {
            stacks.main.push(item);
        }
    }

    fn push_number(&mut self, number: i64) {
        self.push(&number_form(number));
    }

    /// A push of the common kinds.
    fn push_some(&mut self) {
        match self.rng.below(10) {
            0..=4 => {
                let number = self.rng.within(0, 18) as i64 - 1;
                self.push_number(number);
            }
            5 => {
                let number = self.rng.number() as i64 >> self.rng.below(64);
                self.push_number(number.max(-i64::MAX));
            }
            6 => {
                let byte = self.rng.pick(&[0x00, 0x1f, 0x20, 0x21, 0x22, 0x7f, 0x80, 0x81, 0xff]);
                self.push(&[byte]);
            }
            _ => {
                let length = self.rng.within(0, 9);
                let data = self.rng.bytes(length);
                self.push(&data);
            }
        }
    }

    /// A push of one of the lengths that matter; the long ones less often.
    fn push_length(&mut self) {
        let lengths = if self.rng.percent(80) { &LENGTHS[..5] } else { &LENGTHS[..] };
        let length = self.rng.pick(lengths);
        let data = self.rng.bytes(length);
        self.push(&data);
    }

    // Stack operations that succeed.

    fn plain(&mut self, opcode: u8, pops: usize, pushes: usize) {
        self.op(opcode);
        if let Some(stacks) = &mut self.stacks {
            let left = stacks.main.len() - pops;
            stacks.main.truncate(left);
            stacks.main.resize(left + pushes, None);
        }
    }

    fn copy(&mut self, opcode: u8, depth: usize, count: usize) {
        self.op(opcode);
        if let Some(stacks) = &mut self.stacks {
            let start = stacks.main.len() - depth;
            stacks.main.extend_from_within(start..start + count);
        }
    }

    fn rotate(&mut self, opcode: u8, count: usize, shift: usize) {
        self.op(opcode);
        if let Some(stacks) = &mut self.stacks {
            let start = stacks.main.len() - count;
            stacks.main[start..].rotate_left(shift);
        }
    }

    fn move_to_alt(&mut self) {
        self.op(0x6b);
        if let Some(stacks) = &mut self.stacks {
            stacks.alt.extend(stacks.main.pop());
        }
    }

    fn move_from_alt(&mut self) {
        self.op(0x6c);
        if let Some(stacks) = &mut self.stacks {
            stacks.main.extend(stacks.alt.pop());
        }
    }

    fn depth(&mut self) {
        self.op(0x74);
        self.pushed(Some(number_form(self.height() as i64)));
    }

    fn size(&mut self) {
        self.op(0x82);
        let top = self.stacks.as_ref().and_then(|stacks| stacks.main.last());
        let length = top.and_then(Option::as_ref).map(|bytes| number_form(bytes.len() as i64));
        self.pushed(length);
    }

    fn nip(&mut self) {
        self.op(0x77);
        if let Some(stacks) = &mut self.stacks {
            stacks.main.remove(stacks.main.len() - 2);
        }
    }

    fn tuck(&mut self) {
        self.op(0x7d);
        if let Some(stacks) = &mut self.stacks {
            let height = stacks.main.len();
            stacks.main.insert(height - 2, stacks.main[height - 1].clone());
        }
    }

    /// PICK or ROLL with the index on top, known to be good.
    fn pick_or_roll(&mut self, index: usize) {
        let roll = self.rng.percent(50);
        self.op(if roll { 0x7a } else { 0x79 });
        if let Some(stacks) = &mut self.stacks {
            stacks.main.pop();
            let at = stacks.main.len() - 1 - index;
            let item = if roll { stacks.main.remove(at) } else { stacks.main[at].clone() };
            stacks.main.push(item);
        }
    }

    /// PICK or ROLL that succeeds, its index a literal, a length or what is on top.
    fn good_index(&mut self) {
        let Some(stacks) = &self.stacks else {
            return;
        };
        let (height, room) = (stacks.main.len(), stacks.room());
        if let Some(Some(bytes)) = stacks.main.last()
            && let Some(index) = read_number(bytes)
            && (0..height as i64 - 1).contains(&index)
        {
            return self.pick_or_roll(index as usize);
        }
        if height == 0 || room == 0 {
            return;
        }
        match self.rng.below(4) {
            // The deepest item that there is.
            0 => {
                self.push_number(height as i64 - 1);
                self.pick_or_roll(height - 1);
            }
            // The length of a literal, which stays below.
            1 if room > 1 => {
                let length = self.rng.below(height.min(8) + 1);
                let data = self.rng.bytes(length);
                self.push(&data);
                self.size();
                self.pick_or_roll(length);
            }
            _ => {
                let index = self.rng.below(height);
                self.push_number(index as i64);
                self.pick_or_roll(index);
            }
        }
    }

    /// An index out of two arms that agree.
    fn joined_index(&mut self) {
        if self.stacks.is_none() || self.height() < 2 || self.room() < 2 || self.open >= self.deepest {
            return;
        }
        let index = self.rng.below(self.height() - 1);
        self.enter();
        let start = self.stacks.clone();
        self.open += 1;
        self.push_number(index as i64);
        self.close_arms(start, true, |writer| writer.push_number(index as i64));
        self.pick_or_roll(index);
    }

    /// Either ZK form, with all that it pops.
    fn good_zk(&mut self) {
        let (height, room) = (self.height(), self.room());
        if height == 33 && room > 0 {
            // The tag 21 out of DEPTH.
            self.depth();
            return self.zk_end(8);
        }
        if height >= 8 && room > 0 && self.rng.percent(50) {
            self.push(&[0x21]);
            return self.zk_end(8);
        }
        if room < 4 {
            return;
        }
        let count = if self.rng.percent(20) { height } else { self.rng.below(height.min(12) + 1) };
        self.push_number(count as i64);
        self.push_some();
        self.push_some();
        self.push(&[0x20]);
        self.zk_end(count + 3);
    }

    /// ZK with the tag on top and `drops` items to go below it.
    fn zk_end(&mut self, drops: usize) {
        self.op(0xa6);
        if let Some(stacks) = &mut self.stacks {
            let left = stacks.main.len() - 1 - drops;
            stacks.main.truncate(left);
            stacks.main.push(Some(vec![1]));
        }
    }

    // Faults. What follows one is never walked, so the stacks no longer matter.

    /// Writes something that is refused with this number, if it can be in dead code.
    fn fail(&mut self, number: u32) {
        if self.stacks.is_none() && (6..=12).contains(&number) {
            return;
        }
        match number {
            3 => self.malformed(),
            6 => self.overfill(),
            7 => self.run_dry(),
            8 => {
                let alt = self.stacks.as_ref().map_or(0, |stacks| stacks.alt.len());
                for _ in 0..=alt {
                    self.op(0x6c);
                }
            }
            9 => self.bad_index(),
            10 => self.bad_tag(),
            11 => {
                let opcode = self.rng.pick(&UNMODELLED);
                self.op(opcode);
            }
            12 => self.unequal_arms(),
            13 => {
                for _ in 0..self.open {
                    self.op(0x68);
                }
                self.op(0x67);
            }
            14 => {
                self.enter();
                self.out.extend([0x67, 0x61, 0x67, 0x68]);
            }
            15 => {
                for _ in 0..=self.open {
                    self.op(0x68);
                }
            }
            16 => {
                let more = self.rng.within(1, 3);
                for _ in 0..more {
                    self.enter();
                }
            }
            _ => unreachable!("no fault with number {number}"),
        }
    }

    /// A push whose length or data bytes are missing: the end of the fragment
    /// unless more is written, which may then be taken for its data.
    fn malformed(&mut self) {
        let end: &[u8] = match self.rng.below(8) {
            0 => &[0x4c],
            1 => &[0x4d, 0x01],
            2 => &[0x4e, 0x00, 0x00, 0x00],
            3 => &[0x4c, 0xff, 0x00],
            4 => &[0x4d, 0xff, 0xff],
            5 => &[0x4e, 0xff, 0xff, 0xff, 0xff],
            6 => &[0x4b, 0x01],
            _ => &[0x02, 0x01],
        };
        self.out.extend(end);
    }

    fn overfill(&mut self) {
        let Some(stacks) = &self.stacks else {
            return;
        };
        let (height, mut room) = (stacks.main.len(), stacks.room());
        // Triples first, to keep it short.
        if height >= 3 && self.rng.percent(80) {
            while room >= 3 {
                self.op(0x6f);
                room -= 3;
            }
        }
        while room > 0 {
            let opcode = self.rng.pick(&[0x51, 0x74, 0xb2, 0x00]);
            self.op(opcode);
            room -= 1;
        }
        let height = if height > 0 { height } else { usize::from(self.room() > 0) };
        let last: &[u8] = if height >= 4 { &[0x6f, 0x6e, 0x70, 0x7d, 0x82, 0x74, 0xb9, 0x60] } else { &[0x74, 0xb5, 0x00, 0x5a] };
        let opcode = self.rng.pick(last);
        self.op(opcode);
    }

    fn run_dry(&mut self) {
        let height = self.height();
        match self.rng.below(6) {
            // An index or a count one too large, or far too large.
            0 | 1 if self.room() > 4 => {
                let past = match self.rng.below(4) {
                    0 => i64::MAX,
                    1 => 1 << self.rng.within(8, 62),
                    _ => height as i64 + self.rng.below(3) as i64,
                };
                self.push_number(past);
                let opcode = self.rng.pick(&[0x79, 0x7a]);
                self.op(opcode);
            }
            2 if self.room() > 4 => {
                self.push_number(height as i64 + 1);
                self.push_some();
                self.push_some();
                self.push(&[0x20]);
                self.op(0xa6);
            }
            3 if self.room() > 4 && height < 8 => {
                self.push(&[0x21]);
                self.op(0xa6);
            }
            _ => {
                // Down to fewer than the opcode needs.
                let (need, opcode) = match self.rng.below(4) {
                    0 => {
                        let (pops, _, codes) = self.rng.pick(&PLAIN);
                        (pops, self.rng.pick(codes))
                    }
                    1 => {
                        let (opcode, depth, _) = self.rng.pick(&COPIES);
                        (depth, opcode)
                    }
                    2 => {
                        let (opcode, count, _) = self.rng.pick(&ROTATIONS);
                        (count, opcode)
                    }
                    _ => self.rng.pick(&[(2, 0x7d), (2, 0x77), (1, 0x82), (1, 0x6b), (1, 0x63), (1, 0x64), (1, 0x79), (1, 0xa6)]),
                };
                let (need, opcode) = if need == 0 { (1, 0x75) } else { (need, opcode) };
                let left = self.rng.below(need);
                for _ in left..height {
                    self.op(0x75);
                }
                self.op(opcode);
            }
        }
    }

    fn bad_index(&mut self) {
        let bad: &[&[u8]] = &[
            &[0x81],
            &[0x00],
            &[0x80],
            &[0x01, 0x00],
            &[0x01, 0x80],
            &[0x00, 0x00],
            &[0xff, 0xff, 0x80, 0x80],
            &[0xff, 0xff, 0xff, 0xff, 0xff, 0xff, 0xff, 0xff],
            &[0x01, 0x00, 0x00, 0x00, 0x00, 0x00, 0x00, 0x00],
            &[0x00, 0x00, 0x00, 0x00, 0x00, 0x00, 0x00, 0x80],
            &[0x01, 0x00, 0x00, 0x00, 0x00, 0x00, 0x00, 0x00, 0x00],
        ];
        self.make_way(1, 4);
        match self.rng.below(4) {
            // Unknown: a computed number.
            0 => {
                self.push_some();
                self.plain(0x8b, 1, 1);
            }
            // Unknown: two arms that do not agree.
            1 => {
                self.enter();
                self.out.extend([0x51, 0x67, 0x52, 0x68]);
            }
            _ => {
                let bytes = self.rng.pick(bad);
                self.push(bytes);
            }
        }
        if self.rng.percent(75) {
            let opcode = self.rng.pick(&[0x79, 0x7a]);
            self.op(opcode);
        } else {
            self.push_some();
            self.push_some();
            self.push(&[0x20]);
            self.op(0xa6);
        }
    }

    fn bad_tag(&mut self) {
        self.make_way(0, 1);
        let tag: &[u8] = match self.rng.below(6) {
            0 => &[0x1f],
            1 => &[0x22],
            2 => &[0x20, 0x00],
            3 => &[],
            4 => &[0x14],
            _ => {
                self.op(0xb2);
                return self.op(0xa6);
            }
        };
        self.push(tag);
        self.op(0xa6);
    }

    fn unequal_arms(&mut self) {
        self.make_way(2, 1);
        self.enter();
        let arms: &[u8] = match self.rng.below(6) {
            0 => &[0x51, 0x68],
            1 => &[0x75, 0x67, 0x68],
            2 => &[0x6b, 0x68],
            3 => &[0x67, 0x6b, 0x68],
            4 => &[0x51, 0x67, 0x51, 0x6b, 0x68],
            _ => &[0x67, 0x75, 0x68],
        };
        self.out.extend(arms);
    }
}

/// The number form, for numbers of at most eight bytes.
pub fn number_form(number: i64) -> Vec<u8> {
    let mut bytes = Vec::new();
    let mut magnitude = number.unsigned_abs();
    while magnitude > 0 {
        bytes.push(magnitude as u8);
        magnitude >>= 8;
    }
    match bytes.last_mut() {
        Some(last) if *last >= 0x80 => bytes.push(if number < 0 { 0x80 } else { 0 }),
        Some(last) if number < 0 => *last |= 0x80,
        _ => {}
    }
    bytes
}

/// Reads a number form of at most eight bytes.
fn read_number(bytes: &[u8]) -> Option<i64> {
    let (&last, lower) = match bytes.split_last() {
        None => return Some(0),
        Some(split) => split,
    };
    if bytes.len() > 8 || (last & 0x7f == 0 && lower.last().is_none_or(|&byte| byte < 0x80)) {
        return None;
    }
    let magnitude = lower.iter().rev().fold(i64::from(last & 0x7f), |sum, &byte| sum * 256 + i64::from(byte));
    Some(if last < 0x80 { magnitude } else { -magnitude })
}
