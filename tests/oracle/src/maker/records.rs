//! Records of a step sheet, dense in hazards, whose jumps meet records of their mode.

use super::Maker;
use super::instruction::BRANCHES;
use crate::cpu_pipeline::harness::Numbers;
use crate::sheet::{RECORD_ADDRESSES, Record};

/// Positions in the enum of the Normal instructions that are placed by themselves.
const ADDI: u32 = 0x04;
const HALT: u32 = 0x12;
/// Jumps by an offset and by a register, to Normal instructions and to short ones.
const TO_NORMAL: [u32; 2] = [0x09, 0x0a];
const TO_SHORT: [u32; 2] = [0x0c, 0x0d];
const REGISTER_TO_NORMAL: [u32; 2] = [0x0b, 0x0f];
const REGISTER_TO_SHORT: [u32; 2] = [0x0e, 0x10];

/// Top nibbles of short instructions.
const SHORT_BRANCHES: [u32; 2] = [0x5, 0x6];
const SHORT_JR: u32 = 0x7;
const SHORT_JAL: u32 = 0x8;
const RET: u32 = 0xf;

/// Records among which the next of a kind is looked for, to either side.
const FARTHEST: usize = 60;

/// Tells of each record whether it is a pair.
type Layout = [bool];

impl Maker {
    /// Makes so many valid records.
    pub fn records(&mut self, count: usize) -> Vec<Record> {
        let mut layout = self.layout(count);
        let halts = self.random.chance(88);
        if let Some(last) = layout.last_mut() {
            *last &= !halts;
        }
        let others = self.random.pick(&[0, 1, 2, 8]);
        let mut records = Vec::with_capacity(count);
        for place in 0..count {
            records.push(if layout[place] {
                Record::Pair(self.pair_at(&layout, place))
            } else {
                Record::Normal(self.normal_at(&layout, place, others))
            });
        }
        for place in 1..count {
            self.set_up_a_jump(&layout, place, &mut records);
        }
        if self.random.chance(60) {
            self.place_a_loop(&layout, &mut records);
        }
        if self.random.chance(25) {
            let placed = self.beside_a_special_read();
            self.place(placed, &layout, &mut records);
        }
        if self.random.chance(2) {
            let placed = self.hard_divide();
            self.place(placed, &layout, &mut records);
        }
        if let Some(last) = records.last_mut().filter(|_| halts) {
            *last = Record::Normal(of(HALT, [0; 3]));
        }
        records
    }

    /// Chooses which records are pairs; they stand together.
    fn layout(&mut self, count: usize) -> Vec<bool> {
        let begins = self.random.pick(&[0, 10, 20, 40]);
        let mut pair = false;
        let mut next = || {
            pair = self.random.chance(if pair { 60 } else { begins });
            pair
        };
        (0..count).map(|_| next()).collect()
    }

    /// Makes a Normal instruction for a place, with a way to a record of its mode most often.
    fn normal_at(&mut self, layout: &Layout, place: usize, others: u32) -> Numbers {
        if layout.get(place + 1) == Some(&true) && self.random.chance(90) {
            return self.way_into_or_past_a_pair(layout, place);
        }
        let mut instruction = self.listed_normal(others);
        if !layout.contains(&true) && self.random.chance(90) {
            stay_in_normal_mode(&mut instruction);
        }
        if self.random.chance(8) {
            return instruction;
        }
        let Numbers { variant, fields } = &mut instruction;
        let behind = RECORD_ADDRESSES * (place as u32 + 1);
        if BRANCHES.contains(variant) {
            fields[2] = self.near(layout, place, false, 40).wrapping_sub(behind);
        } else if TO_NORMAL.contains(variant) {
            fields[0] = self.near(layout, place, false, 15).wrapping_sub(behind);
        } else if TO_SHORT.contains(variant) {
            fields[0] = self.near(layout, place, true, 30).wrapping_sub(behind);
        }
        instruction
    }

    /// Makes a jump to the pair behind a place, or past it.
    fn way_into_or_past_a_pair(&mut self, layout: &Layout, place: usize) -> Numbers {
        let next = self.random.pick(&[0, 0, 0, 2]);
        let behind = RECORD_ADDRESSES * (place as u32 + 1);
        match self.random.below(4) {
            0 => of(TO_SHORT[0], [next, 0, 0]),
            1 => of(TO_SHORT[1], [next, 0, 0]),
            2 => {
                let variant = self.random.pick(&REGISTER_TO_SHORT);
                of(variant, [self.register(), 0, 0])
            }
            _ => {
                let variant = self.random.pick(&TO_NORMAL);
                let target = self.near(layout, place + 1, false, 0);
                of(variant, [target.wrapping_sub(behind), 0, 0])
            }
        }
    }

    /// Makes two halfwords for a place; the last before a Normal record returns most often.
    fn pair_at(&mut self, layout: &Layout, place: usize) -> [u32; 2] {
        let mut pair = [0, 1].map(|half| self.halfword_at(layout, place, half));
        let ends = layout.get(place + 1) == Some(&false);
        if ends && self.random.chance(92) {
            pair[1] = (RET << 12) | self.random.below(0x1000);
        }
        if pair[1] >> 12 == SHORT_JR && self.random.chance(65) {
            let target = self.near(layout, place, true, 40);
            pair[0] = 0x9000 | (pair[1] & 0xf00) | (target & 0xff);
        }
        pair
    }

    /// Makes a halfword for a place, with a way to a pair most often.
    fn halfword_at(&mut self, layout: &Layout, place: usize, half: u32) -> u32 {
        let halfword = self.listed_short();
        let nibble = halfword >> 12;
        let behind = RECORD_ADDRESSES * place as u32 + 2 * half + 2;
        if nibble == RET && self.random.chance(80) {
            return 0x1000 | (halfword & 0xfff);
        }
        if self.random.chance(8) {
            return halfword;
        }
        if SHORT_BRANCHES.contains(&nibble) {
            let way = self.near(layout, place, true, 40).wrapping_sub(behind);
            return (halfword & 0xff00) | (way & 0xff);
        }
        if nibble == SHORT_JAL {
            let way = self.near(layout, place, true, 20).wrapping_sub(behind);
            return (halfword & 0xf000) | (way & 0xfff);
        }
        halfword
    }

    /// Lets the record before a jump by register put an address into the register, most often.
    fn set_up_a_jump(&mut self, layout: &Layout, place: usize, records: &mut [Record]) {
        let Record::Normal(Numbers { variant, fields }) = records[place] else {
            return;
        };
        let short = REGISTER_TO_SHORT.contains(&variant);
        let sets_up = (short || REGISTER_TO_NORMAL.contains(&variant)) && !layout[place - 1];
        if sets_up && self.random.chance(85) {
            let target = self.near(layout, place, short, 30);
            records[place - 1] = Record::Normal(of(ADDI, [fields[0], 0, target]));
        }
    }

    /// Places a loop that counts a register down, over whatever stands inside, but over no pair.
    fn place_a_loop(&mut self, layout: &Layout, records: &mut [Record]) {
        let length = 2 + self.random.below(6) as usize;
        let Some(room) = records.len().checked_sub(length + 2) else {
            return;
        };
        let first = self.random.below(room as u32 + 1) as usize;
        if [first, first + length - 1, first + length]
            .into_iter()
            .any(|place| layout[place])
        {
            return;
        }
        let register = self.register();
        let turns = 1 + self.random.below(12);
        let back = 0u32.wrapping_sub(RECORD_ADDRESSES * length as u32);
        records[first] = Record::Normal(of(ADDI, [register, 0, turns]));
        records[first + length - 1] = Record::Normal(of(ADDI, [register, register, u32::MAX]));
        records[first + length] = Record::Normal(of(BRANCHES[1], [register, 0, back]));
    }

    /// Places instructions that stand together, but over no pair.
    fn place(&mut self, placed: Vec<Numbers>, layout: &Layout, records: &mut [Record]) {
        let Some(room) = records.len().checked_sub(placed.len()) else {
            return;
        };
        let first = self.random.below(room as u32 + 1) as usize;
        let places = first..first + placed.len();
        if layout[places.clone()].contains(&true) {
            return;
        }
        for (record, instruction) in records[places].iter_mut().zip(placed) {
            *record = Record::Normal(instruction);
        }
    }

    /// Gives the address of a record of a kind some places away, backward so many times in a hundred.
    fn near(&mut self, layout: &Layout, place: usize, pair: bool, backward: u32) -> u32 {
        let distance = self.random.below(9) as usize;
        let first = if self.random.chance(backward) {
            place.saturating_sub(distance)
        } else {
            (place + distance).min(layout.len() - 1)
        };
        let forward = (first..layout.len()).take(FARTHEST);
        let mut places = forward.chain((0..first).rev().take(FARTHEST));
        let found = places.find(|&place| layout[place] == pair);
        let address = RECORD_ADDRESSES * found.unwrap_or(first) as u32;
        address + 2 * u32::from(pair && self.random.chance(25))
    }
}

/// Makes a Normal instruction.
fn of(variant: u32, fields: [u32; 3]) -> Numbers {
    Numbers { variant, fields }
}

/// Lets a jump to short instructions go to Normal ones.
fn stay_in_normal_mode(instruction: &mut Numbers) {
    let ways = [
        (TO_SHORT, TO_NORMAL),
        (REGISTER_TO_SHORT, REGISTER_TO_NORMAL),
    ];
    for (short, normal) in ways {
        if let Some(place) = short.iter().position(|&known| known == instruction.variant) {
            instruction.variant = normal[place];
            return;
        }
    }
}
