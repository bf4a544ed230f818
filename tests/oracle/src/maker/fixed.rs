//! The cases without a state that are tried first, whatever the seed.

use crate::cpu_pipeline::harness::Numbers;
use crate::edge_words::EDGE_WORDS;

/// Pairs of edge words.
const EDGE_PAIRS: u32 = (EDGE_WORDS.len() * EDGE_WORDS.len()) as u32;

/// Some commands that are none of the sixteen, and the words of which every pair is given to them.
pub const OTHER_COMMANDS: [u32; 14] = [
    0,
    1,
    2,
    3,
    0xf,
    0x20,
    0x21,
    0x30,
    0x54,
    0x61,
    0x110,
    0x1_0010,
    0x7fff_ffff,
    0xffff_ffff,
];
const OTHER_WORDS: [u32; 3] = [0, 1, 0xffff_ffff];

/// Gives a command and two words: every pair of edge words under each command, then the other commands.
pub fn arithmetic(number: u32) -> Option<[u32; 3]> {
    if number < 16 * EDGE_PAIRS {
        let [a, b] = pair(&EDGE_WORDS, number);
        return Some([0x10 + number / EDGE_PAIRS, a, b]);
    }
    let number = number - 16 * EDGE_PAIRS;
    let command = OTHER_COMMANDS.get(number as usize / 9)?;
    let [a, b] = pair(&OTHER_WORDS, number);
    Some([*command, a, b])
}

/// Gives one of the ordered pairs of some words.
fn pair(words: &[u32], number: u32) -> [u32; 2] {
    let count = words.len();
    let number = number as usize;
    [words[number / count % count], words[number % count]]
}

/// Low twelve bits that are tried below each top digit.
const BODIES: [u32; 24] = [
    0x000, 0x001, 0x00e, 0x00f, 0x010, 0x0e0, 0x0f0, 0x0ff, 0x100, 0x123, 0x1f2, 0x21f, 0x7ff,
    0x800, 0x88f, 0xabc, 0xe00, 0xeee, 0xf00, 0xf01, 0xf0f, 0xf1f, 0xff0, 0xfff,
];

/// Gives a halfword with each of the tried bodies below each top digit.
pub fn halfword(number: u32) -> Option<u32> {
    let body = BODIES.get(number as usize / 16)?;
    Some((number % 16) << 12 | body)
}

/// Kinds of Normal instructions, and how many of each are tried.
pub const KINDS: u32 = 0x2b;
const ROUNDS: u32 = 32;
const REGISTERS: [u32; 8] = [0, 1, 2, 14, 15, 16, 30, 31];
const SIGNED: [u32; 8] = [
    0,
    1,
    4,
    0x7fff,
    0xffff_8000,
    0xffff_8001,
    0xffff_fffc,
    0xffff_ffff,
];
const HALVES: [u32; 6] = [0, 1, 0x7fff, 0x8000, 0xfffe, 0xffff];

/// Gives a Normal instruction of each kind in turn, with several combinations of its fields.
pub fn instruction(number: u32) -> Option<Numbers> {
    let (variant, round) = (number % KINDS, number / KINDS);
    let register = |steps: u32| REGISTERS[(steps * round + round / 8) as usize % 8];
    let signed = SIGNED[(round + round / 8) as usize % 8];
    let half = |rounds: u32| HALVES[rounds as usize % 6];
    let fields = match variant {
        0x00 | 0x11 | 0x12 | 0x27 => [0; 3],
        0x01 | 0x02 | 0x04 | 0x07 | 0x08 | 0x20..=0x23 => [register(1), register(3), signed],
        0x09 | 0x0a | 0x0c | 0x0d => [signed, 0, 0],
        0x0b | 0x0e | 0x0f | 0x10 => [round, 0, 0],
        0x24 | 0x25 | 0x29 | 0x2a => [register(1), half(round), 0],
        0x26 => [half(round), half(round / 6), 0],
        0x28 => [half(round), 0, 0],
        _ => [register(1), register(3), register(5)],
    };
    (round < ROUNDS).then_some(Numbers { variant, fields })
}

/// How many instructions that gives.
pub const INSTRUCTIONS: u32 = KINDS * ROUNDS;
