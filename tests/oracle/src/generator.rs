//! A small pseudo-random generator with a fixed start.

use crate::edge_words::EDGE_WORDS;

/// State of the splitmix64 generator.
pub struct Generator(u64);

impl Generator {
    /// Starts the generator at a fixed place.
    pub fn new(seed: u64) -> Self {
        Self(seed)
    }

    /// Gives the next 64 bits.
    pub fn bits(&mut self) -> u64 {
        self.0 = self.0.wrapping_add(0x9e37_79b9_7f4a_7c15);
        let mixed = (self.0 ^ (self.0 >> 30)).wrapping_mul(0xbf58_476d_1ce4_e5b9);
        let mixed = (mixed ^ (mixed >> 27)).wrapping_mul(0x94d0_49bb_1331_11eb);
        mixed ^ (mixed >> 31)
    }

    /// Gives a word of any length in bits and of either sign.
    pub fn word(&mut self) -> u32 {
        let bits = self.bits();
        let word = ((bits >> 32) as u32) >> (bits & 0x1f);
        if bits & 0x20 == 0 {
            word
        } else {
            word.wrapping_neg()
        }
    }

    /// Gives a word at a limit or any word.
    pub fn limit_or_word(&mut self) -> u32 {
        if self.chance(30) {
            self.pick(&EDGE_WORDS)
        } else {
            self.word()
        }
    }

    /// Picks one of the given values.
    pub fn pick(&mut self, values: &[u32]) -> u32 {
        values[(self.bits() % values.len() as u64) as usize]
    }

    /// Gives a number below the limit.
    pub fn below(&mut self, limit: u32) -> u32 {
        (self.bits() % u64::from(limit)) as u32
    }

    /// Says yes so many times in a hundred.
    pub fn chance(&mut self, percent: u32) -> bool {
        self.below(100) < percent
    }
}
