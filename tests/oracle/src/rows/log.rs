//! Short logs that a line holds whole.

use crate::row::row;

/// Words of such a log and their bytes.
const WORDS: usize = 16;
pub const LOG_BYTES: usize = 4 * WORDS;

/// The words of such a log.
pub type LogWords = [u32; WORDS];

row! {
    /// A log for one tick: the first free place, how many bytes are lent, and the words that they stand in.
    LentLog {
        free: u64,
        length: u32,
        words: LogWords,
    }
}

row! {
    /// A log to read one event of: how many bytes it has, the place, and the words that they stand in.
    ReadLog {
        length: u32,
        place: u64,
        words: LogWords,
    }
}

/// Gives the bytes of the words, high byte first.
pub fn bytes_of(words: &LogWords) -> [u8; LOG_BYTES] {
    std::array::from_fn(|place| words[place / 4].to_be_bytes()[place % 4])
}

/// Gives the words of the bytes.
pub fn words_of(bytes: &[u8; LOG_BYTES]) -> LogWords {
    let (words, _) = bytes.as_chunks();
    std::array::from_fn(|place| u32::from_be_bytes(words[place]))
}
