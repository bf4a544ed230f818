//! The arithmetic of two words, RULES 4.2 and 4.3.

/// Gives the word that one of the sixteen kinds makes of two words, or nothing for another kind.
pub fn word(variant: u32, x: u32, y: u32) -> Option<u32> {
    let (a, b) = (signed(x), signed(y));
    let amount = y % 32;
    Some(match variant {
        // ADD, SUB
        0x03 => x.wrapping_add(y),
        0x05 => x.wrapping_sub(y),
        // AND, OR, XOR
        0x13 => x & y,
        0x14 => x | y,
        0x15 => x ^ y,
        // SLL, SLA, SRL, SRA
        0x16 | 0x18 => x << amount,
        0x17 => x >> amount,
        0x19 => (a >> amount) as u32,
        // SLT, SLTU
        0x06 => u32::from(a < b),
        0x1a => u32::from(x < y),
        // MUL, MULH
        0x1b => (a * b) as u32,
        0x1e => ((a * b) >> 32) as u32,
        // DIV, MOD, DIVU
        0x1c => a.checked_div(b).unwrap_or(0) as u32,
        0x1d => a.checked_rem(b).unwrap_or(0) as u32,
        0x1f => x.checked_div(y).unwrap_or(0),
        _ => return None,
    })
}

/// Reads a word as signed, with room for sums and products.
fn signed(word: u32) -> i64 {
    i64::from(word as i32)
}
