//! Lines of lowercase hexadecimal numbers with single spaces between.

/// Appends a line.
pub fn put(numbers: &[u32], out: &mut Vec<u8>) {
    for (place, &number) in numbers.iter().enumerate() {
        if place > 0 {
            out.push(b' ');
        }
        put_number(number, out);
    }
    out.push(b'\n');
}

/// Appends a number without leading zeros.
fn put_number(number: u32, out: &mut Vec<u8>) {
    let digits = (32 - number.leading_zeros()).div_ceil(4).max(1);
    for place in (0..digits).rev() {
        let digit = (number >> (4 * place)) & 0xf;
        out.push(b"0123456789abcdef"[digit as usize]);
    }
}

/// Reads a line, or nothing if some part of it is no such number.
pub fn read(line: &str) -> Option<Vec<u32>> {
    line.split(' ')
        .map(|word| u32::from_str_radix(word, 16).ok())
        .collect()
}
