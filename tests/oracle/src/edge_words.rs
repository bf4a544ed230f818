//! Words at the limits of the arithmetic.

/// Words of which every ordered pair is tried.
pub const EDGE_WORDS: [u32; 16] = [
    0,
    1,
    2,
    3,
    7,
    0x1f,
    0x20,
    0x21,
    0xffff,
    0x1_0000,
    0x7fff_ffff,
    0x8000_0000,
    0x8000_0001,
    0xffff_fff9,
    0xffff_fffe,
    0xffff_ffff,
];
