//! What decode puts into the latch, the sources it waits for and the latency.

use super::unknown_words::{UNKNOWN, UnknownWords};
use super::{Numbers, PipelineCpu, RawInstr, encoding, fetched, fresh_core};

/// Tells whether numbers are those of a Normal instruction, with registers up to 31.
pub fn are_of_an_instruction(numbers: Numbers) -> bool {
    match numbers.fields {
        [0..=0xffff, 0..=0xffff, 0] if numbers.variant == UNKNOWN => true,
        _ => encoding::word_of(numbers).is_some(),
    }
}

/// Gives the nine numbers of a Normal instruction.
pub fn of_normal(numbers: Numbers) -> [u32; 9] {
    of_raw(RawInstr::Normal(UnknownWords::default().word_of(numbers)))
}

/// Gives the nine numbers of a short halfword.
pub fn of_short(halfword: u16) -> [u32; 9] {
    of_raw(RawInstr::Short(halfword))
}

/// Gives sources, their count, destination plus one, load, store, waited-for sources and latency.
fn of_raw(raw: RawInstr) -> [u32; 9] {
    let core = fresh_core();
    let if_id = fetched(raw);
    let latch = core.decode_id(&if_id);
    let waited = core.id_sources(&if_id);
    [
        latch.srcs[0] as u32,
        latch.srcs[1] as u32,
        u32::from(latch.n_srcs),
        latch.dest.map_or(0, |register| register as u32 + 1),
        u32::from(latch.is_load),
        u32::from(latch.is_store),
        waited[0] as u32,
        waited[1] as u32,
        PipelineCpu::is_mul_div(&latch.decoded).unwrap_or(0),
    ]
}
