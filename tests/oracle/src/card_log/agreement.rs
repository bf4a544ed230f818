//! The reading of the card log beside the original's ticks, and what a list wrote beside what is read of it.

use super::written::laid_over;
use super::{Access, Event, HeldLog, of_tick};
use crate::cpu_pipeline::harness::original::Original;
use crate::refusals::{self, NONE};
use crate::rows::{Input, LOAD, Seen, State};

/// Panics if the events of a tick are not what the original's tick does.
pub fn check_tick(original: &mut Original, state: &State, given: &Input) {
    if refusals::standing(state) != NONE {
        return;
    }
    let events = of_tick(state, &given.answer);
    let (next, seen) = original.tick(state, given);
    let retired = events.iter().filter_map(address_retired);
    let retired: Vec<u32> = retired.collect();
    let counted = next.instructions_executed - state.instructions_executed;
    assert_eq!(retired.len() as u64, counted, "how many retire");
    assert_eq!(retired, original.retired(state), "what retires");
    let registers = laid_over(state.reg, &events);
    assert_eq!(registers[1..], next.reg[1..], "the registers written");
    let accesses: Vec<Event> = events.into_iter().filter(is_access).collect();
    let shown: Vec<Event> = access(&seen, &next).into_iter().collect();
    assert_eq!(accesses, shown, "the load or store");
}

/// Gives the address of a retirement.
fn address_retired(event: &Event) -> Option<u32> {
    match *event {
        Event::Retired(address) => Some(address),
        _ => None,
    }
}

/// Tells whether an event is a load or a store.
fn is_access(event: &Event) -> bool {
    matches!(event, Event::Loaded(_) | Event::Stored(_))
}

/// Gives the load or store that the original's bus saw; the loaded word stands in MEM/WB afterwards.
fn access(seen: &Seen, next: &State) -> Option<Event> {
    let of = |word| Access {
        address: seen.address,
        width: seen.width,
        word,
    };
    match seen.request {
        0 => None,
        LOAD => Some(Event::Loaded(of(next.mem_wb.value))),
        _ => Some(Event::Stored(of(seen.word))),
    }
}

/// Panics if reading the held log gives something else than the events written, or if their registers laid over those
/// at the start are not those of the state now.
pub fn check_list(log: &HeldLog, state: &State) {
    let mut place = log.written.start;
    for event in &log.written.events {
        let reading = log.read(log.free as u32, place);
        assert_eq!(
            (reading.code, reading.event),
            (NONE, Some(*event)),
            "an event read back"
        );
        place = reading.next;
    }
    assert_eq!(place, log.free, "the end of what is read back");
    if let Some(registers) = log.written.registers {
        let registers = laid_over(registers, &log.written.events);
        assert_eq!(registers[1..], state.reg[1..], "the registers laid over");
    }
}
