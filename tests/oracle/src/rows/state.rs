//! The whole state, what start is given, and what a tick is given and asks for.

use super::{ExMem, IdEx, IfId, MemWb, Offer, Origins, Special, Waits};
use crate::row::row;

row! {
    /// The whole state.
    State {
        reg: [u32; 32],
        fetch_pc: u32,
        fetch_mode: u32,
        retire_pc: u32,
        retire_mode: u32,
        running: bool,
        user: bool,
        features: u32,
        if_id: IfId,
        id_ex: IdEx,
        ex_mem: ExMem,
        mem_wb: MemWb,
        ex_cycles_left: u32,
        ex_armed: bool,
        wait_left: u32,
        cycles: u64,
        running_cycles: u64,
        instructions_executed: u64,
        stall_cycles: u64,
        flush_events: u64,
    }
}

row! {
    /// What start is given.
    Begin {
        reg: [u32; 32],
        pc: u32,
        mode: u32,
        user: bool,
        features: u32,
    }
}

row! {
    /// A load answer, or none.
    Answer {
        given: bool,
        word: u32,
    }
}

row! {
    /// What a tick is given besides the state.
    Input {
        offer: Offer,
        answer: Answer,
        special: Special,
        waits: Waits,
    }
}

impl Input {
    /// No instruction, neither answer and no wait.
    pub const NOTHING: Self = Self {
        offer: Offer::Nothing,
        answer: Answer {
            given: false,
            word: 0,
        },
        special: Special::NotGiven,
        waits: Waits::NONE,
    };
}

row! {
    /// What a run is given besides the state and the buffers: the limit and how much of each buffer.
    Given {
        limit: u32,
        sheet_length: u32,
        answer_count: u32,
        table_length: u32,
    }
}

row! {
    /// What a tick asks for: a fetch or none, then a load, a store or none, then a special register or none. Behind it
    /// the origins that asking shows.
    #[derive(Default)]
    Seen {
        fetch: bool,
        pc: u32,
        mode: u32,
        request: u32,
        address: u32,
        width: u32,
        word: u32,
        special: bool,
        register: u32,
        origins: Origins,
    }
}

row! {
    /// Where execute sends the fetch, or nowhere.
    #[derive(Default)]
    Redirect {
        redirect: bool,
        target: u32,
        target_mode: u32,
    }
}
