//! The expected answer to each case: the original's, behind the refusals of RULES 19; plays, origins, the card log and
//! the list of places are a reading's.

mod logs;

use crate::buffers::Buffers;
use crate::card_log::{self, HeldLog};
use crate::case::Case;
use crate::cpu_pipeline::harness::arithmetic::{self, Arithmetic};
use crate::cpu_pipeline::harness::original::Original;
use crate::cpu_pipeline::harness::{operands, short_numbers_of};
use crate::origins;
use crate::panel;
use crate::player;
use crate::refusals::{self, NONE, OUT_OF_BOUNDS, UNWANTED_SPECIAL};
use crate::row::Row;
use crate::rows::{Begin, Decoded, Given, IdEx, IfId, Input, LentList, Seen, Special, State};
use crate::runner;
use crate::special_registers;
use crate::trades::{self, HeldList};

/// Answers cases one after the other, and holds the state and the log of the list under way, the buffers of runs, and
/// the list of places.
pub struct Answers {
    original: Original,
    arithmetic: Arithmetic,
    held: State,
    log: HeldLog,
    buffers: Buffers,
    list: HeldList,
}

impl Answers {
    /// Begins with no list under way.
    pub fn new() -> Self {
        let nowhere = Begin {
            reg: [0; 32],
            pc: 0,
            mode: 0,
            user: false,
            features: 0,
        };
        let mut original = Original::fresh();
        let held = original.start(&nowhere);
        Self {
            original,
            arithmetic: Arithmetic::fresh(),
            held,
            log: HeldLog::new(&held),
            buffers: Buffers::new(),
            list: HeldList::new(),
        }
    }

    /// Appends the numbers of a case's result line and tells whether it has one.
    pub fn answer(&mut self, case: &Case, out: &mut Vec<u32>) -> bool {
        match case {
            Case::Arithmetic(given) => self.arithmetic(*given, out),
            Case::Halfword(halfword) => short_numbers_of(*halfword as u16).put(out),
            Case::Operands(instruction) => operands::of_normal(*instruction).put(out),
            Case::ShortOperands(halfword) => operands::of_short(*halfword as u16).put(out),
            Case::Tick(state, given) => self.tick(state, given, out),
            Case::Ask(state) => self.ask(state, out),
            Case::Forwarded(state, register) => self.forwarded(state, *register, out),
            Case::Execute(state, latch, special) => self.execute(state, latch, *special, out),
            Case::Decode(state, latch) => self.decode(state, latch, out),
            Case::Sources(latch) => self.sources(latch, out),
            Case::MulDiv(decoded) => self.latency(decoded, out),
            Case::Hazard(latch, first, second) => self.hazard(latch, [*first, *second], out),
            Case::Retire(state) => self.retire(state, out),
            Case::Start(begin) => self.original.start(begin).put(out),
            Case::ListStart(begin) => self.list_start(begin),
            Case::ListTick(given) => self.list_tick(given, out),
            Case::ListShow => self.held.put(out),
            Case::PutSheet(at, block) => self.buffers.put_sheet(*at, block),
            Case::PutAnswers(at, block) => self.buffers.put_answers(*at, block),
            Case::PutTable(at, block) => self.buffers.put_table(*at, block),
            Case::Run(state, given) => self.run(state, given, out),
            Case::Player(begin, given) => self.player(begin, given, out),
            Case::Panel(state, given) => self.panel(state, given, out),
            Case::Logged(state, given, log) => self.logged(state, given, log, out),
            Case::HoldLog(length, free) => self.hold_log(*length, *free),
            Case::LogTick(given) => self.log_tick(given, out),
            Case::LogShow(at) => self.log.block(*at).put(out),
            Case::LogRead(length, place) => self.log.read(*length, *place).put(out),
            Case::Reads(log) => logs::read(log).put(out),
            Case::Trades(lent) => self.trades(lent, out),
            Case::TradesShow(at) => self.list.block(*at).put(out),
        }
        case.has_a_result()
    }

    /// Answers the arithmetic of one command.
    fn arithmetic(&mut self, [command, a, b]: [u32; 3], out: &mut Vec<u32>) {
        arithmetic::answer(&mut self.arithmetic, command, a, b).put(out);
    }

    /// Does one tick: the code, the state handed back and what asking names before it.
    pub fn ticked(&mut self, state: &State, given: &Input) -> (u32, State, Seen) {
        match refusals::standing(state) {
            NONE => {}
            code => return (code, *state, Seen::default()),
        }
        let (next, seen) = self.original.tick(state, given);
        match refusals::offered(given, &seen) {
            NONE => (NONE, next, seen),
            code => (code, *state, seen),
        }
    }

    /// Answers a tick.
    fn tick(&mut self, state: &State, given: &Input, out: &mut Vec<u32>) {
        let (code, next, _) = self.ticked(state, given);
        code.put(out);
        next.put(out);
    }

    /// Begins a list.
    fn list_start(&mut self, begin: &Begin) {
        self.held = self.original.start(begin);
        self.log.written.registers = None;
    }

    /// Does one tick on the state held and answers what asking named before it.
    fn list_tick(&mut self, given: &Input, out: &mut Vec<u32>) {
        let state = self.held;
        let (code, next, seen) = self.ticked(&state, given);
        self.held = next;
        self.log.written.registers = None;
        code.put(out);
        seen.put(out);
    }

    /// Answers a run of the sheet held.
    fn run(&mut self, state: &State, given: &Given, out: &mut Vec<u32>) {
        let task = self.buffers.task(given);
        runner::run(&mut self.original, state, &task).put(out);
    }

    /// Answers a play of the sheet held.
    fn player(&mut self, begin: &Begin, given: &Given, out: &mut Vec<u32>) {
        player::play(begin, &self.buffers.task(given)).put(out);
    }

    /// Answers a preview of the sheet held.
    fn panel(&mut self, state: &State, given: &Given, out: &mut Vec<u32>) {
        let task = self.buffers.task(given);
        panel::preview(&mut self.original, state, &task).put(out);
    }

    /// Lists where neighbours of the sheet held may trade places.
    fn trades(&mut self, lent: &LentList, out: &mut Vec<u32>) {
        let sheet = self.buffers.first_of_sheet(lent.sheet_length);
        let list = self.list.lent(lent.length, lent.fill as u16);
        trades::places(sheet, list).put(out);
    }

    /// Panics if a case is a play that differs from the original's run of the same sheet, a tick whose question for a
    /// special register is not the original's, one with origins or events that the original does not show, the end of a
    /// list whose log reads otherwise than it was written, or a sheet with a listed place whose orders the original
    /// tells apart.
    pub fn check(&mut self, case: &Case) {
        let original = &mut self.original;
        match case {
            Case::Player(begin, given) => {
                player::check(original, begin, &self.buffers.task(given));
            }
            Case::Tick(state, _) | Case::Ask(state) => check_asking(original, state),
            Case::ListTick(_) => check_asking(original, &self.held),
            Case::Logged(state, given, _) => card_log::check_tick(original, state, given),
            Case::LogTick(given) => card_log::check_tick(original, &self.held, given),
            Case::ListShow => card_log::check_list(&self.log, &self.held),
            Case::Forwarded(state, register) => {
                origins::check_forwarding(original, state, *register);
            }
            Case::Execute(state, latch, _) => origins::check_execution(original, state, latch),
            Case::Trades(lent) => {
                let sheet = self.buffers.first_of_sheet(lent.sheet_length);
                trades::check(original, sheet, lent.fill);
            }
            _ => {}
        }
    }

    /// Answers what a tick would ask for.
    fn ask(&mut self, state: &State, out: &mut Vec<u32>) {
        let code = refusals::standing(state);
        code.put(out);
        if code == NONE {
            self.original.asked(state).put(out);
        } else {
            Seen::default().put(out);
        }
    }

    /// Answers with refusal 11 alone, or with 0 and what follows.
    fn part(
        &mut self,
        broken: bool,
        out: &mut Vec<u32>,
        follow: impl FnOnce(&mut Original, &mut Vec<u32>),
    ) {
        if broken {
            OUT_OF_BOUNDS.put(out);
        } else {
            NONE.put(out);
            follow(&mut self.original, out);
        }
    }

    /// Answers forwarding by itself, with the origin of the value.
    fn forwarded(&mut self, state: &State, register: u32, out: &mut Vec<u32>) {
        let broken = refusals::state_breaks(state) || refusals::register_breaks(register);
        self.part(broken, out, |original, out| {
            original.forwarded(state, register).put(out);
            origins::of_register(state, register).put(out);
        });
    }

    /// Answers execute by itself, with the word that it asks for or none, and the origins of both operands.
    fn execute(&mut self, state: &State, latch: &IdEx, special: Special, out: &mut Vec<u32>) {
        let broken = refusals::state_breaks(state) || refusals::id_ex_breaks(latch);
        let asks = special_registers::wanted_by(state.user, latch).is_some();
        if !broken && special.is_given() != asks {
            return UNWANTED_SPECIAL.put(out);
        }
        self.part(broken, out, |original, out| {
            let (ex_mem, redirect) = original.execute(state, latch, special);
            ex_mem.put(out);
            redirect.put(out);
            origins::of_latch(state, latch).put(out);
        });
    }

    /// Answers decode by itself.
    fn decode(&mut self, state: &State, latch: &IfId, out: &mut Vec<u32>) {
        let broken = refusals::state_breaks(state) || refusals::if_id_breaks(latch);
        self.part(broken, out, |original, out| {
            original.decode(state, latch).put(out);
        });
    }

    /// Answers the sources by themselves.
    fn sources(&mut self, latch: &IfId, out: &mut Vec<u32>) {
        self.part(refusals::if_id_breaks(latch), out, |original, out| {
            original.sources(latch).put(out);
        });
    }

    /// Answers the latency by itself.
    fn latency(&mut self, decoded: &Decoded, out: &mut Vec<u32>) {
        self.part(refusals::decoded_breaks(decoded), out, |original, out| {
            original.latency(decoded).put(out);
        });
    }

    /// Answers the load-use test by itself.
    fn hazard(&mut self, latch: &IdEx, sources: [u32; 2], out: &mut Vec<u32>) {
        let broken =
            refusals::id_ex_breaks(latch) || sources.into_iter().any(refusals::register_breaks);
        self.part(broken, out, |original, out| {
            original.hazard(latch, sources).put(out);
        });
    }

    /// Answers retirement by itself.
    fn retire(&mut self, state: &State, out: &mut Vec<u32>) {
        let code = refusals::retirement(state);
        code.put(out);
        if code == NONE {
            self.original.retire(state).put(out);
        }
    }
}

/// Panics if what asking says of a special register or of origins is not what the original's tick shows.
fn check_asking(original: &mut Original, state: &State) {
    special_registers::check(original, state);
    origins::check_asking(original, state);
}
