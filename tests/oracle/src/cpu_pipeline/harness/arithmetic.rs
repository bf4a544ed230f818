//! The arithmetic of one command through the original's execute.

use super::{IdEx, Numbers, PipelineCpu, RawInstr, encoding, fetched, fresh_core};

/// First of the sixteen arithmetic commands.
pub const FIRST_COMMAND: u32 = 0x10;

/// Positions of the commands' kinds in the enum, from the first command on.
const VARIANTS: [u32; 16] = [
    0x03, 0x05, 0x13, 0x14, 0x15, 0x16, 0x17, 0x18, 0x19, 0x06, 0x1a, 0x1b, 0x1e, 0x1c, 0x1f, 0x1d,
];

/// Registers that hold the result and the two operands.
const RESULT: u32 = 3;
const FIRST: u32 = 1;
const SECOND: u32 = 2;

/// A core with empty latches, and each command's instruction as decoded by it.
pub struct Arithmetic {
    core: PipelineCpu,
    decoded: [IdEx; 16],
}

impl Arithmetic {
    /// Makes the core and lets it decode the sixteen instructions.
    pub fn fresh() -> Self {
        let core = fresh_core();
        let decoded = VARIANTS.map(|variant| {
            let fields = [RESULT, FIRST, SECOND];
            let word = encoding::word_of(Numbers { variant, fields }).expect("a register command");
            core.decode_id(&fetched(RawInstr::Normal(word)))
        });
        Self { core, decoded }
    }

    /// Executes one arithmetic command on two words.
    fn execute(&mut self, command: u32, a: u32, b: u32) -> u32 {
        self.core.reg[FIRST as usize] = a;
        self.core.reg[SECOND as usize] = b;
        let latch = &self.decoded[(command - FIRST_COMMAND) as usize];
        self.core.execute_ex(latch).0.alu_result
    }
}

/// Gives the original's answer, or the refusal for a command that is none of the sixteen.
pub fn answer(core: &mut Arithmetic, command: u32, a: u32, b: u32) -> u64 {
    if command.wrapping_sub(FIRST_COMMAND) < 16 {
        u64::from(core.execute(command, a, b))
    } else {
        refusal_by_the_reading_of_document_01()
    }
}

/// Gives refusal 5 (RULES 21.2); the original has no commands and so no such answer.
fn refusal_by_the_reading_of_document_01() -> u64 {
    4_294_967_301
}
