//! Cases: what the other program is asked, one to a line.

mod kind;
mod names;
mod numbers;

pub use kind::Kind;
pub use names::result_names;

use crate::buffers::Block;
use crate::cpu_pipeline::harness::Numbers;
use crate::rows::{
    Begin, Decoded, Given, IdEx, IfId, Input, LentList, LentLog, ReadLog, Special, State,
};

/// One question.
#[derive(Debug, Clone, Copy, PartialEq, Eq)]
#[allow(clippy::large_enum_variant)]
pub enum Case {
    /// A command and two words.
    Arithmetic([u32; 3]),
    Halfword(u32),
    Operands(Numbers),
    ShortOperands(u32),
    Tick(State, Input),
    Ask(State),
    Forwarded(State, u32),
    Execute(State, IdEx, Special),
    Decode(State, IfId),
    Sources(IfId),
    MulDiv(Decoded),
    Hazard(IdEx, u32, u32),
    Retire(State),
    Start(Begin),
    ListStart(Begin),
    ListTick(Input),
    ListShow,
    PutSheet(u32, Block),
    PutAnswers(u32, Block),
    PutTable(u32, Block),
    Run(State, Given),
    Player(Begin, Given),
    Panel(State, Given),
    Logged(State, Input, LentLog),
    /// How much of the log held is lent, and its first free place.
    HoldLog(u32, u64),
    LogTick(Input),
    LogShow(u32),
    /// How much of the log held is read, and the place.
    LogRead(u32, u64),
    Reads(ReadLog),
    Trades(LentList),
    TradesShow(u32),
}

impl Case {
    /// Tells whether the result line begins with the number of a refusal, or 0.
    pub fn has_a_code(&self) -> bool {
        let without = matches!(
            self,
            Case::Arithmetic(_)
                | Case::Halfword(_)
                | Case::Operands(_)
                | Case::ShortOperands(_)
                | Case::Start(_)
                | Case::ListShow
                | Case::LogShow(_)
                | Case::TradesShow(_)
        );
        self.has_a_result() && !without && self.given().is_none()
    }

    /// Gives what a run, a play or a preview is given besides where it begins and the buffers.
    pub fn given(&self) -> Option<&Given> {
        match self {
            Case::Run(_, given) | Case::Player(_, given) | Case::Panel(_, given) => Some(given),
            _ => None,
        }
    }

    /// Tells whether the case has a result line.
    pub fn has_a_result(&self) -> bool {
        !matches!(
            self,
            Case::ListStart(_)
                | Case::PutSheet(..)
                | Case::PutAnswers(..)
                | Case::PutTable(..)
                | Case::HoldLog(..)
        )
    }
}
