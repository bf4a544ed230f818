//! The kinds of cases that can be asked for by name.

use super::Case;

/// What is generated and compared in one run.
#[derive(Debug, Clone, Copy, PartialEq, Eq)]
pub enum Kind {
    Arithmetic,
    Halfwords,
    Operands,
    Tick,
    Ask,
    Forwarded,
    Execute,
    Decode,
    Sources,
    MulDiv,
    Hazard,
    Retire,
    Start,
    Lists,
    Runs,
    Fuzz,
    Player,
    Panel,
    Logged,
    Reads,
    LogLists,
    Trades,
}

/// Every kind with its name.
const NAMES: [(Kind, &str); 22] = [
    (Kind::Arithmetic, "arithmetic"),
    (Kind::Halfwords, "halfwords"),
    (Kind::Operands, "operands"),
    (Kind::Tick, "tick"),
    (Kind::Ask, "ask"),
    (Kind::Forwarded, "forwarded"),
    (Kind::Execute, "execute"),
    (Kind::Decode, "decode"),
    (Kind::Sources, "sources"),
    (Kind::MulDiv, "muldiv"),
    (Kind::Hazard, "hazard"),
    (Kind::Retire, "retire"),
    (Kind::Start, "start"),
    (Kind::Lists, "lists"),
    (Kind::Runs, "runs"),
    (Kind::Fuzz, "fuzz"),
    (Kind::Player, "player"),
    (Kind::Panel, "panel"),
    (Kind::Logged, "logged"),
    (Kind::Reads, "reads"),
    (Kind::LogLists, "loglists"),
    (Kind::Trades, "trades"),
];

/// The kinds that need a sheet, and those of them that need load answers and a table.
const OVER_A_SHEET: [Kind; 5] = [
    Kind::Runs,
    Kind::Fuzz,
    Kind::Player,
    Kind::Panel,
    Kind::Trades,
];
const WITH_ANSWERS: [Kind; 4] = [Kind::Runs, Kind::Fuzz, Kind::Player, Kind::Panel];

impl Kind {
    /// Gives every kind without runs, plays, previews and checks of a sheet.
    pub fn without_runs() -> impl Iterator<Item = Kind> + Clone {
        let kinds = NAMES.iter().map(|&(kind, _)| kind);
        kinds.filter(|kind| !OVER_A_SHEET.contains(kind))
    }

    /// Tells whether a case is one of the kind, or a line that cases of the kind need before them.
    pub fn has(self, case: &Case) -> bool {
        let kinds: &[Kind] = match case {
            Case::Arithmetic(_) => &[Kind::Arithmetic],
            Case::Halfword(_) => &[Kind::Halfwords],
            Case::Operands(_) | Case::ShortOperands(_) => &[Kind::Operands],
            Case::Tick(..) => &[Kind::Tick],
            Case::Ask(_) => &[Kind::Ask],
            Case::Forwarded(..) => &[Kind::Forwarded],
            Case::Execute(..) => &[Kind::Execute],
            Case::Decode(..) => &[Kind::Decode],
            Case::Sources(_) => &[Kind::Sources],
            Case::MulDiv(_) => &[Kind::MulDiv],
            Case::Hazard(..) => &[Kind::Hazard],
            Case::Retire(_) => &[Kind::Retire],
            Case::Start(_) => &[Kind::Start],
            Case::ListStart(_) | Case::ListTick(..) | Case::ListShow => {
                &[Kind::Lists, Kind::LogLists]
            }
            Case::PutSheet(..) => &OVER_A_SHEET,
            Case::PutAnswers(..) | Case::PutTable(..) => &WITH_ANSWERS,
            Case::Run(..) => &[Kind::Runs, Kind::Fuzz],
            Case::Player(..) => &[Kind::Player],
            Case::Panel(..) => &[Kind::Panel],
            Case::Logged(..) => &[Kind::Logged],
            Case::Reads(_) => &[Kind::Reads],
            Case::HoldLog(..) | Case::LogTick(_) | Case::LogShow(_) | Case::LogRead(..) => {
                &[Kind::LogLists]
            }
            Case::Trades(_) | Case::TradesShow(_) => &[Kind::Trades],
        };
        kinds.contains(&self)
    }

    /// Finds a kind by its name.
    pub fn named(name: &str) -> Option<Kind> {
        NAMES
            .iter()
            .find(|(_, known)| *known == name)
            .map(|&(kind, _)| kind)
    }

    /// Gives the name of a kind.
    pub fn name(self) -> &'static str {
        NAMES[self as usize].1
    }
}
