//! Names of the numbers in a result line.

use super::Case;
use crate::buffers::Block;
use crate::cpu_pipeline::harness::Numbers;
use crate::player::Played;
use crate::row::Row;
use crate::rows::{ExMem, IdEx, LogWords, Origins, Redirect, Seen, State};
use crate::runner::Run;

/// Names of the operands of an instruction, the two that id_sources gives among them.
const OPERANDS: [&str; 9] = [
    "src0", "src1", "n_srcs", "dest", "is_load", "is_store", "id_src0", "id_src1", "latency",
];

/// Names of the numbers of an event; behind a command 81 the first two are a register and its word.
const EVENT: [&str; 4] = ["command", "address", "width", "word"];

/// Gives the names of the numbers that a case's result line holds.
pub fn result_names(case: &Case) -> Vec<String> {
    let mut names = Vec::new();
    if case.has_a_code() {
        names.push("code".to_string());
    }
    match case {
        Case::Arithmetic(_) => names.extend(["high", "low"].map(String::from)),
        Case::Halfword(_) => Numbers::names("", &mut names),
        Case::Operands(_) | Case::ShortOperands(_) => names.extend(OPERANDS.map(String::from)),
        Case::Tick(..) | Case::Retire(_) | Case::Start(_) | Case::ListShow => {
            State::names("", &mut names);
        }
        Case::Ask(_) | Case::ListTick(..) => Seen::names("", &mut names),
        Case::Forwarded(..) => names.extend(["value", "origin"].map(String::from)),
        Case::Execute(..) => {
            ExMem::names("ex_mem", &mut names);
            Redirect::names("", &mut names);
            Origins::names("origins", &mut names);
        }
        Case::Decode(..) => IdEx::names("id_ex", &mut names),
        Case::Sources(_) => names.extend(["src0", "src1"].map(String::from)),
        Case::MulDiv(_) => names.push("latency".to_string()),
        Case::Hazard(..) => names.push("hazard".to_string()),
        Case::Run(..) | Case::Panel(..) => Run::names(&mut names),
        Case::Player(..) => Played::names(&mut names),
        Case::ListStart(_) | Case::PutSheet(..) | Case::PutAnswers(..) | Case::PutTable(..) => {}
        Case::Logged(..)
        | Case::HoldLog(..)
        | Case::LogTick(_)
        | Case::LogShow(_)
        | Case::LogRead(..)
        | Case::Reads(_) => log_names(case, &mut names),
        Case::Trades(_) => names.push("count".to_string()),
        Case::TradesShow(_) => Block::names("list", &mut names),
    }
    names
}

/// Appends the names of the numbers that a case of the card log has behind its code.
fn log_names(case: &Case, names: &mut Vec<String>) {
    match case {
        Case::Logged(..) => {
            u64::names("free", names);
            LogWords::names("log", names);
            State::names("", names);
        }
        Case::LogTick(_) => u64::names("free", names),
        Case::LogShow(_) => Block::names("log", names),
        Case::LogRead(..) | Case::Reads(_) => {
            names.extend(EVENT.map(String::from));
            u64::names("next", names);
        }
        _ => {}
    }
}
