//! The original Rust of the pipeline, compiled unmodified, asked for its answers.

pub mod answer;
mod answers;
mod buffers;
mod card_log;
pub mod case;
mod checked_rows;
pub mod command_line;
pub mod compare;
mod edge_words;
mod exports;
mod generator;
mod line;
pub mod listing;
pub mod log_rows;
mod maker;
mod offers;
pub mod origin_rows;
mod origins;
mod panel;
mod player;
mod refusals;
mod row;
mod rows;
mod runner;
pub mod sample;
mod sheet;
mod special_registers;
pub mod stand_ins;
pub mod tickrun;
pub mod trade_pairs;
pub mod trade_rows;
mod trades;
pub mod wait_rows;

use stand_ins::{bus, cpu, cpu_cache, devices, tracing};

/// The original privilege state, as published.
#[allow(dead_code, clippy::all)]
#[rustfmt::skip]
#[path = "../../../docs/src/src/cpu_privilege.rs"]
pub mod cpu_privilege;

/// The original pipeline, as published, with the harness as a child so that private parts are in reach.
#[allow(dead_code, clippy::all)]
pub mod cpu_pipeline {
    use crate::tracing;

    include!("../../../docs/src/src/cpu_pipeline.rs");

    #[warn(dead_code, clippy::all)]
    pub mod harness;
}
