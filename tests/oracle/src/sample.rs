//! Samples of cases for a fixed list.

use crate::case::{Case, Kind};
use crate::line;
use crate::maker::Maker;
use std::io::{Result, Write};
use std::iter::repeat_n;

/// One small run, play, preview and check of a sheet each for so many cases of the other kinds.
const CASES_FOR_A_RUN: u64 = 16;

/// Writes the case lines of one kind.
pub fn cases(kind: Kind, count: u64, seed: u64, mut out: impl Write) -> Result<()> {
    let mut maker = Maker::new(seed);
    for _ in 0..count {
        let mut made = Vec::new();
        maker.next(kind, &mut made);
        write_cases(&made, &mut out)?;
    }
    out.flush()
}

/// Writes so many cases in turn, then some small runs of a sheet, then as many small plays, previews and checks for
/// trades.
pub fn mixed(count: u64, seed: u64, mut out: impl Write) -> Result<()> {
    let mut maker = Maker::new(seed);
    let kinds = Kind::without_runs().cycle().take(count as usize);
    let small = (count / CASES_FOR_A_RUN) as usize;
    let kinds_of_sheets = [Kind::Runs, Kind::Player, Kind::Panel, Kind::Trades];
    let small = kinds_of_sheets.map(|kind| repeat_n(kind, small));
    for kind in kinds.chain(small.into_iter().flatten()) {
        let mut made = Vec::new();
        maker.next_small(kind, &mut made);
        write_cases(&made, &mut out)?;
    }
    out.flush()
}

/// Writes case lines.
pub fn write_cases(cases: &[Case], out: &mut impl Write) -> Result<()> {
    for case in cases {
        let (mut numbers, mut bytes) = (Vec::new(), Vec::new());
        case.put(&mut numbers);
        line::put(&numbers, &mut bytes);
        out.write_all(&bytes)?;
    }
    Ok(())
}
