//! Sheets by a seed: their listed places beside the original, and the other neighbours that may move, for a count.

use crate::buffers::Buffers;
use crate::case::{Case, Kind};
use crate::cpu_pipeline::harness::original::Original;
use crate::maker::Maker;
use crate::refusals::NONE;
use crate::sheet::RECORD_BYTES;
use crate::trades::{self, Orders};
use std::io::{Result, Write};

/// How often the registers of neighbours that are not listed are chosen anew.
const TIMES: u32 = 8;
/// The most of these of one sheet.
const MOST: usize = 64;

/// What was set beside the original.
#[derive(Default)]
struct Counts {
    listed: u64,
    /// Listed places without a NOP.
    busy: u64,
    /// Neighbours that both may move but are not listed, and those of them whose orders leave different registers.
    others: u64,
    differing: u64,
}

/// Sets so many listed places, or a few more, beside the original, with a panic where the orders leave different
/// registers or take other ticks than they should, and writes what was counted.
pub fn run(count: u64, seed: u64, mut out: impl Write) -> Result<bool> {
    let (mut maker, mut buffers) = (Maker::new(seed), Buffers::new());
    let (mut original, mut counts) = (Original::fresh(), Counts::default());
    while counts.listed < count {
        let mut cases = Vec::new();
        maker.next(Kind::Trades, &mut cases);
        let lines = cases.iter();
        lines.for_each(|case| counts.take(&mut original, &mut buffers, case));
    }
    let Counts {
        listed,
        busy,
        others,
        differing,
    } = counts;
    writeln!(
        out,
        "trade-pairs: {listed} listed places, {busy} of them without a NOP, both orders leave equal registers; \
         {others} others that may move, the orders of {differing} leave different ones"
    )?;
    out.flush()?;
    Ok(true)
}

impl Counts {
    /// Puts what a line puts into the sheet, or adds the neighbours of the sheet that a line asks about.
    fn take(&mut self, original: &mut Original, buffers: &mut Buffers, case: &Case) {
        match case {
            Case::PutSheet(at, block) => buffers.put_sheet(*at, block),
            Case::Trades(lent) => {
                let sheet = buffers.first_of_sheet(lent.sheet_length);
                self.add_listed(original, sheet, lent.fill);
                self.add_others(original, sheet, lent.fill);
            }
            _ => {}
        }
    }

    /// Adds the listed places of a sheet.
    fn add_listed(&mut self, original: &mut Original, sheet: &[u8], number: u32) {
        let tried = trades::check(original, sheet, number);
        self.listed += tried.len() as u64;
        let (records, _) = sheet.as_chunks::<RECORD_BYTES>();
        let pairs = tried
            .into_iter()
            .map(|place| &records[usize::from(place)..][..2]);
        let busy = pairs.filter(|pair| pair.iter().all(|record| record[0] != 0));
        self.busy += busy.count() as u64;
    }

    /// Adds other neighbours of a sheet.
    fn add_others(&mut self, original: &mut Original, sheet: &[u8], number: u32) {
        if trades::sheet_refused(sheet) != NONE {
            return;
        }
        let mut orders = Orders::new(sheet, number);
        for place in trades::not_listed(sheet).into_iter().take(MOST) {
            let differ = (0..TIMES).any(|_| !orders.agree(original, place.into()).registers);
            self.others += 1;
            self.differing += u64::from(differ);
        }
    }
}
