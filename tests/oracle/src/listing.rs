//! The listings of the examples and of the bench, checked against their sheets and the original's runs.

mod comment;
mod played;
mod text;
mod ticks;

use crate::runner::{End, HIGHEST_LIMIT};
use crate::sheet::{RECORD_ADDRESSES, RECORD_BYTES};
use played::{Played, play};
use std::fs;
use std::io::{Result, Write};
use std::path::{Path, PathBuf};

/// Nothing, or what is wrong with a listing.
type Checked = std::result::Result<(), String>;

/// Ticks and load answers for a run of a bench loop.
const LOOP_TICKS: u32 = 40_000;
static LOOP_ANSWERS: [u32; 8_192] = [0; 8_192];

/// A listing, the sheet that it lists and a run of that sheet.
struct Listing {
    text: String,
    sheet: Vec<u8>,
    played: Played,
}

/// Checks every listing below the current folder, says what is wrong and tells whether nothing is.
pub fn run(mut out: impl Write) -> Result<bool> {
    let paths = [folder("examples")?, folder("bench/loops")?].concat();
    let (mut right, mut wrong) = (0, 0);
    for path in paths {
        let checked = match path.extension() {
            None if path.is_dir() => example(&path)?,
            None => bench_loop(&path)?,
            Some(_) => continue,
        };
        match checked {
            Ok(()) => right += 1,
            Err(trouble) => {
                wrong += 1;
                writeln!(out, "listings: {}: {trouble}", path.display())?;
            }
        }
    }
    writeln!(out, "listings: {right} right, {wrong} wrong")?;
    out.flush()?;
    Ok(wrong == 0)
}

/// Gives what a folder holds, in order.
fn folder(path: &str) -> Result<Vec<PathBuf>> {
    let mut paths = Vec::new();
    for entry in fs::read_dir(path)? {
        paths.push(entry?.path());
    }
    paths.sort();
    Ok(paths)
}

/// Checks the listing of an example, which runs as the program tickrun runs it.
fn example(folder: &Path) -> Result<Checked> {
    let sheet = fs::read(folder.join("sheet"))?;
    let listing = Listing {
        text: fs::read_to_string(folder.join("listing.txt"))?,
        played: play(&sheet, &[], HIGHEST_LIMIT),
        sheet,
    };
    let expected = fs::read_to_string(folder.join("expected"))?;
    let ticks = format!("ticks {}", listing.played.ticks);
    Ok(holds(expected.lines().any(|line| line == ticks), || {
        format!("expected should say: {ticks}")
    })
    .and_then(|()| records(&listing))
    .and_then(|()| ticks::of_a_run(&listing))
    .and_then(|()| hits(&listing)))
}

/// Checks the listing of a bench loop, which runs without end.
fn bench_loop(path: &Path) -> Result<Checked> {
    let sheet = fs::read(path)?;
    let listing = Listing {
        text: fs::read_to_string(path.with_extension("txt"))?,
        played: play(&sheet, &LOOP_ANSWERS, LOOP_TICKS),
        sheet,
    };
    Ok(records(&listing)
        .and_then(|()| ticks::of_a_round(&listing))
        .and_then(|()| hits(&listing)))
}

/// Checks that the lines without a `#` show the records, each with address, bytes and instruction.
fn records(listing: &Listing) -> Checked {
    let lines = listing.text.lines();
    let mut lines = lines.filter(|line| !line.is_empty() && !line.starts_with('#'));
    let addresses = (0..).step_by(RECORD_ADDRESSES as usize);
    for (record, address) in listing.sheet.chunks(RECORD_BYTES).zip(addresses) {
        let bytes: Vec<String> = record.iter().map(|byte| format!("{byte:02X}")).collect();
        let bytes = bytes.join(" ");
        let head = format!("{address:04X}  {bytes:14}  {}", text::of(record));
        let line = lines.next().unwrap_or("");
        let (shown, remark) = line.split_once(';').unwrap_or((line, ""));
        holds(shown.trim_end() == head, || {
            format!("should list: {head}\n  lists: {line}")
        })?;
        comment::check(listing, record, address, remark.trim_start())?;
    }
    match lines.next() {
        None => Ok(()),
        Some(line) => Err(format!("lists what the sheet has not: {line}")),
    }
}

/// Checks the ticks in which stores are asked for, of which a run without end shows the first three.
fn hits(listing: &Listing) -> Checked {
    let lines = listing.text.lines();
    let found: Vec<&str> = lines.filter(|line| line.starts_with("# Hits")).collect();
    let mut stores: Vec<String> = listing.played.stores.iter().map(u32::to_string).collect();
    if stores.is_empty() {
        return holds(found.is_empty(), || "the run has no hits".to_string());
    }
    if listing.played.end == End::Spent {
        stores.truncate(3);
        stores.push("and so on".to_string());
    }
    let stores = stores.join(", ");
    let should = format!("# Hits, the ticks in which the stores are asked for: {stores}.");
    holds(found == [should.as_str()], || {
        format!("should say: {should}")
    })
}

/// Gives what is wrong where something does not hold.
fn holds(right: bool, trouble: impl FnOnce() -> String) -> Checked {
    if right { Ok(()) } else { Err(trouble()) }
}
