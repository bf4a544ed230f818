//! Copies the oracle and the original into OUT_DIR, with every wrong turn in the copy behind a switch.

mod copy;
mod edited;
mod fields;
mod place;
mod table;
mod turn;

use edited::Files;
use std::path::PathBuf;
use std::process::ExitCode;
use turn::Turns;

/// What is copied, from the root of the repository.
const COPIED: [&str; 2] = ["tests/oracle/src", "docs/src/src"];

/// Makes the copy, or says what is wrong with the turns.
fn main() -> ExitCode {
    match run() {
        Ok(()) => ExitCode::SUCCESS,
        Err(trouble) => {
            eprintln!("{trouble}");
            ExitCode::FAILURE
        }
    }
}

/// Reads the turns and the files, and writes the files with a table of the turns.
fn run() -> Result<(), String> {
    let here = folder("CARGO_MANIFEST_DIR")?;
    let out = folder("OUT_DIR")?;
    println!("cargo:rerun-if-changed=build");
    println!("cargo:rerun-if-changed=turns");
    let turns = turn::read_all(&here.join("turns"))?;
    let mut files = Files::new();
    for folder in COPIED {
        println!("cargo:rerun-if-changed=../../{folder}");
        copy::read_folder(&here.join("../.."), folder, &mut files)?;
    }
    edit(&turns, &mut files)?;
    copy::write_all(&out, &files)?;
    copy::write(&out.join("table.rs"), &table::of(&turns.turns))
}

/// Gives a folder that cargo names in the environment.
fn folder(name: &str) -> Result<PathBuf, String> {
    let value = std::env::var(name).map_err(|error| format!("{name}: {error}"))?;
    Ok(PathBuf::from(value))
}

/// Edits the files; the first turn has the number 1.
fn edit(turns: &Turns, files: &mut Files) -> Result<(), String> {
    let numbered = (1..).zip(&turns.turns);
    let mut edits = numbered.map(|(number, turn)| edited::apply(number, turn, files));
    edits.try_for_each(|edited| edited)?;
    let mut additions = turns.additions.iter();
    additions.try_for_each(|addition| edited::add(addition, files))
}
