//! Shows that the cases tell each wrong turn from the right way.

use crate::case::{Case, Kind};
use crate::maker::{Maker, ORIGINAL_FEATURES};
use crate::turn::{self, Turn};
use crate::turn_answers::TurnAnswers;
use std::io::{Error, Result, Write};

/// The cases that each turn is tried on.
struct Trial {
    count: u64,
    seed: u64,
}

/// Tries every turn whose name holds a part, and tells whether all was well.
pub fn run(count: u64, seed: u64, part: &str, mut out: impl Write) -> Result<bool> {
    let trial = Trial { count, seed };
    let (mut turns, mut tried, mut missed, mut differing) = (0, 0, 0, 0);
    for (number, turn) in turn::all().filter(|(_, turn)| turn.name.contains(part)) {
        turns += u64::from(!turn.told_by.is_empty());
        tried += turn.told_by.len();
        missed += trial.misses(number, turn, &mut out)?;
        differing += trial.differences(number, turn, &mut out)?;
    }
    writeln!(
        out,
        "self-test: {turns} wrong turns, {tried} pairs with a kind of cases, {missed} not found within {count}, \
         {differing} differences where there may be none"
    )?;
    out.flush()?;
    Ok(missed + differing == 0)
}

impl Trial {
    /// Counts the kinds of cases that must tell a turn and do not.
    fn misses(&self, number: u32, turn: &Turn, out: &mut impl Write) -> Result<u64> {
        let mut misses = 0;
        for kind in kinds(turn, turn.told_by)? {
            let found = self.found_after(number, kind, |_| {});
            misses += u64::from(found.is_none());
            let after = found.map_or("NOT FOUND".to_string(), |cases| cases.to_string());
            writeln!(out, "{after:>9} {:9} {}", kind.name(), turn.name)?;
        }
        Ok(misses)
    }

    /// Counts the kinds of cases that may not tell a turn, on the original's feature word, and do.
    fn differences(&self, number: u32, turn: &Turn, out: &mut impl Write) -> Result<u64> {
        let mut differences = 0;
        for kind in kinds(turn, turn.same_for)? {
            let found = self.found_after(number, kind, use_the_original_feature_word);
            differences += u64::from(found.is_some());
            let after = found.map_or("same".to_string(), |cases| format!("DIFFERS {cases}"));
            writeln!(out, "{after:>9} {:9} {}", kind.name(), turn.name)?;
        }
        Ok(differences)
    }

    /// Says after how many cases, lists, runs or plays, changed a little, an answer differs.
    fn found_after(&self, number: u32, kind: Kind, change: fn(&mut Case)) -> Option<u64> {
        let mut maker = Maker::new(self.seed);
        let (mut right, mut wrong) = (TurnAnswers::new(turn::NONE), TurnAnswers::new(number));
        (1..=self.count).find(|_| {
            let mut cases = Vec::new();
            maker.next(kind, &mut cases);
            cases.iter_mut().for_each(change);
            cases
                .iter()
                .any(|case| right.answer(case) != wrong.answer(case))
        })
    }
}

/// Finds the kinds of cases by their names.
fn kinds(turn: &Turn, names: &[&str]) -> Result<Vec<Kind>> {
    let unknown =
        |name: &str| Error::other(format!("turn \"{}\": no kind of cases: {name}", turn.name));
    let known = |name: &&str| Kind::named(name).ok_or_else(|| unknown(name));
    names.iter().map(known).collect()
}

/// Sets the feature word of a case to the constant of the original.
fn use_the_original_feature_word(case: &mut Case) {
    match case {
        Case::Tick(state, ..)
        | Case::Ask(state)
        | Case::Forwarded(state, _)
        | Case::Execute(state, ..)
        | Case::Decode(state, _)
        | Case::Retire(state)
        | Case::Logged(state, ..)
        | Case::Run(state, _)
        | Case::Panel(state, _) => state.features = ORIGINAL_FEATURES,
        Case::ListStart(begin) | Case::Player(begin, _) => begin.features = ORIGINAL_FEATURES,
        _ => {}
    }
}
