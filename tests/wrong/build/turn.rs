//! Turns as the files in turns have them.

use crate::fields::{self, Field};
use std::fs;
use std::path::Path;

/// A turn: its name, and the kinds of cases that must tell it or must give the same answers.
#[derive(Clone, Default)]
pub struct Turn {
    pub name: String,
    pub told_by: Vec<String>,
    pub same_for: Vec<String>,
    pub edits: Vec<Edit>,
    /// Where the next edit's old text stands.
    place: Place,
    /// A word that stands for each of these in the name and in the new texts.
    each: Option<(String, Vec<String>)>,
}

/// A file, or one function of it.
#[derive(Clone, Default)]
pub struct Place {
    pub file: String,
    pub function: Option<String>,
}

/// One replaced text of a turn.
#[derive(Clone)]
pub struct Edit {
    pub place: Place,
    pub old: String,
    pub new: String,
}

/// Text added to the end of a file, for the new texts of several turns.
pub struct Addition {
    pub file: String,
    pub text: String,
}

/// Everything that the files in turns hold.
#[derive(Default)]
pub struct Turns {
    pub turns: Vec<Turn>,
    pub additions: Vec<Addition>,
}

/// Reads every file of a folder, in the order of their names.
pub fn read_all(folder: &Path) -> Result<Turns, String> {
    let entries = fs::read_dir(folder).map_err(|error| error.to_string())?;
    let mut paths: Vec<_> = entries.flatten().map(|entry| entry.path()).collect();
    paths.sort();
    let mut all = Turns::default();
    for path in paths {
        let text = fs::read_to_string(&path).map_err(|error| error.to_string())?;
        read(&text, &mut all).map_err(|trouble| format!("{}: {trouble}", path.display()))?;
    }
    Ok(all)
}

/// Reads one file.
fn read(text: &str, all: &mut Turns) -> Result<(), String> {
    let mut turn = Turn::default();
    for field in fields::read(text)? {
        if field.key == "#" {
            let next = turn.next(&field.text);
            all.turns
                .extend(std::mem::replace(&mut turn, next).unfolded()?);
        } else if let Some(file) = field.key.strip_prefix("add to ") {
            all.additions.push(Addition {
                file: file.to_string(),
                text: field.text,
            });
        } else {
            turn.set(field)?;
        }
    }
    all.turns.extend(turn.unfolded()?);
    Ok(())
}

impl Turn {
    /// Begins a turn that has the kinds and the file of the one before until it is given others.
    fn next(&self, name: &str) -> Self {
        Self {
            name: name.to_string(),
            edits: Vec::new(),
            each: None,
            ..self.clone()
        }
    }

    /// Takes over a field.
    fn set(&mut self, field: Field) -> Result<(), String> {
        let words = || field.text.split_whitespace().map(String::from);
        match field.key.as_str() {
            "told by" => self.told_by = words().collect(),
            "same for" => self.same_for = words().collect(),
            "file" => self.place = Place::of(&field.text),
            "old" => self.edits.push(Edit {
                place: self.place.clone(),
                old: field.text,
                new: String::new(),
            }),
            "new" => self.edits.last_mut().ok_or("new without old")?.new = field.text,
            key => match key.strip_prefix("each ") {
                Some(word) => self.each = Some((word.to_string(), words().collect())),
                None => return Err(format!("line {}: {key} is no key", field.line)),
            },
        }
        Ok(())
    }

    /// Gives the turn itself, or one for each value of its word; nothing before the first turn.
    fn unfolded(self) -> Result<Vec<Turn>, String> {
        if self.name.is_empty() {
            return Ok(Vec::new());
        }
        if self.edits.is_empty() || self.told_by.is_empty() == self.same_for.is_empty() {
            return Err(format!(
                "turn \"{}\" lacks an edit or its kinds of cases",
                self.name
            ));
        }
        let Some((word, values)) = self.each.clone() else {
            return Ok(vec![self]);
        };
        Ok(values.iter().map(|value| self.with(&word, value)).collect())
    }

    /// Puts a value in place of a word.
    fn with(&self, word: &str, value: &str) -> Turn {
        let mut turn = self.clone();
        turn.name = turn.name.replace(word, value);
        for edit in &mut turn.edits {
            edit.new = edit.new.replace(word, value);
        }
        turn
    }
}

impl Place {
    /// Reads a file's path, with the name of a function behind it or not.
    fn of(text: &str) -> Self {
        let mut parts = text.split(" fn ").map(str::trim);
        Self {
            file: parts.next().unwrap_or_default().to_string(),
            function: parts.next().map(String::from),
        }
    }
}
