//! A file with switches in place of the texts that turns replace.

use crate::place;
use crate::turn::{Addition, Edit, Turn};
use std::collections::BTreeMap;
use std::ops::Range;

/// The files by their paths from the root of the repository.
pub type Files = BTreeMap<String, Edited>;

/// A file and the texts in it that some turn replaces.
pub struct Edited {
    original: String,
    /// Sorted so that a span stands before those inside it.
    spans: Vec<Span>,
    added: String,
}

/// A text that turns replace, each by another.
struct Span {
    place: Range<usize>,
    arms: Vec<(usize, String)>,
}

/// Puts the edits of a turn into their files.
pub fn apply(number: usize, turn: &Turn, files: &mut Files) -> Result<(), String> {
    for edit in &turn.edits {
        let file = files
            .get_mut(&edit.place.file)
            .ok_or("no such file".to_string());
        let done = file.and_then(|file| file.replace(number, edit));
        let said = |trouble| {
            format!(
                "turn \"{}\", {}: {trouble}: {}",
                turn.name, edit.place.file, edit.old
            )
        };
        done.map_err(said)?;
    }
    Ok(())
}

/// Adds text to the end of a file.
pub fn add(addition: &Addition, files: &mut Files) -> Result<(), String> {
    let file = files
        .get_mut(&addition.file)
        .ok_or(format!("no file {}", addition.file))?;
    file.added.push('\n');
    file.added.push_str(&addition.text);
    Ok(())
}

impl Edited {
    /// Begins with nothing replaced.
    pub fn new(original: String) -> Self {
        Self {
            original,
            spans: Vec::new(),
            added: String::new(),
        }
    }

    /// Adds an edit, whose text may hold or be held by the others' but not cross them.
    fn replace(&mut self, number: usize, edit: &Edit) -> Result<(), String> {
        let function = edit.place.function.as_deref();
        let place = place::of(&self.original, function, &edit.old)?;
        let arm = (number, edit.new.clone());
        if let Some(span) = self.spans.iter_mut().find(|span| span.place == place) {
            span.arms.push(arm);
            return Ok(());
        }
        if self.spans.iter().any(|span| cross(&span.place, &place)) {
            return Err("the old text crosses another turn's".to_string());
        }
        let at = self
            .spans
            .partition_point(|span| key(&span.place) < key(&place));
        let arms = vec![arm];
        self.spans.insert(at, Span { place, arms });
        Ok(())
    }

    /// Gives the file's text with the switches in it.
    pub fn text(&self) -> String {
        let all = 0..self.original.len();
        let switched = switched(&self.original, all, &self.spans);
        format!("{switched}{}\n", self.added)
    }
}

/// Sorts outer places before inner ones.
fn key(place: &Range<usize>) -> (usize, usize) {
    (place.start, usize::MAX - place.end)
}

/// Tells whether two places share a part and neither holds the other.
fn cross(one: &Range<usize>, other: &Range<usize>) -> bool {
    let (first, second) = if key(one) < key(other) {
        (one, other)
    } else {
        (other, one)
    };
    second.start < first.end && first.end < second.end
}

/// Gives a part of the file with switches for the spans in it.
fn switched(original: &str, part: Range<usize>, spans: &[Span]) -> String {
    let mut out = String::new();
    let mut at = part.start;
    let mut rest = spans;
    while let Some((span, behind)) = rest.split_first() {
        let inner = behind.partition_point(|other| other.place.start < span.place.end);
        let right = switched(original, span.place.clone(), &behind[..inner]);
        out.push_str(&original[at..span.place.start]);
        out.push_str(&switch(span, &original[span.place.clone()], &right));
        at = span.place.end;
        rest = &behind[inner..];
    }
    out.push_str(&original[at..part.end]);
    out
}

/// Gives the switch between the right text and those of the turns; a statement needs no parentheses.
fn switch(span: &Span, old: &str, right: &str) -> String {
    let arm = |(number, new): &(usize, String)| format!("{number} => {{ {new}\n}}\n");
    let arms: String = span.arms.iter().map(arm).collect();
    let text = format!("match crate::turn::taken() {{\n{arms}_ => {{ {right}\n}}\n}}");
    if old.ends_with([';', '}']) {
        text
    } else {
        format!("({text})")
    }
}
