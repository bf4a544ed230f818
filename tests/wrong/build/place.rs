//! Where a text stands in a file, white space left out of account.

use std::ops::Range;

/// A text without white space, and where each of its bytes stands in the text.
struct Bare {
    bytes: Vec<u8>,
    places: Vec<usize>,
}

/// Leaves out the white space.
fn bare(text: &str) -> Bare {
    let kept = || {
        text.bytes()
            .enumerate()
            .filter(|(_, byte)| !byte.is_ascii_whitespace())
    };
    Bare {
        bytes: kept().map(|(_, byte)| byte).collect(),
        places: kept().map(|(place, _)| place).collect(),
    }
}

/// Finds the only place of a text in a file or in one function of it.
pub fn of(file: &str, function: Option<&str>, old: &str) -> Result<Range<usize>, String> {
    let within = match function {
        Some(name) => body(file, name)?,
        None => 0..file.len(),
    };
    let (all, sought) = (bare(&file[within.clone()]), bare(old).bytes);
    if sought.is_empty() {
        return Err("the old text is empty".to_string());
    }
    let mut found = all
        .bytes
        .windows(sought.len())
        .enumerate()
        .filter(|(_, part)| *part == sought);
    let (first, other) = (found.next(), found.next());
    let (start, _) = first.ok_or("the old text is not there")?;
    if other.is_some() {
        return Err("the old text stands there more than once".to_string());
    }
    let (start, last) = (all.places[start], all.places[start + sought.len() - 1]);
    Ok(within.start + start..within.start + last + 1)
}

/// Finds a function, from its name to its closing brace.
fn body(file: &str, name: &str) -> Result<Range<usize>, String> {
    let head = format!("fn {name}");
    let is_whole = |start: &usize| {
        let next = file[start + head.len()..].chars().next();
        next.is_some_and(|next| !next.is_alphanumeric() && next != '_')
    };
    let mut starts = file
        .match_indices(&head)
        .map(|(start, _)| start)
        .filter(is_whole);
    let start = starts
        .next()
        .ok_or(format!("there is no function {name}"))?;
    if starts.next().is_some() {
        return Err(format!("there is more than one function {name}"));
    }
    let end = closing_brace(&file[start..]).ok_or(format!("function {name} has no end"))?;
    Ok(start..start + end + 1)
}

/// Finds the brace that closes the first one.
fn closing_brace(text: &str) -> Option<usize> {
    let mut depth = 0;
    let mut braces = text.match_indices(['{', '}']);
    let closing = braces.find(|(_, brace)| {
        depth += if *brace == "{" { 1 } else { -1 };
        depth == 0
    });
    closing.map(|(place, _)| place)
}
