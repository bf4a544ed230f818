//! The lines of a file of turns as keys with their texts.

/// What a line that goes on with the text before it begins with.
const GOES_ON: &str = "     ";

/// A key and its text, and the line on which they stand.
pub struct Field {
    pub key: String,
    pub text: String,
    pub line: usize,
}

/// Reads the fields of a file; lines that begin with // and empty lines are left out.
pub fn read(text: &str) -> Result<Vec<Field>, String> {
    let mut fields: Vec<Field> = Vec::new();
    for (place, line) in text.lines().enumerate() {
        if line.starts_with("//") || line.trim().is_empty() {
            continue;
        }
        if let Some(more) = line.strip_prefix(GOES_ON) {
            let last = fields.last_mut().ok_or("a first line that goes on")?;
            last.text.push('\n');
            last.text.push_str(more);
        } else {
            fields.push(field(line, place + 1)?);
        }
    }
    Ok(fields)
}

/// Reads one line that begins a field.
fn field(line: &str, place: usize) -> Result<Field, String> {
    let (key, text) = match line.strip_prefix("# ") {
        Some(name) => ("#", name),
        None => line
            .split_once(':')
            .ok_or(format!("line {place}: no key"))?,
    };
    Ok(Field {
        key: key.to_string(),
        text: text.trim().to_string(),
        line: place,
    })
}
