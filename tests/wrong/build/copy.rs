//! Reads the files to copy and writes the copies.

use crate::edited::{Edited, Files};
use std::fs;
use std::path::Path;

/// Reads every file of a folder and of the folders in it.
pub fn read_folder(root: &Path, folder: &str, files: &mut Files) -> Result<(), String> {
    let entries = fs::read_dir(root.join(folder)).map_err(|error| format!("{folder}: {error}"))?;
    for entry in entries.flatten() {
        let path = format!("{folder}/{}", entry.file_name().to_string_lossy());
        if entry.path().is_dir() {
            read_folder(root, &path, files)?;
        } else {
            let text =
                fs::read_to_string(entry.path()).map_err(|error| format!("{path}: {error}"))?;
            let is_root = path.ends_with("/lib.rs");
            let text = if is_root { without_head(&text) } else { text };
            files.insert(path, Edited::new(text));
        }
    }
    Ok(())
}

/// Leaves out the comment on the whole file, which may not stand in a file that is included.
fn without_head(text: &str) -> String {
    let lines = text.lines().filter(|line| !line.starts_with("//!"));
    lines.flat_map(|line| [line, "\n"]).collect()
}

/// Writes the files below a folder.
pub fn write_all(folder: &Path, files: &Files) -> Result<(), String> {
    let mut files = files.iter();
    files.try_for_each(|(path, file)| write(&folder.join(path), &file.text()))
}

/// Writes a file and the folders that it needs.
pub fn write(path: &Path, text: &str) -> Result<(), String> {
    let folder = path.parent().ok_or("no folder")?;
    let written = fs::create_dir_all(folder).and_then(|()| fs::write(path, text));
    written.map_err(|error| format!("{}: {error}", path.display()))
}
