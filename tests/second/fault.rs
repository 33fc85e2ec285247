//! Puts a stored fault into a copy of this program's sources.
//!
//! A fault is a small file: a line that says in words what is wrong, a line with the name of the source, then a line
//! `old`, the exact old lines, a line `new` and the new lines. The old lines must stand in the source exactly once.

use std::path::Path;
use std::{fs, io};

pub fn put(fault: &Path, folder: &Path) -> io::Result<()> {
    let text = fs::read_to_string(fault)?;
    let wrong = |what: &str| io::Error::other(format!("{}: {what}", fault.display()));
    let (_, rest) = text.split_once('\n').ok_or_else(|| wrong("there is one line only"))?;
    let (source, rest) = rest
        .split_once("\nold\n")
        .ok_or_else(|| wrong("there is no line `old`"))?;
    let (old, new) = rest
        .split_once("\nnew\n")
        .ok_or_else(|| wrong("there is no line `new`"))?;
    let (old, new) = (format!("{old}\n"), new);
    let file = folder.join(source);
    let before = fs::read_to_string(&file)?;
    match before.matches(&old).count() {
        1 => fs::write(file, before.replace(&old, new)),
        count => Err(wrong(&format!("its old lines stand {count} times in {source}"))),
    }
}
