//! The program "send" of item 1 of the requests: the whole input at once, the whole output at once.

use crate::forms::KeySet;
use crate::library::{decode, read_key_line, FRAME};
use crate::probe::lines;
use crate::writer::{write, ROOM};

/// What the program writes for an input: nothing for empty input and for a refused key line, and otherwise a line for
/// each body.
pub fn answer_all(input: &[u8]) -> String {
    let mut lines = lines(input);
    let Some(key_line) = lines.next() else {
        return String::new();
    };
    let (number, _, keys) = read_key_line(key_line);
    if number != 0 {
        return String::new();
    }
    let finished = |line: &[u8]| frame_line(&keys, line) + "\n";
    lines.map(finished).collect()
}

/// The frame line of a body line: no characters where decoding refuses the line, or the writer the body. An empty line
/// decodes to a body of no bytes, and it is the writer that refuses that. The space is larger than is wanted, so that a
/// writer that takes too long a body would show it.
fn frame_line(keys: &KeySet, line: &[u8]) -> String {
    let mut bytes = [0; FRAME];
    let (number, count) = decode(line, &mut bytes);
    if number != 0 {
        return String::new();
    }
    let body: Vec<u8> = bytes.into_iter().take(count as usize).collect();
    let mut space = [0; 2 * ROOM];
    let (_, characters) = write(keys, &body, &mut space);
    space.into_iter().take(characters as usize).map(char::from).collect()
}
