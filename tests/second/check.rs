//! The program "check" of the outline: the whole input at once, the whole output at once.

use crate::library::{decode, judge, read_key_line, Verdict, FRAME};
use crate::probe::lines;

/// What the program prints for an input. Empty input has no line, not even a key line.
pub fn answer_all(input: &[u8]) -> String {
    let mut lines = lines(input);
    let Some(key_line) = lines.next() else {
        return String::new();
    };
    let (number, _, keys) = read_key_line(key_line);
    if number != 0 {
        return refused(number);
    }
    let frame_line = |line: &[u8]| {
        let mut space = [0; FRAME];
        match decode(line, &mut space) {
            (0, count) => {
                let frame: Vec<u8> = space.into_iter().take(count as usize).collect();
                judged(judge(&keys, &frame))
            }
            (number, _) => refused(number),
        }
    };
    lines.map(frame_line).collect()
}

fn refused(number: u8) -> String {
    judged((
        Verdict {
            number,
            whole: 0,
            four: 0,
        },
        0,
    ))
}

fn judged((verdict, body): (Verdict, u64)) -> String {
    format!(
        "{:02X}{:08X}{:08X}{:02X}\n",
        verdict.number, verdict.whole, verdict.four, body
    )
}
