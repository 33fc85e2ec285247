//! Compares what a built program said with what the second program says, answer by answer.

use crate::hex;
use crate::probe::{lines, CALLS};
use std::path::Path;
use std::{fs, io};

/// How many differences are shown, and how many characters of each line.
const SHOWN: usize = 5;
const CHARACTERS: usize = 200;

/// Bytes as they can be printed.
fn shown(line: Option<&[u8]>) -> String {
    let Some(line) = line else {
        return "no answer".into();
    };
    let characters: String = line
        .iter()
        .take(CHARACTERS)
        .flat_map(|&byte| std::ascii::escape_default(byte))
        .map(char::from)
        .collect();
    match line.len() {
        0 => "an empty line".into(),
        length if length > CHARACTERS => format!("{characters}.. ({length} characters)"),
        _ => characters,
    }
}

/// The call that a line for probe asks for.
fn call(question: &[u8]) -> &'static str {
    let number = question
        .get(..2)
        .and_then(hex::pairs)
        .map_or(0, |bytes| usize::from(bytes[0]));
    CALLS.get(number).copied().unwrap_or(CALLS[0])
}

/// What has been compared so far, and the call that was the first to differ.
struct Tally {
    passed: usize,
    failed: usize,
    first: &'static str,
}

/// The three files are the questions (for check and send: the input), what the second program says, and what the
/// program said. Prints the first differences; the last line is `passed failed first`.
pub fn compare(program: &str, files: [&Path; 3]) -> io::Result<()> {
    let [questions, expected, said] = [fs::read(files[0])?, fs::read(files[1])?, fs::read(files[2])?];
    let mut tally = Tally {
        passed: 0,
        failed: 0,
        first: "-",
    };
    compare_lines(program, files[0], [&questions, &expected, &said], &mut tally);
    // An input with no output is one question.
    tally.passed += usize::from(tally.passed + tally.failed == 0);
    if expected.ends_with(b"\n") != said.ends_with(b"\n") && tally.failed == 0 {
        println!("{program}: the answers to {} do not end alike", files[0].display());
        tally.failed += 1;
    }
    println!("{} {} {}", tally.passed, tally.failed, tally.first);
    Ok(())
}

fn compare_lines(program: &str, file: &Path, [questions, expected, said]: [&[u8]; 3], tally: &mut Tally) {
    let probe = program == "probe";
    // The first line of an input of check or send is the key line. It has no answer of its own; where it is refused,
    // there is one of check, and none at all of send.
    let skipped = usize::from(!probe && lines(expected).count() + 1 == lines(questions).count());
    let mut asked = lines(questions).skip(skipped);
    let (mut right, mut answers) = (lines(expected), lines(said));
    for number in 1 + skipped.. {
        let question = asked.next().unwrap_or_default();
        let (wanted, answer) = (right.next(), answers.next());
        match (wanted, answer) {
            (None, None) => return,
            _ if wanted == answer => {
                tally.passed += 1;
                continue;
            }
            _ if tally.failed == 0 => {
                tally.first = match program {
                    "probe" => call(question),
                    "check" => "check",
                    _ => "send",
                }
            }
            _ => (),
        }
        tally.failed += 1;
        if tally.failed <= SHOWN {
            println!("{program}, line {number} of {}", file.display());
            println!("    asked:                   {}", shown(Some(question)));
            println!("    the program said:        {}", shown(answer));
            println!("    the second program says: {}", shown(wanted));
        }
    }
}
