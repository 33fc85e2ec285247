//! Inputs for the program send, line by line, each line with the body that it is made to carry, or made to be refused.

use crate::book::{formatted, frame_of};
use crate::forms::KeySet;
use crate::inner::hold;
use crate::inputs::{key_line, Pair};
use crate::library::{read_key_line, tag_size, FRAME};
use crate::pcmac::absorbed_steps;
use crate::questions_keys::OTHERS;
use crate::random::Random;
use crate::{check, hex, send};

#[derive(Clone)]
pub struct Bodies {
    pub text: Vec<u8>,
    pub keys: KeySet,
    /// For each line behind the key line its body, or nothing where it is made to be refused.
    expected: Vec<Option<Vec<u8>>>,
}

impl Bodies {
    pub fn new(random: &mut Random, order: u8, length: u8) -> Bodies {
        Bodies::with_key_line(&key_line(random, order, length))
    }

    /// Starts with a key line that is not refused.
    pub fn with_key_line(line: &[u8]) -> Bodies {
        Bodies {
            text: [line, b"\n"].concat(),
            keys: read_key_line(line).2,
            expected: Vec::new(),
        }
    }

    /// A line with the body that it is made to carry.
    pub fn line(&mut self, line: &[u8], expected: Option<Vec<u8>>) {
        self.text.extend_from_slice(line);
        self.text.push(b'\n');
        self.expected.push(expected);
    }

    /// A body that a frame line is written for.
    pub fn body(&mut self, body: &[u8]) {
        self.line(hex::written(body).as_bytes(), Some(body.to_vec()));
    }

    /// A line whose answer is an empty line.
    pub fn refused(&mut self, line: &[u8]) {
        self.line(line, None);
    }

    /// The longest body that fits a frame.
    pub fn longest(&self) -> usize {
        FRAME - tag_size(&self.keys)
    }

    /// A line of some kind, of at most so many characters.
    pub fn any_line(&mut self, random: &mut Random, most: usize) {
        let (line, expected) = any_line(random, self.longest());
        if line.len() <= most {
            self.line(&line, expected);
        }
    }

    /// A line of exactly so many characters, all of them digits: a body where it can be one.
    pub fn line_of(&mut self, random: &mut Random, characters: usize) {
        let bytes = random.bytes(characters.div_ceil(2));
        if characters % 2 == 1 || bytes.is_empty() || bytes.len() > self.longest() {
            self.refused(&hex::written(&bytes).as_bytes()[..characters]);
        } else {
            self.body(&bytes);
        }
    }

    /// Lines of all kinds, until a line feed stands exactly at this place of the input.
    pub fn up_to(&mut self, random: &mut Random, place: usize) {
        while self.text.len() + 1_500 < place {
            self.any_line(random, 600);
        }
        while self.text.len() + 520 < place {
            let characters = 100 + random.below(300);
            self.line_of(random, characters);
        }
        self.line_of(random, place - self.text.len());
    }

    /// The last line lacks its line feed.
    pub fn without_last_line_feed(mut self) -> Bodies {
        self.text.pop();
        self
    }

    /// With what send writes, held to the bodies that the lines were made for.
    pub fn named(self, name: &str) -> Pair {
        let output = send::answer_all(&self.text);
        let line = |body: &Vec<u8>| formatted(&frame_of(&self.keys, body));
        let lines = self
            .expected
            .iter()
            .map(|body| body.as_ref().map_or(String::new(), line));
        let made_for: String = lines.map(|line| line + "\n").collect();
        hold(output == made_for, || format!("the lines that {name} is made for"));
        self.hold_to_check(name, &output);
        Pair {
            name: name.into(),
            input: self.text,
            output,
        }
    }

    /// What send writes is given to check, behind the same key line. Each body is accepted with its length, and each
    /// empty line, which stands for a refused body, is refused with 8.
    fn hold_to_check(&self, name: &str, written: &str) {
        let key_line = self.text.split(|&byte| byte == b'\n').next().unwrap_or_default();
        let said = check::answer_all(&[key_line, b"\n", written.as_bytes()].concat());
        let verdict = |body: &Option<Vec<u8>>| match body {
            Some(body) => {
                let (whole, four) = absorbed_steps(body.len() as u64, self.keys.order);
                format!("00{:08X}{four:08X}{:02X}\n", whole + 1, body.len())
            }
            None => format!("08{:018}\n", 0),
        };
        let verdicts: String = self.expected.iter().map(verdict).collect();
        hold(said == verdicts, || {
            format!("check accepts what send writes for {name}")
        });
    }
}

/// An input for which nothing is written: it is empty, or its key line is refused.
pub fn nothing(name: &str, text: &[u8]) -> Pair {
    let output = send::answer_all(text);
    hold(output.is_empty(), || {
        format!("{name} is made so that nothing is written")
    });
    Pair {
        name: name.into(),
        input: text.to_vec(),
        output,
    }
}

/// A line of any kind, with its body where it is not refused.
fn any_line(random: &mut Random, longest: usize) -> (Vec<u8>, Option<Vec<u8>>) {
    let short = random.chance(2);
    let count = 1 + random.below(if short { longest.min(60) } else { longest });
    let body = random.bytes(count);
    let mut line = hex::written(&body).into_bytes();
    let place = random.below(line.len());
    let other = random.one_of(&OTHERS);
    match random.below(20) {
        0 => (Vec::new(), None),
        1 => (line[1..].to_vec(), None),
        2 => (b"a".iter().chain(&line[1..]).copied().collect(), None),
        3 => {
            line[place] = other;
            (line, None)
        }
        4 => {
            let beyond = longest + 1 + random.below(FRAME - longest);
            (hex::written(&random.bytes(beyond)).into_bytes(), None)
        }
        5 => {
            line.resize(511 + random.below(80), b'3');
            (line, None)
        }
        6 => {
            line[place] = other;
            line.resize(511 + random.below(3), b'F');
            (line, None)
        }
        7 => ([&line[..], b"\r"].concat(), None),
        8 => {
            let body = random.bytes(longest);
            (hex::written(&body).into_bytes(), Some(body))
        }
        _ => (line, Some(body)),
    }
}
