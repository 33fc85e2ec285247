//! Inputs for the program check, line by line, each line with the number that it is made for.

use crate::book::{frame_of, turned};
use crate::forms::KeySet;
use crate::inner::hold;
use crate::library::{read_key_line, tag_size};
use crate::questions_keys::OTHERS;
use crate::random::Random;
use crate::{check, hex};

/// An input with its name, and what the program, check or send, must print for it.
pub struct Pair {
    pub name: String,
    pub input: Vec<u8>,
    pub output: String,
}

#[derive(Clone, Default)]
pub struct Input {
    pub text: Vec<u8>,
    pub keys: KeySet,
    expected: Vec<Option<u8>>,
}

impl Input {
    /// Starts with a right key line.
    pub fn new(random: &mut Random, order: u8, length: u8) -> Input {
        Input::with_key_line(&key_line(random, order, length))
    }

    /// Starts with any first line. Where it is refused, its number is all that is printed.
    pub fn with_key_line(line: &[u8]) -> Input {
        Input {
            text: [line, b"\n"].concat(),
            keys: read_key_line(line).2,
            expected: Vec::new(),
        }
    }

    pub fn line(&mut self, line: &[u8], expected: Option<u8>) {
        self.text.extend_from_slice(line);
        self.text.push(b'\n');
        self.expected.push(expected);
    }

    pub fn frame(&mut self, frame: &[u8], expected: Option<u8>) {
        self.line(hex::written(frame).as_bytes(), expected);
    }

    /// A line of some kind, of at most so many characters.
    pub fn any_line(&mut self, random: &mut Random, longest: usize) {
        let (line, expected) = any_line(random, &self.keys);
        if line.len() <= longest {
            self.line(&line, expected);
        }
    }

    /// A line of exactly so many characters: a right frame where it can be one.
    pub fn line_of(&mut self, random: &mut Random, characters: usize) {
        let size = tag_size(&self.keys);
        let digits = hex::written(&random.bytes(characters / 2 + 1)).into_bytes();
        match characters {
            511.. => self.line(&digits[..characters], Some(8)),
            _ if characters % 2 == 1 => self.line(&digits[..characters], Some(9)),
            _ if characters / 2 <= size => self.line(&digits[..characters], Some(8)),
            _ => self.frame(&frame_of(&self.keys, &random.bytes(characters / 2 - size)), Some(0)),
        }
    }

    /// Lines of all kinds, until a line feed stands exactly at this place of the input.
    pub fn up_to(&mut self, random: &mut Random, place: usize) {
        while self.text.len() + 1_500 < place {
            self.any_line(random, 600);
        }
        while self.text.len() + 520 < place {
            let characters = 100 + random.below(300);
            self.line_of(random, characters);
        }
        self.line_of(random, place - self.text.len());
    }

    /// The last line lacks its line feed.
    pub fn without_last_line_feed(mut self) -> Input {
        self.text.pop();
        self
    }

    /// With what check prints, held to the numbers that the lines were made for.
    pub fn named(self, name: &str) -> Pair {
        let output = check::answer_all(&self.text);
        let said: Vec<&str> = output.lines().collect();
        let mut both = said.iter().zip(&self.expected);
        let alike = both.all(|(line, number)| number.is_none_or(|number| line.starts_with(&format!("{number:02X}"))));
        hold(alike && said.len() == self.expected.len(), || {
            format!("the numbers that {name} is made for")
        });
        Pair {
            name: name.into(),
            input: self.text,
            output,
        }
    }
}

/// An input whose first line is refused with this number, which is then all that is printed.
pub fn refused(name: &str, text: &[u8], number: u8) -> Pair {
    Input {
        text: text.to_vec(),
        expected: vec![Some(number)],
        ..Input::default()
    }
    .named(name)
}

pub fn key_line(random: &mut Random, order: u8, length: u8) -> Vec<u8> {
    hex::written(&[vec![order, length], random.bytes(32)].concat()).into_bytes()
}

/// The same key line with another order.
pub fn with_order(line: &[u8], order: u8) -> Vec<u8> {
    [hex::written(&[order]).as_bytes(), &line[2..]].concat()
}

/// A right frame with a body of 1 byte or more, at random.
pub fn right_frame(random: &mut Random, keys: &KeySet) -> Vec<u8> {
    let most = 255 - tag_size(keys);
    let limit = if random.chance(2) { 60.min(most) } else { most };
    let count = 1 + random.below(limit);
    frame_of(keys, &random.bytes(count))
}

/// A line of any kind, with the number that it is made for where that is certain.
fn any_line(random: &mut Random, keys: &KeySet) -> (Vec<u8>, Option<u8>) {
    let frame = right_frame(random, keys);
    let mut line = hex::written(&frame).into_bytes();
    let body_bits = 8 * (frame.len() - tag_size(keys));
    let bit = random.below(usize::from(keys.length));
    let place = random.below(line.len());
    let other = random.one_of(&OTHERS);
    let count = random.below(tag_size(keys) + 1);
    match random.below(16) {
        0 => (Vec::new(), Some(8)),
        1 => (hex::written(&turned(&frame, body_bits + bit)).into_bytes(), Some(7)),
        2 => (
            hex::written(&turned(&frame, random.below(body_bits))).into_bytes(),
            None,
        ),
        3 => (line[..line.len() - 1].to_vec(), Some(9)),
        4 => (b"a".iter().chain(&line[1..]).copied().collect(), Some(9)),
        5 => {
            line[place] = other;
            (line, Some(9))
        }
        6 => (hex::written(&random.bytes(count)).into_bytes(), Some(8)),
        7 => {
            line.resize(511 + random.below(80), b'3');
            (line, Some(8))
        }
        8 => {
            line[place] = other;
            line.resize(511 + random.below(3), b'F');
            (line, Some(8))
        }
        9 if line.len() < 510 => ([&line[..], b"\r"].concat(), Some(9)),
        10 => (
            hex::written(&frame_of(keys, &random.bytes(255 - tag_size(keys)))).into_bytes(),
            Some(0),
        ),
        _ => (line, Some(0)),
    }
}
