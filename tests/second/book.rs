//! A book of questions for `probe` with their answers. Each question is written as a line, and the answer is worked out
//! from that line alone, as `probe` must do it.

use crate::forms::{left_aligned, KeySet, Stream};
use crate::inner::hold;
use crate::pcmac::absorbed_steps;
use crate::random::Random;
use crate::{hex, library, probe};

/// Bytes as a question writes them: one by one, or by a pattern.
#[derive(Clone)]
pub enum Data {
    Written(Vec<u8>),
    Pattern(usize, u8, u8),
}

impl Data {
    pub fn of(bytes: &[u8]) -> Data {
        Data::Written(bytes.to_vec())
    }

    pub fn bytes(&self) -> Vec<u8> {
        match self {
            Data::Written(bytes) => bytes.clone(),
            Data::Pattern(count, first, step) => probe::pattern(*count, *first, *step),
        }
    }

    pub fn in_question(&self) -> Vec<u8> {
        match self {
            Data::Written(bytes) => [&[0], &(bytes.len() as u16).to_be_bytes()[..], bytes].concat(),
            Data::Pattern(count, first, step) => [&[1], &(*count as u32).to_be_bytes()[..], &[*first, *step]].concat(),
        }
    }
}

/// A space's size and the byte that fills it.
pub type Space = (usize, u8);

pub fn space_in_question((size, filler): Space) -> Vec<u8> {
    [&(size as u16).to_be_bytes()[..], &[filler]].concat()
}

pub struct Book {
    pub questions: Vec<u8>,
    pub answers: Vec<u8>,
    pub count: usize,
    pub random: Random,
    /// The fresh book asks everything; the stored one asks less where a thing would be asked many times.
    pub dense: bool,
}

impl Book {
    pub fn new(seed: u64, dense: bool) -> Book {
        Book {
            questions: Vec::new(),
            answers: Vec::new(),
            count: 0,
            random: Random(seed),
            dense,
        }
    }

    /// One figure for the stored book, another for the fresh one.
    pub fn pick<T>(&self, stored: T, fresh: T) -> T {
        if self.dense {
            fresh
        } else {
            stored
        }
    }

    pub fn line(&mut self, line: &[u8]) -> String {
        let answer = probe::answer(line);
        self.questions.extend_from_slice(line);
        self.questions.push(b'\n');
        self.answers.extend_from_slice(answer.as_bytes());
        self.answers.push(b'\n');
        self.count += 1;
        answer
    }

    /// A line that is no question.
    pub fn nonsense(&mut self, line: &[u8]) {
        let answer = self.line(line);
        let count = self.count;
        hold(answer == "?", || format!("line {count} is made to be no question"));
    }

    /// Asks, and holds the answer's number to the one that the question is made for, if there is one.
    pub fn ask(&mut self, call: u8, fields: &[Vec<u8>], expected: Option<u8>) -> Vec<u8> {
        let answer = self.line(hex::written(&[vec![call], fields.concat()].concat()).as_bytes());
        let bytes = hex::pairs(answer.as_bytes()).unwrap_or_default();
        let (count, name) = (self.count, probe::CALLS[usize::from(call)]);
        hold(!bytes.is_empty(), || {
            format!("line {count} ({name}) is made to be a question")
        });
        let wrong = expected.filter(|number| bytes.first() != Some(number));
        hold(wrong.is_none(), || {
            format!(
                "line {count} ({name}) is made for {wrong:?}, not for {:?}",
                bytes.first()
            )
        });
        bytes
    }

    pub fn key_call(&mut self, order: u64, length: u64, k: &Data, l: &Data, expected: u8) -> KeySet {
        let numbers = [order.to_be_bytes().to_vec(), length.to_be_bytes().to_vec()];
        let answer = self.ask(1, &[numbers.concat(), k.in_question(), l.in_question()], Some(expected));
        KeySet::from_bytes(&answer[9..])
    }

    pub fn key_line(&mut self, line: &[u8], expected: u8) {
        self.ask(2, &[Data::of(line).in_question()], Some(expected));
    }

    pub fn start(&mut self) -> Stream {
        Stream::from_bytes(&self.ask(3, &[], None))
    }

    pub fn add(&mut self, keys: &KeySet, stream: &Stream, part: &Data, expected: Option<u8>) -> Stream {
        let answer = self.ask(4, &[keys.to_bytes(), stream.to_bytes(), part.in_question()], expected);
        Stream::from_bytes(&answer[1..])
    }

    /// Answers what the space holds afterwards.
    pub fn close(&mut self, keys: &KeySet, stream: &Stream, space: Space, expected: Option<u8>) -> Vec<u8> {
        let answer = self.ask(
            5,
            &[keys.to_bytes(), stream.to_bytes(), space_in_question(space)],
            expected,
        );
        answer[17..].to_vec()
    }

    pub fn check(&mut self, keys: &KeySet, stream: &Stream, received: &[u8], expected: Option<u8>) {
        self.ask(
            6,
            &[keys.to_bytes(), stream.to_bytes(), Data::of(received).in_question()],
            expected,
        );
    }

    /// Answers what the space holds afterwards.
    pub fn tag(&mut self, keys: &KeySet, message: &Data, space: Space, expected: Option<u8>) -> Vec<u8> {
        let answer = self.ask(
            7,
            &[keys.to_bytes(), message.in_question(), space_in_question(space)],
            expected,
        );
        answer[17..].to_vec()
    }

    pub fn verify(&mut self, keys: &KeySet, message: &Data, received: &Data, expected: Option<u8>) {
        self.ask(
            8,
            &[keys.to_bytes(), message.in_question(), received.in_question()],
            expected,
        );
    }

    /// Answers what the space holds afterwards.
    pub fn decode(&mut self, line: &[u8], space: Space, expected: u8) -> Vec<u8> {
        let answer = self.ask(
            9,
            &[Data::of(line).in_question(), space_in_question(space)],
            Some(expected),
        );
        answer[9..].to_vec()
    }

    /// Answers what the space holds afterwards. The count and the space are held to what the standard library's
    /// formatting makes of the bytes, so that they do not come from the code that answers.
    pub fn encode(&mut self, bytes: &Data, (size, filler): Space, expected: u8) -> Vec<u8> {
        let answer = self.ask(
            14,
            &[bytes.in_question(), space_in_question((size, filler))],
            Some(expected),
        );
        let characters = formatted(&if expected == 0 { bytes.bytes() } else { Vec::new() });
        let untouched = vec![filler; size.saturating_sub(characters.len())];
        let space = [characters.as_bytes(), &untouched].concat();
        let written = characters.len() as u64;
        let count = self.count;
        hold(answer[1..] == [&written.to_be_bytes()[..], &space].concat(), || {
            format!("line {count} is made to write other characters, or to leave other bytes behind them")
        });
        answer[9..].to_vec()
    }

    /// Answers what the space holds afterwards. The counts are held to the outline's formulas, and the space to the
    /// one-call tag and the standard library's formatting, so that they do not come from the code that answers.
    pub fn write(&mut self, keys: &KeySet, body: &Data, (size, filler): Space, expected: u8) -> Vec<u8> {
        let fields = [keys.to_bytes(), body.in_question(), space_in_question((size, filler))];
        let answer = self.ask(15, &fields, Some(expected));
        let (mut counts, mut line) = ([0; 3], String::new());
        if expected == 0 {
            let body = body.bytes();
            let (whole, four) = absorbed_steps(body.len() as u64, keys.order);
            line = formatted(&frame_of(keys, &body));
            counts = [whole + 1, four, line.len() as u64];
        }
        let untouched = vec![filler; size.saturating_sub(line.len())];
        let counts = counts.map(u64::to_be_bytes).concat();
        let count = self.count;
        hold(answer[1..] == [&counts, line.as_bytes(), &untouched].concat(), || {
            format!("line {count} is made to write another line, or to leave other bytes behind it")
        });
        answer[25..].to_vec()
    }

    pub fn judge(&mut self, keys: &KeySet, frame: &Data, expected: Option<u8>) {
        self.ask(10, &[keys.to_bytes(), frame.in_question()], expected);
    }

    /// One of the calls 0B to 0D, held to what it must hand back: the body, or no bytes or the table.
    pub fn open(&mut self, call: u8, keys: &KeySet, frame: &Data, table: &Data, accepted: Option<bool>) {
        let mut fields = vec![keys.to_bytes(), frame.in_question()];
        if call > 11 {
            fields.push(table.in_question());
        }
        let answer = self.ask(call, &fields, None);
        let bytes = frame.bytes();
        let handed = match accepted {
            None => return,
            Some(true) => bytes[..bytes.len().saturating_sub(library::tag_size(keys))].to_vec(),
            Some(false) if call == 11 => Vec::new(),
            Some(false) => table.bytes(),
        };
        let count = self.count;
        hold(answer.get(8..) == Some(&handed[..]), || {
            format!("line {count} is made to hand back other bytes")
        });
    }

    /// The key set of the key call, without asking.
    pub fn keys(&mut self, order: usize, length: usize) -> KeySet {
        let (k, l) = (self.random.bytes(16), self.random.bytes(16));
        library::key_call(order as u64, length as u64, &k, &l).2
    }

    /// A made-up key set: round keys, subkeys and masks are random, and come from no K and L.
    pub fn made_up(&mut self, order: u8, length: u8) -> KeySet {
        let bytes = [vec![order, length], self.random.bytes(512)].concat();
        KeySet::from_bytes(&bytes)
    }

    /// A key set with a wrong order where bit 0 of the set of faults says so, and a wrong tag length where bit 1 does.
    pub fn with_faults(&mut self, mut keys: KeySet, set: u32) -> KeySet {
        if set & 1 == 1 {
            keys.order = self.random.one_of(&[0, 6, 7, 128, 255]);
        }
        if set & 2 == 2 {
            keys.length = self.random.one_of(&[0, 129, 130, 255]);
        }
        keys
    }

    /// Either kind of key set, at random and in range.
    pub fn some_keys(&mut self) -> KeySet {
        let (order, length) = (1 + self.random.below(5), 1 + self.random.below(128));
        if self.random.chance(3) {
            self.made_up(order as u8, length as u8)
        } else {
            self.keys(order, length)
        }
    }

    /// A message of so many bytes: written where it is short, by a pattern where it is long.
    pub fn message(&mut self, count: usize) -> Data {
        if count <= self.pick(24, 400) {
            Data::Written(self.random.bytes(count))
        } else {
            Data::Pattern(count, self.random.byte(), self.random.byte() | 1)
        }
    }

    /// A well-formed stream at a total, by the outline's formulas, with a random chain value and random held bytes. At
    /// a total beyond the limit everything else is right.
    pub fn stream(&mut self, order: u8, total: u64) -> Stream {
        let (whole, four) = absorbed_steps(total, order);
        let count = library::held_count(total);
        let held = left_aligned(&self.random.bytes(count as usize));
        let chain = if total > 16 { self.random.block() } else { 0 };
        Stream {
            total,
            chain,
            held,
            count,
            whole,
            four,
        }
    }
}

/// The tag of a message by the library's call, as bytes.
pub fn tag_of(keys: &KeySet, message: &[u8]) -> Vec<u8> {
    let mut space = vec![0; library::tag_size(keys)];
    library::tag(keys, message, &mut space);
    space
}

/// A frame: the body, then its tag.
pub fn frame_of(keys: &KeySet, body: &[u8]) -> Vec<u8> {
    [body, &tag_of(keys, body)].concat()
}

/// The characters of the bytes, as the standard library formats them.
pub fn formatted(bytes: &[u8]) -> String {
    bytes.iter().map(|byte| format!("{byte:02X}")).collect()
}

/// The same bytes with one bit turned; bit 0 is the highest of the first byte, as in a tag.
pub fn turned(bytes: &[u8], bit: usize) -> Vec<u8> {
    let mut turned = bytes.to_vec();
    turned[bit / 8] ^= 0x80 >> (bit % 8);
    turned
}

/// The lowest number of those faults that are there: what a call must give.
pub fn lowest(faults: &[(u8, bool)]) -> u8 {
    faults
        .iter()
        .filter(|fault| fault.1)
        .map(|fault| fault.0)
        .min()
        .unwrap_or(0)
}
