//! The language of the program `probe`: one call a line, each answered by a line.

use crate::forms::{KeySet, Stream, KEY_SET_BYTES, STREAM_BYTES};
use crate::{hex, library, writer};

/// The limits of a line in characters, of the first and the second bytes field, and of a space.
pub const LINE: usize = 16_384;
pub const FIRST: usize = 1_048_577;
pub const SECOND: usize = 4_096;
pub const SPACE: usize = 1_024;

/// The calls by their numbers; there is no call 0.
pub const CALLS: [&str; 16] = [
    "no call",
    "keys::key_call",
    "keyline::read",
    "stream::start",
    "stream::add",
    "stream::close",
    "stream::check",
    "message::tag",
    "message::verify",
    "hex::decode",
    "frame::judge",
    "frame::open",
    "frame::open_or",
    "bridge::open_or_keep",
    "hex::encode",
    "writer::write",
];

/// The lines of an input: each ends with a line feed, which the last may lack.
pub fn lines(input: &[u8]) -> impl Iterator<Item = &[u8]> {
    let whole = input.strip_suffix(b"\n").unwrap_or(input);
    whole
        .split(|&byte| byte == b'\n')
        .take(if input.is_empty() { 0 } else { usize::MAX })
}

pub fn answer_all(input: &[u8]) -> String {
    lines(input).map(|line| answer(line) + "\n").collect()
}

/// The answer to a line, without the line feed: `?` where it is no question.
pub fn answer(line: &[u8]) -> String {
    let question = if line.len() > LINE { None } else { hex::pairs(line) };
    question
        .and_then(|bytes| answer_bytes(&bytes))
        .map_or("?".into(), |bytes| hex::written(&bytes))
}

/// What is left to read of a question. Every reading gives nothing where the field is cut short or beyond its limit.
struct Rest<'a>(&'a [u8]);

impl<'a> Rest<'a> {
    fn take(&mut self, count: usize) -> Option<&'a [u8]> {
        let (taken, rest) = self.0.split_at_checked(count)?;
        self.0 = rest;
        Some(taken)
    }

    fn integer(&mut self, size: usize) -> Option<u64> {
        Some(
            self.take(size)?
                .iter()
                .fold(0, |number, &byte| number << 8 | u64::from(byte)),
        )
    }

    fn number(&mut self) -> Option<u64> {
        self.integer(8)
    }

    fn byte(&mut self) -> Option<u8> {
        Some(self.take(1)?[0])
    }

    fn bytes(&mut self, limit: usize) -> Option<Vec<u8>> {
        let form = self.byte()?;
        let count = self.integer(if form == 0 { 2 } else { 4 })? as usize;
        match form {
            _ if count > limit => None,
            0 => Some(self.take(count)?.to_vec()),
            1 => Some(pattern(count, self.byte()?, self.byte()?)),
            _ => None,
        }
    }

    fn keys(&mut self) -> Option<KeySet> {
        self.take(KEY_SET_BYTES).map(KeySet::from_bytes)
    }

    fn stream(&mut self) -> Option<Stream> {
        self.take(STREAM_BYTES).map(Stream::from_bytes)
    }

    /// A space, filled as it is before the call.
    fn space(&mut self) -> Option<Vec<u8>> {
        let size = self.integer(2)? as usize;
        let filler = self.byte()?;
        (size <= SPACE).then(|| vec![filler; size])
    }

    fn end(&self) -> Option<()> {
        self.0.is_empty().then_some(())
    }
}

/// The bytes whose i-th is first + step i modulo 256.
pub fn pattern(count: usize, first: u8, step: u8) -> Vec<u8> {
    std::iter::successors(Some(first), |byte| Some(byte.wrapping_add(step)))
        .take(count)
        .collect()
}

fn answer_bytes(question: &[u8]) -> Option<Vec<u8>> {
    let mut rest = Rest(question);
    match rest.byte()? {
        call @ 1..=3 => answer_keys_or_start(call, &mut rest),
        call @ 4..=6 => answer_stream(call, &mut rest),
        call @ 7..=8 => answer_message(call, &mut rest),
        9 => answer_line(library::decode, &mut rest),
        call @ 10..=13 => answer_frame(call, &mut rest),
        14 => answer_line(library::encode, &mut rest),
        15 => answer_writer(&mut rest),
        _ => None,
    }
}

fn answer_keys_or_start(call: u8, rest: &mut Rest) -> Option<Vec<u8>> {
    let (number, steps, set) = match call {
        1 => {
            let (order, length) = (rest.number()?, rest.number()?);
            let (k, l) = (rest.bytes(FIRST)?, rest.bytes(SECOND)?);
            rest.end()?;
            library::key_call(order, length, &k, &l)
        }
        2 => {
            let line = rest.bytes(FIRST)?;
            rest.end()?;
            library::read_key_line(&line)
        }
        _ => {
            rest.end()?;
            return Some(Stream::default().to_bytes());
        }
    };
    Some([vec![number], steps.to_be_bytes().to_vec(), set.to_bytes()].concat())
}

fn counts(verdict: library::Verdict) -> Vec<u8> {
    let numbers = [verdict.whole, verdict.four].into_iter().flat_map(u64::to_be_bytes);
    std::iter::once(verdict.number).chain(numbers).collect()
}

fn answer_stream(call: u8, rest: &mut Rest) -> Option<Vec<u8>> {
    let (keys, stream) = (rest.keys()?, rest.stream()?);
    if call == 5 {
        let mut space = rest.space()?;
        rest.end()?;
        let verdict = library::close(&keys, &stream, &mut space);
        return Some([counts(verdict), space].concat());
    }
    let bytes = rest.bytes(FIRST)?;
    rest.end()?;
    if call == 6 {
        return Some(counts(library::check(&keys, &stream, &bytes)));
    }
    let (number, stream) = library::add(&keys, &stream, &bytes);
    Some([vec![number], stream.to_bytes()].concat())
}

fn answer_message(call: u8, rest: &mut Rest) -> Option<Vec<u8>> {
    let (keys, message) = (rest.keys()?, rest.bytes(FIRST)?);
    if call == 8 {
        let received = rest.bytes(SECOND)?;
        rest.end()?;
        return Some(counts(library::verify(&keys, &message, &received)));
    }
    let mut space = rest.space()?;
    rest.end()?;
    let verdict = library::tag(&keys, &message, &mut space);
    Some([counts(verdict), space].concat())
}

/// Decoding and encoding have the same fields and answer alike: the number, and how much was written.
fn answer_line(call: fn(&[u8], &mut [u8]) -> (u8, u64), rest: &mut Rest) -> Option<Vec<u8>> {
    let (bytes, mut space) = (rest.bytes(FIRST)?, rest.space()?);
    rest.end()?;
    let (number, written) = call(&bytes, &mut space);
    Some([vec![number], written.to_be_bytes().to_vec(), space].concat())
}

fn answer_frame(call: u8, rest: &mut Rest) -> Option<Vec<u8>> {
    let (keys, frame) = (rest.keys()?, rest.bytes(FIRST)?);
    let table = if call >= 12 { rest.bytes(SECOND)? } else { Vec::new() };
    rest.end()?;
    if call == 10 {
        let (verdict, body) = library::judge(&keys, &frame);
        return Some([counts(verdict), body.to_be_bytes().to_vec()].concat());
    }
    let handed = if call == 11 {
        library::open(&keys, &frame)
    } else {
        library::open_or(&keys, &frame, &table)
    };
    Some([(handed.len() as u64).to_be_bytes().to_vec(), handed.to_vec()].concat())
}

fn answer_writer(rest: &mut Rest) -> Option<Vec<u8>> {
    let (keys, body, mut space) = (rest.keys()?, rest.bytes(FIRST)?, rest.space()?);
    rest.end()?;
    let (verdict, characters) = writer::write(&keys, &body, &mut space);
    Some([counts(verdict), characters.to_be_bytes().to_vec(), space].concat())
}
