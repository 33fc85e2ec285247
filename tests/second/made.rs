//! A message with all that the calls take of it, and questions that are made for their whole answer.
//!
//! What a question is made for is said without the code that answers: by Algorithm 2.2.

use crate::book::{Book, Data};
use crate::forms::{left_aligned, KeySet, Stream};
use crate::inner::hold;
use crate::pcmac::{chain, partition, taggen, Walk};
use crate::probe::CALLS;

pub const TABLE: &[u8] = b"the table in force";

/// The calls that take a received tag, alone or at the end of a frame. The last three open the frame.
pub const CHECKING: [u8; 6] = [6, 8, 10, 11, 12, 13];

/// A message with what the calls take of it: the stream before its last part and behind it, and its tag.
#[derive(Clone)]
pub struct Made {
    pub message: Vec<u8>,
    pub part: Vec<u8>,
    pub before: Stream,
    pub behind: Stream,
    pub tag: Vec<u8>,
}

impl Made {
    /// A random message, cut somewhere.
    pub fn new(book: &mut Book, keys: &KeySet, count: usize) -> Made {
        let message = book.random.bytes(count);
        let cut = 1 + book.random.below(count);
        Made {
            part: message[cut..].to_vec(),
            before: stream(keys, &message[..cut]),
            behind: stream(keys, &message),
            tag: tag(keys, &message),
            message,
        }
    }

    pub fn frame(&self) -> Vec<u8> {
        [&self.message[..], &self.tag].concat()
    }

    /// The number and the two counts of a tag or a check; where the key set is refused they are zeros.
    pub fn verdict(&self, number: u8) -> Vec<u8> {
        let counts = [self.behind.whole + 1, self.behind.four];
        let counts = if number == 1 { [0, 0] } else { counts };
        [vec![number], counts.map(u64::to_be_bytes).concat()].concat()
    }
}

/// The stream of at least one byte.
fn stream(keys: &KeySet, message: &[u8]) -> Stream {
    let (blocks, last) = partition(message);
    let start = Walk {
        s: 0,
        whole: 0,
        four: 0,
    };
    let walk = chain(keys, 1, start, &blocks);
    Stream {
        total: message.len() as u64,
        chain: walk.s,
        held: left_aligned(last),
        count: last.len() as u64,
        whole: walk.whole,
        four: walk.four,
    }
}

pub fn tag(keys: &KeySet, message: &[u8]) -> Vec<u8> {
    let size = usize::from(keys.length).div_ceil(8);
    taggen(keys, message).s.to_be_bytes()[..size].to_vec()
}

/// One of the calls that take a tag, or a frame with it. Opening a refused frame hands back no bytes, or the table.
pub fn check_by(book: &mut Book, call: u8, keys: &KeySet, made: &Made, number: u8) {
    let [message, received, frame, table] =
        [&made.message, &made.tag, &made.frame(), TABLE].map(|bytes: &[u8]| Data::of(bytes).in_question());
    let verdict = made.verdict(number);
    let (body, kept) = match number {
        0 => (&made.message[..], &made.message[..]),
        _ => (&[][..], TABLE),
    };
    let length = |bytes: &[u8]| (bytes.len() as u64).to_be_bytes().to_vec();
    let (fields, answer) = match call {
        6 => (vec![made.behind.to_bytes(), received], vec![verdict]),
        8 => (vec![message, received], vec![verdict]),
        10 => (vec![frame], vec![verdict, length(body)]),
        11 => (vec![frame], vec![length(body), body.to_vec()]),
        _ => (vec![frame, table], vec![length(kept), kept.to_vec()]),
    };
    whole(book, call, keys, &fields, &answer);
}

/// Asks, and holds the whole answer to the one that the question is made for.
pub fn whole(book: &mut Book, call: u8, keys: &KeySet, fields: &[Vec<u8>], answer: &[Vec<u8>]) {
    let said = book.ask(call, &[&[keys.to_bytes()], fields].concat(), None);
    let (count, name) = (book.count, CALLS[usize::from(call)]);
    hold(said == answer.concat(), || {
        format!("line {count} ({name}) is made for another answer")
    });
}
