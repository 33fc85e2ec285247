//! The library's calls, from the outline: which number each gives, and what it hands back.
//!
//! Each call states its refusals as a list in the order in which they are judged, and the first that applies is given.

use crate::aes::Block;
use crate::forms::{left_aligned, KeySet, Stream};
use crate::hex;
use crate::pcmac::{absorbed_steps, chain, finish, keysch, partition, same_tag, taggen, Walk};

/// The most bytes that a message may have.
pub const LIMIT: u64 = 1_048_576;

/// The most characters of a line, and the most bytes of a frame.
pub const LINE: usize = 510;
pub const FRAME: usize = 255;

/// The characters of a written line, each at the value that it stands for. The call has them for itself: `hex.rs`
/// writes the questions too, and a fault of the call must leave these as they are.
const DIGITS: &[u8; 16] = b"0123456789ABCDEF";

/// A number with the two counts. A refusal has zeros, apart from 7.
#[derive(Clone, Copy)]
pub struct Verdict {
    pub number: u8,
    pub whole: u64,
    pub four: u64,
}

pub fn first_refusal(judged: &[(u8, bool)]) -> u8 {
    judged
        .iter()
        .find(|(_, applies)| *applies)
        .map_or(0, |(number, _)| *number)
}

pub fn refused(number: u8) -> Verdict {
    Verdict {
        number,
        whole: 0,
        four: 0,
    }
}

pub fn done(walk: Walk) -> Verdict {
    Verdict {
        number: 0,
        whole: walk.whole,
        four: walk.four,
    }
}

/// In a key set 0 is refused in either field: only the key call takes it as another number.
pub fn wrong_order(keys: &KeySet) -> bool {
    !(1..=5).contains(&keys.order)
}

pub fn wrong_length(keys: &KeySet) -> bool {
    !(1..=128).contains(&keys.length)
}

/// The bytes that a tag occupies.
pub fn tag_size(keys: &KeySet) -> usize {
    usize::from(keys.length).div_ceil(8)
}

/// The tag as it is written: its spare bits are zero, as cut has left them.
pub fn written_tag(keys: &KeySet, tag: Block) -> Vec<u8> {
    tag.to_be_bytes().into_iter().take(tag_size(keys)).collect()
}

fn write_tag(keys: &KeySet, space: &mut [u8], tag: Block) {
    space
        .iter_mut()
        .zip(written_tag(keys, tag))
        .for_each(|(place, byte)| *place = byte);
}

/// The key call takes order 0 as 2 (item 2 of the requests, in place of the outline's 1) and tag length 0 as 128. A
/// refused one hands back zeros.
pub fn key_call(order: u64, length: u64, k: &[u8], l: &[u8]) -> (u8, u64, KeySet) {
    let judged = [(1, order > 5), (2, length > 128), (3, k.len() != 16 || l.len() != 16)];
    let number = first_refusal(&judged);
    if number != 0 {
        return (number, 0, KeySet::default());
    }
    let order = if order == 0 { 2 } else { order as u8 };
    let length = if length == 0 { 128 } else { length as u8 };
    let (steps, set) = keysch(order, length, left_aligned(k), left_aligned(l));
    (0, steps, set)
}

/// A key line: 8, then 9, then what the key call refuses. Its K and L have their sizes, so 3 cannot come.
pub fn read_key_line(line: &[u8]) -> (u8, u64, KeySet) {
    let decoded = hex::pairs(line);
    let judged = [(8, line.len() != 68), (9, decoded.is_none())];
    match (first_refusal(&judged), decoded) {
        (0, Some(bytes)) => key_call(bytes[0].into(), bytes[1].into(), &bytes[2..18], &bytes[18..34]),
        (number, _) => (number, 0, KeySet::default()),
    }
}

/// How many bytes a stream holds: a full block may still be the last.
pub fn held_count(total: u64) -> u64 {
    if total == 0 {
        0
    } else {
        (total - 1) % 16 + 1
    }
}

fn well_formed(keys: &KeySet, stream: &Stream) -> bool {
    let unused = Block::MAX.checked_shr(8 * held_count(stream.total) as u32).unwrap_or(0);
    stream.total <= LIMIT
        && stream.count == held_count(stream.total)
        && stream.held & unused == 0
        && (stream.whole, stream.four) == absorbed_steps(stream.total, keys.order)
        && (stream.total > 16 || stream.chain == 0)
}

/// The held bytes and the part are the rest of the message; its blocks before the last are absorbed.
pub fn add(keys: &KeySet, stream: &Stream, part: &[u8]) -> (u8, Stream) {
    let judged = [
        (1, wrong_order(keys)),
        (2, wrong_length(keys)),
        (4, !well_formed(keys, stream)),
        (5, stream.total.saturating_add(part.len() as u64) > LIMIT),
    ];
    let number = first_refusal(&judged);
    if number != 0 || part.is_empty() {
        return (number, stream.clone());
    }
    let rest = [held(stream), part.to_vec()].concat();
    let (before, last) = partition(&rest);
    let first = (stream.total - stream.count) / 16 + 1;
    let walk = chain(keys, first, walk_so_far(stream), &before);
    let (total, held, count) = (stream.total + part.len() as u64, left_aligned(last), last.len() as u64);
    (
        0,
        Stream {
            total,
            chain: walk.s,
            held,
            count,
            whole: walk.whole,
            four: walk.four,
        },
    )
}

fn walk_so_far(stream: &Stream) -> Walk {
    Walk {
        s: stream.chain,
        whole: stream.whole,
        four: stream.four,
    }
}

fn held(stream: &Stream) -> Vec<u8> {
    stream
        .held
        .to_be_bytes()
        .into_iter()
        .take(stream.count as usize)
        .collect()
}

/// The refusals that closing and checking share; the size is that of the tag slice.
fn closing_refusal(keys: &KeySet, stream: &Stream, size: usize) -> u8 {
    first_refusal(&[
        (1, wrong_order(keys)),
        (2, wrong_length(keys)),
        (3, size != tag_size(keys)),
        (4, !well_formed(keys, stream)),
        (6, stream.total == 0),
    ])
}

pub fn close(keys: &KeySet, stream: &Stream, space: &mut [u8]) -> Verdict {
    let number = closing_refusal(keys, stream, space.len());
    if number != 0 {
        return refused(number);
    }
    let walk = finish(keys, walk_so_far(stream), &held(stream));
    write_tag(keys, space, walk.s);
    done(walk)
}

pub fn check(keys: &KeySet, stream: &Stream, received: &[u8]) -> Verdict {
    let number = closing_refusal(keys, stream, received.len());
    if number != 0 {
        return refused(number);
    }
    compared(keys, finish(keys, walk_so_far(stream), &held(stream)), received)
}

/// 7 carries the counts of the check.
fn compared(keys: &KeySet, walk: Walk, received: &[u8]) -> Verdict {
    let number = if same_tag(keys, walk.s, received) { 0 } else { 7 };
    Verdict { number, ..done(walk) }
}

/// The refusals that the two one-call functions share.
fn message_refusal(keys: &KeySet, message: &[u8], size: usize) -> u8 {
    first_refusal(&[
        (1, wrong_order(keys)),
        (2, wrong_length(keys)),
        (3, size != tag_size(keys)),
        (5, message.len() as u64 > LIMIT),
        (6, message.is_empty()),
    ])
}

pub fn tag(keys: &KeySet, message: &[u8], space: &mut [u8]) -> Verdict {
    let number = message_refusal(keys, message, space.len());
    if number != 0 {
        return refused(number);
    }
    let walk = taggen(keys, message);
    write_tag(keys, space, walk.s);
    done(walk)
}

pub fn verify(keys: &KeySet, message: &[u8], received: &[u8]) -> Verdict {
    let number = message_refusal(keys, message, received.len());
    if number != 0 {
        return refused(number);
    }
    compared(keys, taggen(keys, message), received)
}

/// Answers the number and how many bytes were written; the space behind them is not touched.
pub fn decode(line: &[u8], space: &mut [u8]) -> (u8, u64) {
    let decoded = hex::pairs(line);
    let judged = [(3, space.len() < FRAME), (8, line.len() > LINE), (9, decoded.is_none())];
    match (first_refusal(&judged), decoded) {
        (0, Some(bytes)) => {
            space.iter_mut().zip(&bytes).for_each(|(place, byte)| *place = *byte);
            (0, bytes.len() as u64)
        }
        (number, _) => (number, 0),
    }
}

/// Two characters for each byte, high half first. Answers the number and how many characters were written; the space
/// behind them is not touched.
pub fn encode(bytes: &[u8], space: &mut [u8]) -> (u8, u64) {
    let characters = 2 * bytes.len();
    let number = first_refusal(&[(3, space.len() < characters)]);
    if number != 0 {
        return (number, 0);
    }
    let halves = bytes.iter().flat_map(|byte| [byte >> 4, byte & 15]);
    space
        .iter_mut()
        .zip(halves)
        .for_each(|(place, half)| *place = DIGITS[usize::from(half)]);
    (0, characters as u64)
}

/// Body, then tag. Answers the verdict and the length of the body, 0 where the frame is refused.
pub fn judge(keys: &KeySet, frame: &[u8]) -> (Verdict, u64) {
    let judged = [
        (1, wrong_order(keys)),
        (2, wrong_length(keys)),
        (8, frame.len() > FRAME || frame.len() <= tag_size(keys)),
    ];
    let number = first_refusal(&judged);
    if number != 0 {
        return (refused(number), 0);
    }
    let (body, received) = frame.split_at(frame.len() - tag_size(keys));
    let verdict = verify(keys, body, received);
    (verdict, if verdict.number == 0 { body.len() as u64 } else { 0 })
}

/// The body of an accepted frame, or the table in force.
pub fn open_or<'a>(keys: &KeySet, frame: &'a [u8], table: &'a [u8]) -> &'a [u8] {
    match judge(keys, frame) {
        (Verdict { number: 0, .. }, length) => &frame[..length as usize],
        _ => table,
    }
}

/// The body of an accepted frame, or no bytes.
pub fn open<'a>(keys: &KeySet, frame: &'a [u8]) -> &'a [u8] {
    open_or(keys, frame, &[])
}
