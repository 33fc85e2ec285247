//! The line writer of item 1 of the requests: a body is written as a finished frame line.

use crate::forms::KeySet;
use crate::library::{done, encode, first_refusal, refused, tag_size, written_tag};
use crate::library::{wrong_length, wrong_order, Verdict, FRAME};
use crate::pcmac::taggen;

/// The least bytes of a writing space: it has room for the longest line, however short the line is that is written. The
/// call has the figure for itself, since a fault in the limit of a line that is read is another one.
pub const ROOM: usize = 510;

/// Body and then tag, two characters for each byte, without a line feed. Answers the verdict and how many characters
/// were written; the space behind them is not touched. 10 stands here for 5 and 6, and is judged behind all others.
pub fn write(keys: &KeySet, body: &[u8], space: &mut [u8]) -> (Verdict, u64) {
    let judged = [
        (1, wrong_order(keys)),
        (2, wrong_length(keys)),
        (3, space.len() < ROOM),
        (10, body.is_empty() || body.len() + tag_size(keys) > FRAME),
    ];
    let number = first_refusal(&judged);
    if number != 0 {
        return (refused(number), 0);
    }
    let walk = taggen(keys, body);
    let tag = written_tag(keys, walk.s);
    let frame = [body, &tag].concat();
    let (_, characters) = encode(&frame, space);
    (done(walk), characters)
}
