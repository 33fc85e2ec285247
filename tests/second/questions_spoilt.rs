//! Streams that are not well formed: every field of a well-formed one spoilt in turn.

use crate::book::{Book, Data};
use crate::forms::{KeySet, Stream};
use crate::library::tag_size;

const HALF: u64 = 1 << 63;

const TOTALS: [u64; 22] = [
    0,
    1,
    2,
    15,
    16,
    17,
    31,
    32,
    33,
    48,
    49,
    96,
    97,
    113,
    4_097,
    65_536,
    1_048_561,
    1_048_575,
    1_048_576,
    1_048_577,
    HALF,
    u64::MAX,
];

/// What the stored book leaves out of these.
const NOT_STORED: [u64; 11] = [2, 31, 48, 49, 96, 97, 113, 4_097, 65_536, 1_048_561, 1_048_575];

pub fn ask(book: &mut Book) {
    for round in 0..book.pick(1, 2) {
        for (i, total) in TOTALS.into_iter().enumerate() {
            if !book.dense && NOT_STORED.contains(&total) {
                continue;
            }
            let order = 1 + (i + 2 * round + book.random.below(2)) % 5;
            let keys = book.keys(order, 1 + (37 * order + total as usize % 1_000) % 128);
            let stream = book.stream(keys.order, total);
            give_unspoilt(book, &keys, &stream);
            for (i, spoilt) in every_spoiling(book, &stream).iter().enumerate() {
                // The stored book gives each to one call, the fresh one to all three.
                for call in [4, 5, 6] {
                    if book.dense || (i as u64 + total) % 3 == call - 4 {
                        give(book, call, &keys, spoilt, Some(4));
                    }
                }
            }
        }
    }
}

/// Beyond the limit a stream is not well formed although everything else is right.
fn give_unspoilt(book: &mut Book, keys: &KeySet, stream: &Stream) {
    let beyond = stream.total > 1_048_576;
    let closing = if beyond { 4 } else { 6 * u8::from(stream.total == 0) };
    book.add(keys, stream, &Data::of(&[]), Some(if beyond { 4 } else { 0 }));
    give(book, 5, keys, stream, Some(closing));
    // The received tag is at random, so it may be the tag or not.
    give(book, 6, keys, stream, Some(closing).filter(|number| *number != 0));
}

fn give(book: &mut Book, call: u64, keys: &KeySet, stream: &Stream, expected: Option<u8>) {
    let filler = book.random.byte();
    let size = tag_size(keys);
    match call {
        4 => {
            let count = book.random.one_of(&[0, 1, 16, 17]);
            let part = Data::Written(book.random.bytes(count));
            book.add(keys, stream, &part, expected);
        }
        5 => {
            book.close(keys, stream, (size, filler), expected);
        }
        _ => book.check(keys, stream, &vec![filler; size], expected),
    }
}

/// A copy of the stream with one change.
fn changed(stream: &Stream, change: impl FnOnce(&mut Stream)) -> Stream {
    let mut copy = stream.clone();
    change(&mut copy);
    copy
}

/// All spoilt copies: total, chain value, held count, each unused held byte, both counts.
fn every_spoiling(book: &mut Book, stream: &Stream) -> Vec<Stream> {
    // Sixteen more bytes would keep the held count, so the counts must show it.
    let totals = near_and_far(stream.total).chain([stream.total.wrapping_add(16)]);
    let mut spoilt: Vec<Stream> = totals.map(|total| changed(stream, |copy| copy.total = total)).collect();
    if stream.total <= 16 {
        for place in (0..16).step_by(book.pick(5, 1)) {
            let chain = u128::from(book.random.byte() | 1) << (8 * place);
            spoilt.push(changed(stream, |copy| copy.chain = chain));
        }
    }
    for count in near_and_far(stream.count).chain([0, 16, 17]) {
        if count != stream.count {
            spoilt.push(changed(stream, |copy| copy.count = count));
        }
    }
    for place in stream.count.min(16)..16 {
        let unused = u128::from(book.random.byte() | 1) << (120 - 8 * place);
        spoilt.push(changed(stream, |copy| copy.held |= unused));
    }
    spoilt.extend(near_and_far(stream.whole).map(|whole| changed(stream, |copy| copy.whole = whole)));
    spoilt.extend(near_and_far(stream.four).map(|four| changed(stream, |copy| copy.four = four)));
    // The sum of the counts is right, but not each of them.
    let (whole, four) = (stream.whole.wrapping_add(1), stream.four.wrapping_sub(1));
    spoilt.push(changed(stream, |copy| (copy.whole, copy.four) = (whole, four)));
    spoilt
}

/// Numbers beside this one, numbers whose low bytes are the same, and the largest; never the number itself.
fn near_and_far(number: u64) -> impl Iterator<Item = u64> {
    let near = [
        number.wrapping_add(1),
        number.wrapping_sub(1),
        number ^ (1 << 32),
        number ^ (1 << 63),
        u64::MAX,
    ];
    near.into_iter().filter(move |other| *other != number)
}
