//! Questions about frames: judging and the three opening calls, and key sets that every call refuses.

use crate::book::{frame_of, turned, Book, Data};
use crate::forms::{KeySet, Stream};
use crate::library::tag_size;
use crate::made::TABLE;

pub fn ask(book: &mut Book) {
    every_bit(book);
    sizes(book);
    bodies(book);
    tables(book);
    faults_together(book);
    refused_pairs(book);
}

/// The four calls that take a frame, all of them or one.
fn give(book: &mut Book, keys: &KeySet, frame: &Data, expected: Option<u8>, all: bool) {
    let accepted = expected.map(|number| number == 0);
    let one = 10 + book.random.below(4) as u8;
    for call in (10..=13).filter(|call| all || *call == one) {
        match call {
            10 => book.judge(keys, frame, expected),
            _ => book.open(call, keys, frame, &Data::of(TABLE), accepted),
        }
    }
}

/// Every bit of a frame turned in turn. One of the tag, stated or spare, is noticed at every length; one of the body
/// may leave a short tag as it is.
fn every_bit(book: &mut Book) {
    let stored = [(2, 60, 5), (5, 12, 7)];
    let fresh = [
        (1, 128, 33),
        (3, 32, 100),
        (4, 5, 3),
        (2, 121, 17),
        (1, 1, 5),
        (5, 100, 112),
    ];
    for (order, length, count) in stored.into_iter().chain(fresh).take(book.pick(2, 8)) {
        let keys = book.keys(order, length);
        let body = book.random.bytes(count);
        let frame = frame_of(&keys, &body);
        give(book, &keys, &Data::of(&frame), Some(0), true);
        for bit in 0..8 * frame.len() {
            let certain = bit >= 8 * count || length >= 64;
            let expected = certain.then_some(7);
            give(book, &keys, &Data::of(&turned(&frame, bit)), expected, false);
        }
    }
}

/// Frames of 0 and 1 bytes, of the tag's size and one more, and around 255 bytes.
fn sizes(book: &mut Book) {
    for length in book.pick(vec![8, 100], vec![1, 8, 9, 60, 64, 72, 127, 128]) {
        let order = 1 + book.random.below(5);
        let keys = book.keys(order, length);
        let size = tag_size(&keys);
        let near_the_tag = (0..=1).chain(size - 1..=size + 1).chain(size + 16..=size + 17);
        for count in near_the_tag.chain(253..=257).chain([300, 512 + size]) {
            let body = book.random.bytes(count.saturating_sub(size));
            let mut frame = book.random.bytes(count);
            if !body.is_empty() {
                frame = frame_of(&keys, &body);
            }
            let expected = if count <= size || count > 255 { 8 } else { 0 };
            let all = book.dense || count > 252;
            give(book, &keys, &Data::of(&frame), Some(expected), all);
        }
        let all = book.dense;
        give(book, &keys, &Data::Pattern(1_048_577, 1, 1), Some(8), all);
        give(book, &keys, &Data::Pattern(65_536 + 255, 1, 1), Some(8), all);
    }
}

/// Bodies of every size that fits, right and with one bit turned.
fn bodies(book: &mut Book) {
    for length in book.pick(vec![48], vec![1, 40, 64, 128]) {
        let order = 1 + book.random.below(5);
        let keys = book.keys(order, length);
        let largest = 255 - tag_size(&keys);
        let sparse = !book.dense;
        for count in (1..=largest).filter(|count| !sparse || count % 16 < 2) {
            let body = book.random.bytes(count);
            let frame = frame_of(&keys, &body);
            give(book, &keys, &Data::of(&frame), Some(0), false);
            let bit = 8 * count + book.random.below(length);
            give(book, &keys, &Data::of(&turned(&frame, bit)), Some(7), false);
        }
    }
}

/// Tables of no bytes, of one, of many; a table that is the frame itself.
fn tables(book: &mut Book) {
    for _ in 0..book.pick(2, 25) {
        let keys = book.some_keys();
        let count = 1 + book.random.below(255 - tag_size(&keys));
        let body = book.random.bytes(count);
        let right = frame_of(&keys, &body);
        let wrong = turned(&right, 8 * count);
        let long = book.random.bytes(1_000);
        let tables = [
            Data::of(&[]),
            Data::of(&[0]),
            Data::Written(long),
            Data::of(&right),
            Data::of(&body),
        ];
        for table in tables {
            for (frame, accepted) in [(&right, true), (&wrong, false)] {
                let call = 12 + book.random.below(2) as u8;
                book.open(call, &keys, &Data::of(frame), &table, Some(accepted));
            }
        }
        book.open(12, &keys, &Data::of(&wrong), &Data::Pattern(4_096, 3, 5), Some(false));
        book.open(13, &keys, &Data::of(&wrong), &Data::Pattern(4_096, 3, 5), Some(false));
    }
}

/// Every set of the faults 1, 2, 8 and 7 at once, with 8 by too few bytes and by too many.
fn faults_together(book: &mut Book) {
    for round in 0..book.pick(2, 12) {
        for set in 0..16 {
            let has = |fault: u32| set >> fault & 1 == 1;
            let length = 1 + book.random.below(128);
            let keys = book.keys(1 + round % 5, length);
            let body = book.random.bytes(30);
            let mut frame = frame_of(&keys, &body);
            if has(3) {
                frame = turned(&frame, 8 * body.len());
            }
            if has(2) {
                frame.resize([tag_size(&keys), 256][round % 2], 0x11);
            }
            let keys = book.with_faults(keys, set);
            let judged = [(1, has(0)), (2, has(1)), (8, has(2)), (7, has(3))];
            let expected = judged.iter().find(|fault| fault.1).map_or(0, |fault| fault.0);
            let all = book.dense;
            give(book, &keys, &Data::of(&frame), Some(expected), all);
        }
    }
}

/// The calls that take a key set.
const CALLS_WITH_KEYS: [u8; 9] = [4, 5, 6, 7, 8, 10, 11, 12, 13];

/// Made-up key sets of orders 0 to 6 and lengths 0 to 129 outside the range, given to every call that takes one; in the
/// stored book to one call after the other, at fewer lengths.
fn refused_pairs(book: &mut Book) {
    let mut next = 0;
    for order in 0..=6 {
        for length in 0..=129 {
            let expected = match (order, length) {
                (0 | 6, _) => 1,
                (_, 0 | 129) => 2,
                _ => continue,
            };
            if !book.dense && length % 12 > 1 {
                continue;
            }
            let keys = book.made_up(order, length);
            next = (next + 1) % CALLS_WITH_KEYS.len();
            let calls = book.pick(&CALLS_WITH_KEYS[next..=next], &CALLS_WITH_KEYS[..]);
            for call in calls {
                give_any(book, *call, &keys, expected);
            }
        }
    }
}

/// One call under a key set that is refused; a message or a part is asked short, and at more than 2(d+1) blocks.
fn give_any(book: &mut Book, call: u8, keys: &KeySet, expected: u8) {
    let stream = Stream {
        total: 3,
        held: 0x414243 << 104,
        count: 3,
        ..Stream::default()
    };
    let size = tag_size(keys);
    let short = Data::of(b"a frame of thirty-two bytes, say");
    let both = [&short, &Data::Pattern(300, 5, 7)];
    match call {
        4 => both.into_iter().for_each(|part| {
            book.add(keys, &stream, part, Some(expected));
        }),
        5 => {
            book.close(keys, &stream, (size, 0x99), Some(expected));
        }
        6 => book.check(keys, &stream, &vec![0; size], Some(expected)),
        7 => both.into_iter().for_each(|message| {
            book.tag(keys, message, (size, 0x99), Some(expected));
        }),
        8 => both
            .into_iter()
            .for_each(|message| book.verify(keys, message, &Data::of(&vec![0; size]), Some(expected))),
        10 => book.judge(keys, &short, Some(expected)),
        _ => book.open(call, keys, &short, &Data::of(TABLE), Some(false)),
    }
}
