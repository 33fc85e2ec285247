//! Questions about streams: messages cut anywhere, the limit, and faults at once.

use crate::book::{lowest, tag_of, turned, Book, Data};
use crate::forms::{KeySet, Stream};
use crate::inner::hold;
use crate::library::tag_size;

pub fn ask(book: &mut Book) {
    book.start();
    cuts(book);
    long_cuts(book);
    limit(book);
    well_formed(book);
    sizes(book);
    other_order(book);
    adding_faults_together(book);
    closing_faults_together(book);
}

/// Nothing is kept between lines, so a cut message is a row of questions: each part is given the stream that the one
/// before must have answered.
fn cuts(book: &mut Book) {
    for round in 0..book.pick(10, 300) {
        let keys = if round % 4 == 3 {
            book.some_keys()
        } else {
            random_keys(book, 1 + round % 5)
        };
        let count = match round % 3 {
            0 => 1 + book.random.below(40),
            1 => 16 * (1 + book.random.below(20)),
            _ => 1 + book.random.below(300),
        };
        let message = book.random.bytes(count);
        row(book, &keys, &message);
    }
}

fn random_keys(book: &mut Book, order: usize) -> KeySet {
    let length = 1 + book.random.below(128);
    book.keys(order, length)
}

/// The row of one message. Closing leaves the stream as it stood, so now and then it is closed between two parts.
fn row(book: &mut Book, keys: &KeySet, message: &[u8]) {
    let mut stream = book.start();
    let mut given = 0;
    let stored_step = book.pick(message.len() / 4, 0);
    while given < message.len() {
        let left = message.len() - given;
        let part = match book.random.below(6) {
            0 => 0,
            1 => 1,
            2 => 16.min(left),
            // Up to the end of a block, where the held block is full and must not be absorbed yet.
            3 => (16 - given % 16).min(left),
            _ => (stored_step + book.random.below(50)).min(left),
        };
        stream = book.add(keys, &stream, &Data::of(&message[given..given + part]), Some(0));
        given += part;
        if given > 0 && book.random.chance(8) {
            close_and_check(book, keys, &stream, &message[..given]);
        }
    }
    if book.random.chance(3) {
        stream = book.add(keys, &stream, &Data::of(&[]), Some(0));
    }
    close_and_check(book, keys, &stream, message);
}

/// The tag of the stream is the tag of the whole message in one call.
fn close_and_check(book: &mut Book, keys: &KeySet, stream: &Stream, message: &[u8]) {
    let space = (tag_size(keys), book.random.byte());
    let closed = book.close(keys, stream, space, Some(0));
    book.check(keys, stream, &closed, Some(0));
    if book.dense {
        let bit = book.random.below(usize::from(keys.length));
        book.check(keys, stream, &turned(&closed, bit), Some(7));
    }
    let whole = book.tag(keys, &Data::of(message), space, Some(0));
    hold(closed == whole, || {
        format!("the tag over {} bytes in parts is that in one call", message.len())
    });
}

/// Longer messages by a pattern, in three parts and an empty one.
fn long_cuts(book: &mut Book) {
    for order in 1..=5 {
        let keys = random_keys(book, order);
        let counts = book.pick(vec![1_000], vec![1_000, 5_000, 65_536, 200_000]);
        for count in counts {
            let (first, step) = (book.random.byte(), book.random.byte());
            let mut stream = book.start();
            let [a, b] = [book.random.below(count), book.random.below(count)];
            for (from, to) in [
                (0, a.min(b)),
                (a.min(b), a.max(b)),
                (a.max(b), a.max(b)),
                (a.max(b), count),
            ] {
                let next = first.wrapping_add(step.wrapping_mul(from as u8));
                stream = book.add(&keys, &stream, &Data::Pattern(to - from, next, step), Some(0));
            }
            let closed = book.close(&keys, &stream, (tag_size(&keys), 0), Some(0));
            let whole = book.tag(&keys, &Data::Pattern(count, first, step), (tag_size(&keys), 1), Some(0));
            hold(closed == whole, || {
                format!("the tag over {count} bytes in parts is that in one call")
            });
        }
    }
}

/// A stream n bytes before the limit takes n bytes and no more; one at the limit takes none, and closes.
fn limit(book: &mut Book) {
    for order in book.pick(vec![2], vec![1, 2, 3, 4, 5]) {
        let keys = random_keys(book, order);
        for n in [0, 1, 15, 16, 17, 33, 300, 70_000] {
            let stream = book.stream(keys.order, 1_048_576 - n as u64);
            let fits = Data::Pattern(n, book.random.byte(), 1);
            let full = book.add(&keys, &stream, &fits, Some(0));
            book.close(&keys, &full, (tag_size(&keys), 0xFF), Some(0));
            let longer = Data::Pattern(n + 1, book.random.byte(), 1);
            book.add(&keys, &stream, &longer, Some(5));
            book.add(&keys, &full, &Data::of(&[0]), Some(5));
            book.add(&keys, &full, &Data::of(&[]), Some(0));
        }
    }
    let keys = book.keys(5, 128);
    let start = book.start();
    let full = book.add(&keys, &start, &Data::Pattern(1_048_576, 1, 3), Some(0));
    book.close(&keys, &full, (16, 0), Some(0));
    book.add(&keys, &start, &Data::Pattern(1_048_577, 1, 3), Some(5));
    book.add(&keys, &full, &Data::Pattern(1_048_577, 1, 3), Some(5));
}

/// Well-formed streams with a random chain value: the answer continues the definition from it.
fn well_formed(book: &mut Book) {
    for round in 0..book.pick(16, 600) {
        let keys = book.some_keys();
        let total = match round % 3 {
            0 => book.random.below(1_048_577),
            1 => 16 * book.random.below(40),
            _ => book.random.below(300),
        } as u64;
        let stream = book.stream(keys.order, total);
        let count = book.random.below(100).min(1_048_576 - total as usize);
        let part = Data::Written(book.random.bytes(count));
        let after = book.add(&keys, &stream, &part, Some(0));
        let empty = if after.total == 0 { 6 } else { 0 };
        if book.dense || round % 4 == 0 {
            let closed = book.close(&keys, &after, (tag_size(&keys), 0x80), Some(empty));
            book.check(&keys, &after, &closed, Some(empty));
        }
    }
}

/// Spaces and received tags of other sizes.
fn sizes(book: &mut Book) {
    for length in book.pick(vec![12, 128], vec![1, 8, 12, 63, 64, 65, 120, 127, 128]) {
        let keys = book.keys(1 + length % 5, length);
        let stream = book.stream(keys.order, 77 + length as u64);
        let size = tag_size(&keys);
        for count in [0, size - 1, size + 1, 16, 17, 256 + size, 1_024] {
            if count != size {
                let filler = book.random.byte();
                book.close(&keys, &stream, (count, filler), Some(3));
                book.check(&keys, &stream, &vec![filler; count], Some(3));
            }
        }
    }
}

/// A stream's counts belong to the order: under a key set of another order most streams are not well formed.
fn other_order(book: &mut Book) {
    for from in 1..=5 {
        for to in 1..=5 {
            let keys = book.keys(to, 64);
            if !book.dense && (from + to) % 3 != 0 {
                continue;
            }
            let total = book.random.one_of(&[10, 16, 17, 32, 33, 48, 49, 64, 65, 200, 1_000]);
            let stream = book.stream(from as u8, total);
            book.add(&keys, &stream, &Data::of(b"another order"), None);
            book.close(&keys, &stream, (8, 0), None);
        }
    }
}

/// Every set of the faults 1, 2, 4 and 5 at once.
fn adding_faults_together(book: &mut Book) {
    for round in 0..book.pick(1, 10) {
        for set in 0..16 {
            let has = |fault: u32| set >> fault & 1 == 1;
            let keys = random_keys(book, 1 + round % 5);
            let mut stream = book.stream(keys.order, if has(3) { 1_048_570 } else { 100 });
            if has(2) {
                stream.count += 1;
            }
            let part = if round % 2 == 0 && !has(3) {
                Vec::new()
            } else {
                vec![1; 7]
            };
            let keys = book.with_faults(keys, set);
            let expected = lowest(&[(1, has(0)), (2, has(1)), (4, has(2)), (5, has(3))]);
            book.add(&keys, &stream, &Data::Written(part), Some(expected));
        }
    }
}

/// Every set of the faults 1, 2, 3, 4 and 6, and a wrong tag, at once.
fn closing_faults_together(book: &mut Book) {
    for round in 0..book.pick(1, 6) {
        for set in 0..64 {
            let has = |fault: u32| set >> fault & 1 == 1;
            let keys = random_keys(book, 1 + round % 5);
            let count = if has(4) { 0 } else { 16 };
            let message = book.random.bytes(count);
            let mut stream = crate::library::add(&keys, &Stream::default(), &message).1;
            let tag = if has(4) {
                vec![0; tag_size(&keys)]
            } else {
                tag_of(&keys, &message)
            };
            let tag = if has(5) { turned(&tag, 0) } else { tag };
            let tag = if has(2) { [&tag[..], &[0]].concat() } else { tag };
            if has(3) {
                stream.four += 1;
            }
            let keys = book.with_faults(keys, set);
            let others = lowest(&[(1, has(0)), (2, has(1)), (3, has(2)), (4, has(3)), (6, has(4))]);
            if book.dense || !has(5) {
                book.close(&keys, &stream, (tag.len(), 0x3C), Some(others));
            }
            book.check(
                &keys,
                &stream,
                &tag,
                Some(if others == 0 && has(5) { 7 } else { others }),
            );
        }
    }
}
