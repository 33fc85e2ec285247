//! Questions about writing a body as a frame line, and lines that are nearly such questions.
//!
//! What a question is made for is said without the code that answers: by the outline's figures, written out here.

use crate::book::{frame_of, lowest, space_in_question, Book, Data, Space};
use crate::forms::KeySet;
use crate::hex;
use crate::probe::LINE;
use crate::questions_lines::spoil;
use crate::spare::all_set;

pub fn ask(book: &mut Book) {
    orders_and_lengths(book);
    every_tag_length(book);
    every_body(book);
    edges(book);
    far_too_long(book);
    spaces(book);
    refused_key_sets(book);
    refused_pairs(book);
    faults_together(book);
    made_up_key_sets(book);
    random_bodies(book);
    no_questions(book);
    beyond_limits(book);
    // A book ends with a question: an empty line would be no line without its line feed.
    there_and_back(book);
    back_and_there(book);
}

/// Bytes to fill a space with, so that it shows what was touched: no digit, zero, a digit, and one that no line has.
const FILLERS: [u8; 4] = [0xA5, 0x00, 0x30, 0xFF];

/// The longest body that fits a frame with a tag of so many bits.
fn longest(length: usize) -> usize {
    255 - length.div_ceil(8)
}

/// A space that is large enough, often just so.
fn large_enough(book: &mut Book) -> Space {
    let size = book.random.one_of(&[510, 510, 510, 511, 512, 520, 700, 1_024]);
    (size, book.random.one_of(&FILLERS))
}

/// A body that is done.
fn done(book: &mut Book, keys: &KeySet, count: usize) {
    let (body, space) = (book.message(count), large_enough(book));
    book.write(keys, &body, space, 0);
}

/// Orders 1 to 5 with tag lengths around whole bytes, and bodies around full blocks. Up to 48 bytes the order makes no
/// difference; so the stored book has for each pair one body up to there, the next of the list, and one beyond.
fn orders_and_lengths(book: &mut Book) {
    let (alike, other) = ([1, 15, 16, 17, 31, 32, 33, 48], [49, 100]);
    for order in 1..=5 {
        for (i, length) in [1, 7, 8, 9, 60, 64, 127, 128].into_iter().enumerate() {
            let keys = book.keys(order, length);
            let next = alike[(i + order) % alike.len()];
            let two = vec![next, other[(i + order) % other.len()]];
            for count in book.pick(two, [&alike[..], &other].concat()) {
                done(book, &keys, count);
            }
        }
    }
}

/// Every order with every tag length; in the stored book some lengths, at one order after the other.
fn every_tag_length(book: &mut Book) {
    let all = book.dense;
    for length in (1..=128).filter(|length| all || length % 9 == 5) {
        for order in book.pick(vec![1 + length % 5], vec![1, 2, 3, 4, 5]) {
            let keys = book.keys(order, length);
            let count = 1 + book.random.below(longest(length));
            done(book, &keys, count);
        }
    }
}

/// Bodies of every size that fits; in the stored book some of them.
fn every_body(book: &mut Book) {
    for length in book.pick(vec![60], vec![8, 60, 128]) {
        let order = 1 + book.random.below(5);
        let keys = book.keys(order, length);
        let all = book.dense;
        for count in (1..=longest(length)).filter(|count| all || count % 48 == 1) {
            done(book, &keys, count);
        }
    }
}

/// The longest body that fits, and one byte less; then one byte more, the size of a frame and one more, and no bytes,
/// written and by a pattern.
fn edges(book: &mut Book) {
    let fresh = [1, 7, 8, 9, 16, 17, 60, 64, 65, 100, 120, 121, 127, 128];
    for length in book.pick(vec![1, 8, 60, 128], fresh.to_vec()) {
        let order = 1 + book.random.below(5);
        let keys = book.keys(order, length);
        let most = longest(length);
        for count in [most - 1, most] {
            done(book, &keys, count);
        }
        for count in [most + 1, 255, 256, 0] {
            let (body, space) = (book.message(count), large_enough(book));
            book.write(&keys, &body, space, 10);
        }
        let space = large_enough(book);
        book.write(&keys, &Data::Pattern(0, 0xC3, 0x05), space, 10);
    }
}

/// Bodies beyond any frame, up to the most that a question can give. Of some the lower byte, or the lower two, would be
/// a size that fits; the last two are around the longest message, and one beyond it gives 10 here, not 5.
fn far_too_long(book: &mut Book) {
    for count in [
        257, 272, 300, 511, 512, 4_096, 65_536, 65_537, 70_000, 1_048_576, 1_048_577,
    ] {
        for length in book.pick(vec![64], vec![1, 64, 128]) {
            let order = 1 + book.random.below(5);
            let keys = book.keys(order, length);
            let body = Data::Pattern(count, book.random.byte(), book.random.byte());
            let space = large_enough(book);
            book.write(&keys, &body, space, 10);
        }
    }
}

/// Spaces of sizes around 510 and at the edges of other calls: with a short line, with the longest, and with one that
/// just fills the space where it has not room for every line. Whatever fits, 510 bytes are wanted.
fn spaces(book: &mut Book) {
    let sizes = [0, 1, 2, 254, 255, 256].into_iter().chain(500..=520);
    for (i, size) in sizes.chain([1_023, 1_024usize]).enumerate() {
        let length = book.random.one_of(&[1, 8, 60, 64, 128]);
        let order = 1 + book.random.below(5);
        let keys = book.keys(order, length);
        let most = longest(length);
        let fills = (size / 2).saturating_sub(255 - most).clamp(1, most);
        let short = 1 + book.random.below(20);
        let two = vec![short, [fills, most][i % 2]];
        let next = FILLERS[i % FILLERS.len()];
        for filler in book.pick(vec![next], FILLERS.to_vec()) {
            for count in book.pick(two.clone(), vec![1, short, fills, most]) {
                let body = book.message(count);
                book.write(&keys, &body, (size, filler), if size < 510 { 3 } else { 0 });
            }
        }
    }
}

/// Orders and tag lengths that no key set may have, alone and together: with all else right, then with too small a
/// space, with a body that is refused, and with both. In the stored book each has one of these other faults, in turn.
fn refused_key_sets(book: &mut Book) {
    let alone = [
        (0, 64, 1),
        (6, 64, 1),
        (255, 128, 1),
        (1, 0, 2),
        (3, 129, 2),
        (5, 255, 2),
    ];
    let together = [(0, 0, 1), (6, 129, 1), (255, 255, 1), (0, 129, 1), (6, 0, 1)];
    let others = [(20, 509), (0, 510), (300, 510), (0, 0), (300, 509)];
    for (i, (order, length, number)) in alone.into_iter().chain(together).enumerate() {
        let keys = book.keys(1 + i % 5, 64);
        let keys = KeySet { order, length, ..keys };
        let in_turn = others[i % others.len()];
        for (count, size) in book.pick(
            vec![(20, 510), in_turn],
            [&[(20, 510), (247, 1_024)], &others[..]].concat(),
        ) {
            let (body, filler) = (book.message(count), book.random.one_of(&FILLERS));
            book.write(&keys, &body, (size, filler), number);
        }
    }
}

/// Made-up key sets of every order from 0 to 6 and length from 0 to 129 outside the range; in the stored book some of
/// them.
fn refused_pairs(book: &mut Book) {
    for order in 0..=6 {
        for length in (0..=129).step_by(book.pick(43, 1)) {
            let number = match (order, length) {
                (0 | 6, _) => 1,
                (_, 0 | 129) => 2,
                _ => continue,
            };
            let keys = book.made_up(order, length);
            let space = large_enough(book);
            book.write(&keys, &Data::of(b"a body"), space, number);
        }
    }
}

/// Every set of the faults 1, 2, 3 and 10 at once, with 10 by no bytes and by too many.
fn faults_together(book: &mut Book) {
    for round in 0..book.pick(2, 20) {
        for set in 0..16 {
            let has = |fault: u32| set >> fault & 1 == 1;
            let length = 1 + book.random.below(128);
            let keys = book.keys(1 + round % 5, length);
            let too_many = book.random.one_of(&[longest(length) + 1, 255, 256, 300]);
            let refused = [0, too_many][round % 2];
            let count = if has(3) { refused } else { 1 + 11 * round };
            let small = book.random.one_of(&[0, 1, 254, 255, 508, 509]);
            let space = (if has(2) { small } else { 510 }, book.random.one_of(&FILLERS));
            let keys = book.with_faults(keys, set);
            let expected = lowest(&[(1, has(0)), (2, has(1)), (3, has(2)), (10, has(3))]);
            let body = book.message(count);
            book.write(&keys, &body, space, expected);
        }
    }
}

/// Round keys, subkeys and masks that come from no K and L are not judged: the line follows from them.
fn made_up_key_sets(book: &mut Book) {
    for round in 0..book.pick(20, 300) {
        let length = 1 + book.random.below(128);
        let keys = book.made_up(1 + round as u8 % 5, length as u8);
        let count = 1 + book.random.below(longest(length));
        done(book, &keys, count);
    }
}

/// Any body up to a little beyond the longest, in any space.
fn random_bodies(book: &mut Book) {
    for _ in 0..book.pick(15, 300) {
        let keys = book.some_keys();
        let most = longest(keys.length.into());
        let count = book.random.below(most + 20);
        let any = book.random.below(1_025);
        let size = if book.random.chance(4) { any } else { 505 + any / 64 };
        let body = Data::Written(book.random.bytes(count));
        let expected = lowest(&[(3, size < 510), (10, count == 0 || count > most)]);
        let filler = book.random.byte();
        book.write(&keys, &body, (size, filler), expected);
    }
}

/// A question in bytes, to be spoilt or to be none.
fn question(keys: &KeySet, body: &Data, space: Space) -> Vec<u8> {
    [vec![15], keys.to_bytes(), body.in_question(), space_in_question(space)].concat()
}

/// Questions cut short and with a byte behind, a call in lower case, characters that are no digits, and unknown forms
/// of the body.
fn no_questions(book: &mut Book) {
    let keys = book.keys(2, 64);
    let right = question(&keys, &Data::of(b"bytes"), (510, 1));
    spoil(book, &right);
    spoil(book, &question(&keys, &Data::Pattern(9, 1, 1), (510, 1)));
    let line = hex::written(&right);
    for line in [
        line.replacen('F', "f", 1),
        line.clone() + "\r",
        line.clone() + " 0",
        " ".to_string() + &line,
        line[1..].to_string(),
    ] {
        book.nonsense(line.as_bytes());
    }
    // But for the form, the zeros are fields: five of them as after 00, nine as after 01.
    for form in [2, 3, 16, 128, 255] {
        let start = [vec![15], keys.to_bytes(), vec![form]].concat();
        book.nonsense(hex::written(&[&start, &[0; 5][..]].concat()).as_bytes());
        book.nonsense(hex::written(&[&start, &[0; 9][..]].concat()).as_bytes());
    }
}

/// A length or a size beyond its limit, by one and by far; all else is right. The longest line is read.
fn beyond_limits(book: &mut Book) {
    let keys = book.keys(4, 100);
    for count in [1_048_578, 0x0100_0000, 0x8000_0000, 0xFFFF_FFFF] {
        book.nonsense(hex::written(&question(&keys, &Data::Pattern(count, 0, 0), (510, 0))).as_bytes());
    }
    for size in [1_025, 1_026, 2_048, 65_535] {
        book.nonsense(hex::written(&question(&keys, &Data::of(b"x"), (size, 0))).as_bytes());
    }
    if book.dense {
        let longest = book.random.bytes(LINE / 2 - 521);
        book.write(&keys, &Data::of(&longest), (510, 0xA5), 10);
        let longer = Data::Written([&longest[..], &[0]].concat());
        book.nonsense(hex::written(&question(&keys, &longer, (510, 0xA5))).as_bytes());
    }
}

/// What the writer writes is a line: it decodes to a frame that is accepted, and opening that hands back the body.
fn there_and_back(book: &mut Book) {
    for _ in 0..book.pick(6, 60) {
        let keys = book.some_keys();
        let length = usize::from(keys.length);
        let count = 1 + book.random.below(longest(length));
        let body = Data::Written(book.random.bytes(count));
        let space = large_enough(book);
        let frame_bytes = count + length.div_ceil(8);
        let written = book.write(&keys, &body, space, 0);
        let decoded = book.decode(&written[..2 * frame_bytes], (255, space.1), 0);
        let frame = Data::of(&decoded[..frame_bytes]);
        book.judge(&keys, &frame, Some(0));
        book.open(11, &keys, &frame, &Data::of(&[]), Some(true));
    }
}

/// A frame is accepted, and its body is written: that gives the frame's line, whatever the tag length. With its spare
/// bits set the frame is refused, so it is no second frame of that body.
fn back_and_there(book: &mut Book) {
    for length in book.pick(vec![8, 57, 60, 127, 128], (1..=128).collect()) {
        let keys = book.keys(1 + length % 5, length);
        let count = 1 + book.random.below(longest(length));
        let body = book.random.bytes(count);
        let frame = frame_of(&keys, &body);
        book.judge(&keys, &Data::of(&frame), Some(0));
        if length % 8 != 0 {
            book.judge(&keys, &Data::of(&all_set(keys.length, &frame)), Some(7));
        }
        let space = large_enough(book);
        book.write(&keys, &Data::Written(body), space, 0);
    }
}
