//! Questions about writing bytes as a line, and lines that are nearly such questions.

use crate::book::{space_in_question, Book, Data, Space};
use crate::hex;
use crate::inner::hold;
use crate::probe::{LINE, SPACE};
use crate::questions_lines::{digits, spoil};

pub fn ask(book: &mut Book) {
    every_byte(book);
    edges(book);
    every_number(book);
    no_bytes(book);
    far_too_many(book);
    random_bytes(book);
    no_questions(book);
    beyond_limits(book);
    // A book ends with a question: an empty line would be no line without its line feed.
    there_and_back(book);
    back_and_there(book);
}

/// A byte to fill a space with: zero, a digit of either case, or one that no line has.
fn filler(book: &mut Book) -> u8 {
    book.random.one_of(&[0x00, 0x30, 0x46, 0x66, 0xA5, 0xFF])
}

/// A space has room for half as many bytes as it has places, rounded down.
fn number(count: usize, size: usize) -> u8 {
    if count > size / 2 {
        3
    } else {
        0
    }
}

/// Each of the 256 bytes: in rows of sixteen and all in one; in the fresh book alone, and before and behind another.
fn every_byte(book: &mut Book) {
    for row in 0..16u8 {
        let bytes: Vec<u8> = (0..16).map(|low| 16 * row + low).collect();
        let filler = filler(book);
        book.encode(&Data::of(&bytes), (32, filler), 0);
    }
    book.encode(&Data::Pattern(256, 0x00, 0x01), (512, 0x11), 0);
    book.encode(&Data::Pattern(256, 0xFF, 0xFF), (513, 0x11), 0);
    for byte in book.pick(Vec::new(), (0..=255).collect::<Vec<u8>>()) {
        let (filler, other) = (filler(book), book.random.byte());
        for bytes in [&[byte][..], &[byte, other], &[other, byte]] {
            book.encode(&Data::of(bytes), (2 * bytes.len(), filler), 0);
        }
    }
}

/// Numbers of bytes at the edges of a byte, of a frame, of a line and of the largest space, in spaces that just hold
/// the characters, that just do not, and of sizes that are edges elsewhere.
fn edges(book: &mut Book) {
    let stored = vec![1, 2, 127, 128, 254, 255, 256, 511, 512, 513];
    let fresh = [
        1, 2, 3, 15, 16, 17, 63, 64, 126, 127, 128, 129, 253, 254, 255, 256, 257, 510, 511, 512, 513, 514,
    ];
    for count in book.pick(stored, fresh.to_vec()) {
        let near = (2 * count - 1..=2 * count + 1).filter(|size| *size <= SPACE);
        for size in near.chain([0, 1, 254, 255, 256, 509, 510, 511, 1_024]) {
            let bytes = book.message(count);
            let filler = filler(book);
            book.encode(&bytes, (size, filler), number(count, size));
        }
    }
}

/// Every number of bytes that any space has room for, in a space that just holds the characters.
fn every_number(book: &mut Book) {
    for count in (0..=512).step_by(book.pick(73, 1)) {
        let bytes = book.message(count);
        let filler = filler(book);
        book.encode(&bytes, (2 * count, filler), 0);
    }
}

/// No bytes, written or by a pattern, are done in any space, one of no places too.
fn no_bytes(book: &mut Book) {
    for size in [0, 1, 2, 255, 1_024] {
        let filler = filler(book);
        book.encode(&Data::of(&[]), (size, filler), 0);
        book.encode(&Data::Pattern(0, 0xC3, 0x05), (size, filler), 0);
    }
}

/// More bytes than any space has room for, up to the most that a question can give. For some, 32,768 among them, the
/// number of characters is 0 or small in its lower two bytes.
fn far_too_many(book: &mut Book) {
    for count in [
        514, 1_024, 4_096, 32_767, 32_768, 32_769, 65_535, 65_536, 65_537, 524_288, 1_048_576, 1_048_577,
    ] {
        for size in book.pick(vec![0, 1_024], vec![0, 1, 2, 255, 510, 1_024]) {
            let bytes = Data::Pattern(count, book.random.byte(), book.random.byte());
            let filler = filler(book);
            book.encode(&bytes, (size, filler), 3);
        }
    }
}

/// Half of the spaces are near the size that is wanted, the others have any.
fn random_bytes(book: &mut Book) {
    for _ in 0..book.pick(20, 250) {
        let count = book.random.below(520);
        let near = (2 * count + book.random.below(5)).saturating_sub(2);
        let any = book.random.below(SPACE + 1);
        let size = if book.random.chance(2) { near.min(SPACE) } else { any };
        let space = (size, book.random.byte());
        let bytes = Data::Written(book.random.bytes(count));
        book.encode(&bytes, space, number(count, size));
    }
}

/// A question in bytes, to be spoilt or to be none.
fn question(bytes: &Data, space: Space) -> Vec<u8> {
    [vec![14], bytes.in_question(), space_in_question(space)].concat()
}

/// Questions cut short and with a byte behind, characters that are no digits, and unknown forms of the bytes field.
fn no_questions(book: &mut Book) {
    spoil(book, &question(&Data::of(b"bytes"), (12, 1)));
    spoil(book, &question(&Data::Pattern(3, 1, 1), (12, 1)));
    // This one is a question, 0E00000130000230; those behind it are not.
    book.encode(&Data::of(b"0"), (2, 0x30), 0);
    for line in [
        "0e00000130000230",
        "0E0000013000023f",
        "0E00000130000230\r",
        "0E00000130000230 ",
        " 0E00000130000230",
        "E00000130000230",
    ] {
        book.nonsense(line.as_bytes());
    }
    // But for the form, the zeros are fields: five of them as after 00, nine as after 01.
    for form in [2, 3, 16, 128, 255] {
        book.nonsense(hex::written(&[&[14, form], &[0; 5][..]].concat()).as_bytes());
        book.nonsense(hex::written(&[&[14, form], &[0; 9][..]].concat()).as_bytes());
    }
}

/// A length or a size beyond its limit, by one and by far; all else is right. The longest line is read.
fn beyond_limits(book: &mut Book) {
    for count in [1_048_578, 1_048_579, 0x0100_0000, 0x8000_0000, 0xFFFF_FFFF] {
        book.nonsense(hex::written(&question(&Data::Pattern(count, 0, 0), (0, 0))).as_bytes());
    }
    for size in [1_025, 1_026, 2_048, 65_535] {
        book.nonsense(hex::written(&question(&Data::of(b"x"), (size, 0))).as_bytes());
    }
    if book.dense {
        let longest = book.random.bytes(LINE / 2 - 7);
        book.encode(&Data::of(&longest), (1_024, 0xA5), 3);
        let longer = Data::Written([&longest[..], &[0]].concat());
        book.nonsense(hex::written(&question(&longer, (1_024, 0xA5))).as_bytes());
    }
}

/// What encoding writes is a line, and decoding it gives the bytes back, where it has not over 510 characters.
fn there_and_back(book: &mut Book) {
    let edges = [0, 1, 2, 127, 128, 254, 255, 256, 512];
    for round in 0..book.pick(12, 120) {
        let any = book.random.below(256);
        let count = edges.get(round).copied().unwrap_or(any);
        let bytes = book.random.bytes(count);
        let size = (2 * count + book.random.below(20)).min(SPACE);
        let filler = filler(book);
        let space = book.encode(&Data::of(&bytes), (size, filler), 0);
        let larger = 255 + book.random.below(20);
        let decoded = book.decode(&space[..2 * count], (larger, filler), if count > 255 { 8 } else { 0 });
        let back = if count > 255 { &[] } else { &bytes[..] };
        let untouched = vec![filler; larger - back.len()];
        let line = book.count;
        hold(decoded == [back, &untouched].concat(), || {
            format!("line {line} gives the bytes back that the line before it encodes")
        });
    }
}

/// A line is decoded, and encoding what was written gives the line back.
fn back_and_there(book: &mut Book) {
    for _ in 0..book.pick(6, 60) {
        let count = book.random.below(256);
        let line = digits(book, 2 * count);
        let filler = filler(book);
        let bytes = book.decode(&line, (255, filler), 0);
        let encoded = book.encode(&Data::of(&bytes[..count]), (510, filler), 0);
        let number = book.count;
        hold(encoded.starts_with(&line), || {
            format!("line {number} gives the line back that the line before it decodes")
        });
    }
}
