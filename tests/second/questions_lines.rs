//! Questions about decoding a line, and lines that are no question.

use crate::book::{lowest, space_in_question, Book, Data};
use crate::hex;
use crate::probe::{answer, CALLS, LINE};
use crate::questions_keys::OTHERS;

pub fn ask(book: &mut Book) {
    every_character(book);
    lengths(book);
    spaces(book);
    faults_together(book);
    random_lines(book);
    nonsense(book);
    cut_short(book);
    beyond_limits(book);
    long_lines(book);
}

pub fn digits(book: &mut Book, count: usize) -> Vec<u8> {
    (0..count).map(|_| book.random.one_of(b"0123456789ABCDEF")).collect()
}

/// Each of the 256 bytes as a character, at either place of a pair.
fn every_character(book: &mut Book) {
    for character in 0..=255u8 {
        let expected = if b"0123456789ABCDEF".contains(&character) { 0 } else { 9 };
        for place in 0..book.pick(1, 6) {
            let mut line = digits(book, 6);
            let place = if book.dense { place } else { usize::from(character) % 6 };
            line[place] = character;
            book.decode(&line, (255, 0xA5), expected);
        }
    }
}

/// 0 to 3 characters, around 510 and far beyond, of digits and with another character at the end or the start.
fn lengths(book: &mut Book) {
    for count in (0..4).chain(506..=514).chain([1_020, 1_024, 2_000]) {
        let line = digits(book, count);
        let expected = lowest(&[(8, count > 510), (9, count % 2 == 1)]);
        let space = (book.random.one_of(&[255, 256, 257, 1_024]), book.random.byte());
        book.decode(&line, space, expected);
        for place in [0, count.saturating_sub(1)].into_iter().filter(|_| count > 0) {
            let mut line = line.clone();
            line[place] = book.random.one_of(&OTHERS);
            book.decode(&line, space, lowest(&[(8, count > 510), (9, true)]));
        }
    }
    for count in [510, 511, 512, 65_536, 65_538, 1_048_576, 1_048_577] {
        let fields = [Data::Pattern(count, b'A', 0).in_question(), space_in_question((255, 1))];
        book.ask(9, &fields, Some(if count > 510 { 8 } else { 0 }));
    }
}

/// Spaces around 255 bytes with various fillers: what lies behind the bytes written stays as it was.
fn spaces(book: &mut Book) {
    for size in [0, 1, 2, 128, 253, 254, 255, 256, 257, 511, 512, 1_023, 1_024] {
        for filler in book.pick(vec![0x00, 0xC7], vec![0x00, 0x30, 0x5A, 0xC7, 0xFF]) {
            let pairs = book.random.one_of(&[0, 1, 2, 16, 127, 254, 255]);
            let line = digits(book, 2 * pairs);
            book.decode(&line, (size, filler), if size < 255 { 3 } else { 0 });
        }
    }
    book.decode(b"", (255, 0x77), 0);
    book.decode(b"", (254, 0x77), 3);
}

/// Every set of the faults 3, 8 and 9 at once, 9 by an odd number and by another character.
fn faults_together(book: &mut Book) {
    for round in 0..book.pick(2, 20) {
        for set in 0..8 {
            let has = |fault: u32| set >> fault & 1 == 1;
            let mut line = digits(book, if has(1) { 512 } else { 8 });
            if has(2) && round % 2 == 0 {
                line.pop();
            } else if has(2) {
                line[3] = book.random.one_of(&OTHERS);
            }
            if has(1) {
                line.extend_from_slice(b"00");
            }
            let space = (if has(0) { book.random.below(255) } else { 255 }, book.random.byte());
            book.decode(&line, space, lowest(&[(3, has(0)), (8, has(1)), (9, has(2))]));
        }
    }
}

fn random_lines(book: &mut Book) {
    for _ in 0..book.pick(10, 600) {
        let count = book.random.below(530);
        let mut line = digits(book, count);
        let other = count > 0 && book.random.chance(4);
        if other {
            let place = book.random.below(count);
            line[place] = book.random.one_of(&OTHERS);
        }
        let expected = lowest(&[(8, count > 510), (9, other || count % 2 == 1)]);
        let space = (255 + book.random.below(20), book.random.byte());
        book.decode(&line, space, expected);
    }
}

/// No pairs of digits, no such call, bytes behind the last field, an unknown form of a bytes field.
fn nonsense(book: &mut Book) {
    for line in [
        "", "?", "0", "3", "03\r", "\r", "03 ", " 03", "0x03", "03,", "+3", "003", "0300", "03FF", "o3", "0B",
    ] {
        book.nonsense(line.as_bytes());
    }
    let step = book.pick(16, 1);
    let calls = 1..CALLS.len() as u8;
    for call in (0..=255u8).filter(|call| (call % step < 2) && !calls.contains(call)) {
        book.nonsense(hex::written(&[call]).as_bytes());
        book.nonsense(hex::written(&[&[call], &[0; 40][..]].concat()).as_bytes());
    }
    for line in [
        "09000004303132330001a5",
        "09000004303132330001A5\r",
        "09000004303132330001A500",
        "0900000430313233",
    ] {
        book.nonsense(line.as_bytes());
    }
    for form in [2, 3, 16, 128, 255] {
        book.nonsense(hex::written(&[&[9, form][..], &[0; 9]].concat()).as_bytes());
        book.nonsense(hex::written(&[&[2, form], &[0; 9][..]].concat()).as_bytes());
    }
    for other in (0..=255u8).filter(|byte| *byte != b'\n' && !b"0123456789ABCDEF".contains(byte)) {
        for place in book.pick(vec![1], vec![0, 1, 9, 21]) {
            let mut line = b"09000004303132330001A5".to_vec();
            line[place] = other;
            book.nonsense(&line);
        }
    }
}

/// A question of each call is spoilt; those of encoding and of the writer stand behind all others, with the rest of
/// their questions.
fn cut_short(book: &mut Book) {
    let keys = book.keys(2, 64);
    let (set, stream) = (keys.to_bytes(), book.stream(2, 20).to_bytes());
    let (bytes, space) = (Data::of(b"bytes").in_question(), space_in_question((8, 1)));
    let pattern = Data::Pattern(9, 1, 1).in_question();
    let numbers = vec![0; 16];
    let fields: [Vec<&Vec<u8>>; 14] = [
        vec![],
        vec![&numbers, &bytes, &pattern],
        vec![&pattern],
        vec![],
        vec![&set, &stream, &bytes],
        vec![&set, &stream, &space],
        vec![&set, &stream, &pattern],
        vec![&set, &bytes, &space],
        vec![&set, &pattern, &bytes],
        vec![&bytes, &space],
        vec![&set, &bytes],
        vec![&set, &pattern],
        vec![&set, &bytes, &pattern],
        vec![&set, &pattern, &bytes],
    ];
    for (call, fields) in (0..).zip(&fields).skip(1) {
        let question: Vec<u8> = [call]
            .into_iter()
            .chain(fields.iter().copied().flatten().copied())
            .collect();
        spoil(book, &question);
    }
}

/// A question cut short everywhere, with a character less, and with a byte behind its last field.
pub fn spoil(book: &mut Book, question: &[u8]) {
    let line = hex::written(question).into_bytes();
    crate::inner::hold(answer(&line) != "?", || {
        format!("the question of call {} before it is cut", question[0])
    });
    book.nonsense(&[&line[..], b"00"].concat());
    book.nonsense(&line[..line.len() - 1]);
    for cut in (1..question.len()).rev() {
        if cut + 12 > question.len() || cut % book.pick(200, 25) == 1 {
            book.nonsense(&line[..2 * cut]);
        }
    }
}

/// A length or a size beyond its limit, by one and by far; all else is right.
fn beyond_limits(book: &mut Book) {
    let set = book.keys(1, 8).to_bytes();
    for count in [1_048_578, 1_048_579, 0x0100_0000, 0x8000_0000, 0xFFFF_FFFF] {
        let first = Data::Pattern(count, 0, 0).in_question();
        book.nonsense(hex::written(&[&[9][..], &first, &space_in_question((255, 0))].concat()).as_bytes());
        book.nonsense(hex::written(&[&[10][..], &set, &first].concat()).as_bytes());
        book.nonsense(hex::written(&[&[7][..], &set, &first, &space_in_question((1, 0))].concat()).as_bytes());
    }
    let first = Data::of(b"x").in_question();
    for count in [4_097, 4_098, 65_536, 1_048_577, 0xFFFF_FFFF] {
        let second = Data::Pattern(count, 0, 0).in_question();
        book.nonsense(hex::written(&[&[8][..], &set, &first, &second].concat()).as_bytes());
        book.nonsense(hex::written(&[&[12][..], &set, &first, &second].concat()).as_bytes());
        book.nonsense(hex::written(&[&[1][..], &[0; 16], &first, &second].concat()).as_bytes());
    }
    let written = Data::Written(digits(book, 4_097)).in_question();
    book.nonsense(hex::written(&[&[8][..], &set, &first, &written].concat()).as_bytes());
    for size in [1_025, 1_026, 2_048, 65_535] {
        let space = space_in_question((size, 0));
        book.nonsense(hex::written(&[&[9][..], &first, &space].concat()).as_bytes());
        book.nonsense(hex::written(&[&[7][..], &set, &first, &space].concat()).as_bytes());
    }
}

/// Lines of 16,384 characters are read, longer ones are not, be they questions but for that or not.
fn long_lines(book: &mut Book) {
    let longest = LINE / 2 - 7;
    let line = digits(book, longest);
    book.decode(&line, (1, 0xA5), 3);
    book.decode(&line, (255, 0xA5), 8);
    for extra in 1..book.pick(2, 4) {
        let fields = [
            Data::of(&digits(book, longest + extra)).in_question(),
            space_in_question((255, 0)),
        ];
        book.nonsense(hex::written(&[vec![9], fields.concat()].concat()).as_bytes());
    }
    for count in [LINE - 1, LINE, LINE + 1, LINE + 2, 32_768, 65_536, 100_000]
        .into_iter()
        .take(book.pick(4, 7))
    {
        book.nonsense(&vec![b'0'; count]);
        if book.dense || count > LINE {
            book.nonsense(&vec![b'?'; count]);
        }
    }
    // The line behind a long one is read anew.
    book.ask(3, &[], None);
}
