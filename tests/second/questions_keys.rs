//! Questions about the key call and the key line.

use crate::book::{lowest, Book, Data};
use crate::hex;

/// Characters that are no digits, the neighbours of the digits first.
pub const OTHERS: [u8; 18] = *b"/:@G`afgz\r\0 \t\x7F\x80\xB0\xC1\xFF";

pub fn ask(book: &mut Book) {
    every_pair(book);
    wide_numbers(book);
    sizes(book);
    faults_together(book);
    key_lines(book);
    key_lines_of_other_lengths(book);
    key_lines_with_other_characters(book);
    key_line_faults_together(book);
}

fn random_key(book: &mut Book) -> Data {
    if book.random.chance(8) {
        Data::Pattern(16, book.random.byte(), book.random.byte())
    } else {
        Data::Written(book.random.bytes(16))
    }
}

/// Orders 0 to 6 with tag lengths 0 to 129. An order or length of 0 is no refusal here.
fn every_pair(book: &mut Book) {
    for order in 0..=6 {
        for length in 0..=129 {
            let (k, l) = (random_key(book), random_key(book));
            book.key_call(order, length, &k, &l, lowest(&[(1, order > 5), (2, length > 128)]));
        }
    }
}

/// Numbers of which only the low byte, or the low four bytes, would be in range.
fn wide_numbers(book: &mut Book) {
    let wide = [
        6,
        7,
        129,
        130,
        255,
        256,
        257,
        0x1_0001,
        1 << 32,
        (1 << 32) + 2,
        1 << 63,
        (1 << 63) + 5,
        u64::MAX,
    ];
    for number in wide {
        let (k, l) = (random_key(book), random_key(book));
        book.key_call(number, 64, &k, &l, 1);
        book.key_call(2, number, &k, &l, if number > 128 { 2 } else { 0 });
        if book.dense {
            book.key_call(number, number, &k, &l, 1);
            book.key_call(number, 0, &k, &Data::of(&[]), 1);
        }
    }
}

fn sizes(book: &mut Book) {
    let right = random_key(book);
    for size in [0, 1, 8, 15, 17, 24, 32, 255, 256, 272, 4_096] {
        let wrong = book.message(size);
        let (order, length) = (book.random.below(6) as u64, book.random.below(129) as u64);
        book.key_call(order, length, &wrong, &right, 3);
        book.key_call(order, length, &right, &wrong, 3);
        book.key_call(order, length, &wrong, &wrong, 3);
    }
    // Sixteen bytes too many on one side and too few on the other, and the longest K that a question can write.
    book.key_call(1, 1, &Data::Pattern(32, 1, 1), &Data::of(&[]), 3);
    book.key_call(5, 128, &Data::Pattern(1_048_577, 0, 1), &right, 3);
}

/// Every set of the faults 1, 2 and 3 at once, 3 in K, in L and in both.
fn faults_together(book: &mut Book) {
    for _ in 0..book.pick(1, 6) {
        for set in 0..16 {
            let has = |fault: u32| set >> fault & 1 == 1;
            let order = if has(0) {
                book.random.one_of(&[6, 255, 256, 1 << 40])
            } else {
                book.random.below(6) as u64
            };
            let length = if has(1) {
                book.random.one_of(&[129, 255, 256, 1 << 40])
            } else {
                80
            };
            let k = Data::Written(book.random.bytes(if has(2) { 15 } else { 16 }));
            let l = Data::Written(book.random.bytes(if has(3) { 17 } else { 16 }));
            book.key_call(
                order,
                length,
                &k,
                &l,
                lowest(&[(1, has(0)), (2, has(1)), (3, has(2) || has(3))]),
            );
        }
    }
}

fn key_line(book: &mut Book, order: u8, length: u8) -> Vec<u8> {
    hex::written(&[vec![order, length], book.random.bytes(32)].concat()).into_bytes()
}

/// Right lines, and orders and lengths of one byte beyond what may be.
fn key_lines(book: &mut Book) {
    for order in [0, 1, 2, 3, 4, 5, 6, 7, 128, 255] {
        for length in 0..=255 {
            let near = [0, 1, 64, 127, 128, 129, 255].contains(&length);
            if (book.dense && (near || length % 3 == 0)) || (near && order < 7) {
                let line = key_line(book, order, length);
                book.key_line(&line, lowest(&[(1, order > 5), (2, length > 128)]));
            }
        }
    }
}

fn key_lines_of_other_lengths(book: &mut Book) {
    let line = key_line(book, 2, 64);
    for length in [0, 1, 2, 4, 34, 66, 67, 69, 70, 136, 510, 511, 512, 3_000] {
        let other: Vec<u8> = line.iter().copied().cycle().take(length).collect();
        book.key_line(&other, 8);
    }
    book.key_line(&[&line[..], b"\r"].concat(), 8);
    book.key_line(&[&line[..], b"\n"].concat(), 8);
    book.key_line(&[b" ", &line[..]].concat(), 8);
    book.key_line(&[&line[..67], b"\r"].concat(), 9);
    let longest = Data::Pattern(1_048_577, b'0', 0);
    book.ask(2, &[longest.in_question()], Some(8));
    book.ask(2, &[Data::Pattern(68, b'0', 0).in_question()], Some(0));
    book.ask(2, &[Data::Pattern(68, 0, 1).in_question()], Some(9));
}

/// One other character at each place of the line.
fn key_lines_with_other_characters(book: &mut Book) {
    for place in (0..68).step_by(book.pick(5, 1)) {
        for k in 0..book.pick(1, 6) {
            let mut line = key_line(book, 3, 100);
            line[place] = OTHERS[(place + 5 * k) % OTHERS.len()];
            book.key_line(&line, 9);
        }
    }
    let lower = key_line(book, 0, 0xA + 0x50).to_ascii_lowercase();
    book.key_line(&lower, 9);
    if book.dense {
        for character in 0..=255u8 {
            let mut line = key_line(book, 1, 1);
            line[20] = character;
            let digit = character.is_ascii_digit() || (b'A'..=b'F').contains(&character);
            book.key_line(&line, if digit { 0 } else { 9 });
        }
    }
}

/// Every set of the faults 8, 9, 1 and 2 at once, judged in this order.
fn key_line_faults_together(book: &mut Book) {
    for round in 0..book.pick(1, 8) {
        for set in 0..16 {
            let has = |fault: u32| set >> fault & 1 == 1;
            let order = if has(2) { book.random.one_of(&[6, 16, 255]) } else { 5 };
            let length = if has(3) { book.random.one_of(&[129, 255]) } else { 128 };
            let mut line = key_line(book, order, length);
            if has(1) {
                let place = 4 + book.random.below(60);
                line[place] = book.random.one_of(&OTHERS);
            }
            if has(0) {
                line.resize(if round % 2 == 0 { 66 } else { 70 }, b'0');
            }
            let judged = [(8, has(0)), (9, has(1)), (1, has(2)), (2, has(3))];
            book.key_line(&line, judged.iter().find(|fault| fault.1).map_or(0, |fault| fault.0));
        }
    }
}
