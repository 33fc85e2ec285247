//! Questions about the one-call tag and its check.

use crate::book::{lowest, tag_of, turned, Book, Data};
use crate::forms::KeySet;
use crate::library::tag_size;
use crate::spare::all_set;

pub fn ask(book: &mut Book) {
    every_pair(book);
    every_length(book);
    around_multiples(book);
    longest(book);
    made_up_key_sets(book);
    every_bit_of_a_tag(book);
    spare_bits_at_every_length(book);
    sizes(book);
    faults_together(book);
}

/// Tags the message, checks the tag, and now and then checks one with a bit turned.
fn tag_and_verify(book: &mut Book, keys: &KeySet, message: &Data) {
    let filler = book.random.byte();
    let tag = book.tag(keys, message, (tag_size(keys), filler), Some(0));
    if book.dense && book.random.chance(2) {
        let bit = book.random.below(usize::from(keys.length));
        book.verify(keys, message, &Data::of(&tag), Some(0));
        book.verify(keys, message, &Data::of(&turned(&tag, bit)), Some(7));
    }
}

/// Orders 1 to 5 with tag lengths 1 to 128: a message of more than 2(d+1) blocks, and a short one. The stored book has
/// every fourth tag length of the orders 2 to 4 and every one of the orders 1 and 5. There the long messages have every
/// length from 65 to 320 bytes, and few pairs have a short one.
fn every_pair(book: &mut Book) {
    for order in 1..=5 {
        for length in 1..=128 {
            if !book.dense && (2..=4).contains(&order) && (length + order) % 4 != 0 {
                continue;
            }
            let keys = book.keys(order, length);
            let extra = book.random.below(64);
            let count = 32 * (order + 1) + book.pick(length, 1 + extra);
            let (first, step) = (book.random.byte(), book.random.byte());
            tag_and_verify(book, &keys, &Data::Pattern(count, first, step));
            if book.dense || (length + order) % 16 == 0 {
                let count = 1 + book.random.below(32);
                let short = book.message(count);
                tag_and_verify(book, &keys, &short);
            }
        }
    }
}

/// 0 to 300 bytes at every order; in the stored book the lengths that are left, at one order after the other.
fn every_length(book: &mut Book) {
    for count in 0..=book.pick(64, 300) {
        let orders = if book.dense {
            1..=5
        } else {
            1 + count % 5..=1 + count % 5
        };
        for order in orders {
            let length = 1 + book.random.below(128);
            let keys = book.keys(order, length);
            let message = book.message(count);
            if count == 0 {
                book.tag(&keys, &message, (tag_size(&keys), 0xA5), Some(6));
                book.verify(&keys, &message, &Data::of(&vec![0; tag_size(&keys)]), Some(6));
            } else {
                tag_and_verify(book, &keys, &message);
            }
        }
    }
}

/// One less, equal and one more than multiples of 16(d+1), beyond the 300 bytes above too.
fn around_multiples(book: &mut Book) {
    for order in 1..=5 {
        for multiple in 1..=book.pick(2, 16) {
            for count in [
                16 * (order + 1) * multiple - 1,
                16 * (order + 1) * multiple,
                16 * (order + 1) * multiple + 1,
            ] {
                let length = book.random.one_of(&[128, 127, 64, 96, 33]);
                let keys = book.keys(order, length);
                let message = book.message(count);
                tag_and_verify(book, &keys, &message);
            }
        }
    }
}

/// 1,048,576 bytes are taken, one more are not. The outline gives the counts at order 5.
fn longest(book: &mut Book) {
    let other = 1 + book.random.below(4);
    for order in book.pick(vec![5], vec![5, other]) {
        let keys = book.keys(order, 128 - order);
        let message = Data::Pattern(1_048_576, 0x11 * order as u8, 7);
        let tag = book.tag(&keys, &message, (16, 0), Some(0));
        book.verify(&keys, &message, &Data::of(&tag), Some(0));
        if order == 5 {
            book.verify(&keys, &message, &Data::of(&turned(&tag, 5)), Some(7));
        }
        let message = Data::Pattern(1_048_577, 0, 7);
        book.tag(&keys, &message, (16, 0xEE), Some(5));
        book.verify(&keys, &message, &Data::of(&[0; 16]), Some(5));
    }
}

fn made_up_key_sets(book: &mut Book) {
    for _ in 0..book.pick(20, 500) {
        let (order, length) = (1 + book.random.below(5) as u8, 1 + book.random.below(128) as u8);
        let keys = book.made_up(order, length);
        let count = 1 + book.random.below(400);
        let message = book.message(count);
        tag_and_verify(book, &keys, &message);
    }
}

/// Each bit of the received tag turned in turn, the spare ones too.
fn every_bit_of_a_tag(book: &mut Book) {
    for length in book.pick(
        vec![3, 36],
        vec![1, 2, 7, 8, 9, 31, 57, 63, 64, 65, 100, 120, 121, 127, 128],
    ) {
        let keys = book.some_keys();
        let keys = KeySet { length, ..keys };
        let message = book.message(40);
        let tag = tag_of(&keys, &message.bytes());
        for bit in 0..8 * tag.len() {
            book.verify(&keys, &message, &Data::of(&turned(&tag, bit)), Some(7));
        }
    }
}

/// All spare bits set, with the stated bits right, and with the last or the first of them wrong. Where the tag length
/// is a multiple of 8 there are no spare bits, and what is given first is the right tag.
fn spare_bits_at_every_length(book: &mut Book) {
    for length in 1..=128 {
        if !book.dense && length % 11 != 0 {
            continue;
        }
        let keys = book.keys(1 + length % 5, length);
        let message = book.message(length);
        let tag = tag_of(&keys, &message.bytes());
        let spare = all_set(keys.length, &tag);
        let expected = if length % 8 == 0 { 0 } else { 7 };
        book.verify(&keys, &message, &Data::of(&spare), Some(expected));
        book.verify(&keys, &message, &Data::of(&turned(&spare, length - 1)), Some(7));
        book.verify(&keys, &message, &Data::of(&turned(&spare, 0)), Some(7));
    }
}

/// Received tags and spaces that are a byte short or long, empty, or far too long.
fn sizes(book: &mut Book) {
    for length in book.pick(
        vec![1, 65, 128],
        vec![1, 7, 8, 9, 16, 17, 60, 64, 65, 72, 119, 120, 121, 127, 128],
    ) {
        let keys = book.keys(1 + length % 5, length);
        let size = tag_size(&keys);
        let message = book.message(5 + length);
        let tag = tag_of(&keys, &message.bytes());
        let long = [&tag[..], &[0; 300]].concat();
        for count in [0, 1, size - 1, size, size + 1, 2 * size, 16, 17, 255, 256 + size] {
            let expected = Some(if count == size { 0 } else { 3 });
            book.verify(&keys, &message, &Data::of(&long[..count.min(300)]), expected);
            let filler = book.random.one_of(&[0, 0xA5, 0xFF, 0x30]);
            book.tag(&keys, &message, (count, filler), expected);
        }
        book.verify(&keys, &message, &Data::Pattern(4_096, tag[0], 0), Some(3));
        book.tag(&keys, &message, (1_024, 0x5A), Some(3));
    }
}

/// Every set of the faults 1, 2, 3, 5 or 6, and a wrong tag, at once. No bytes and too many cannot come together, so
/// the sets 0 to 15 have neither.
fn faults_together(book: &mut Book) {
    for round in 0..book.pick(1, 5) {
        for set in 0..48 {
            let has = |fault: u32| set >> fault & 1 == 1;
            let (none, too_many) = (set / 16 == 1, set / 16 == 2);
            let length = 1 + book.random.below(128);
            let keys = book.keys(1 + round % 5, length);
            let count = if none { 0 } else { 1 + 20 * round };
            let mut message = book.message(count);
            let mut tag = vec![0; tag_size(&keys)];
            if too_many {
                message = Data::Pattern(1_048_577, 9, 9);
            } else if !none {
                tag = tag_of(&keys, &message.bytes());
            }
            if has(3) {
                tag = turned(&tag, 0);
            }
            if has(2) {
                tag.push(0);
            }
            let keys = book.with_faults(keys, set);
            let others = lowest(&[(1, has(0)), (2, has(1)), (3, has(2)), (5, too_many), (6, none)]);
            if book.dense || !has(3) {
                book.tag(&keys, &message, (tag.len(), 0xC3), Some(others));
            }
            let differs = others == 0 && has(3);
            book.verify(&keys, &message, &Data::of(&tag), Some(if differs { 7 } else { others }));
        }
    }
}
