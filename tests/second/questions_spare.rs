//! Questions about the spare bits of a received tag. The tag is accepted exactly where its stated bits are right and
//! its spare bits are zero (item 4 of the requests), so that no frame is accepted in two spellings.

use crate::book::{turned, Book, Data};
use crate::forms::{KeySet, Stream};
use crate::made::{check_by, Made, CHECKING, TABLE};
use crate::spare::{all_set, lengths, spellings};

/// The tag lengths of the stored book: one with each number of spare bits.
const STORED: [u8; 7] = [1, 18, 43, 60, 77, 102, 127];

/// The longest body that fits a frame with a tag of any length.
const LONGEST: usize = 239;

/// Every third key set is made up.
pub fn ask(book: &mut Book) {
    for (i, length) in book.pick(STORED.to_vec(), lengths().collect()).into_iter().enumerate() {
        let order = 1 + i % 5;
        let keys = if i % 3 == 2 {
            book.made_up(order as u8, length)
        } else {
            book.keys(order, length.into())
        };
        every_spelling(book, &keys, i);
    }
    for length in book.pick(vec![60], vec![1, 7, 12, 60, 127]) {
        with_another_fault(book, length);
    }
}

/// Every call that takes a received tag is given the right one, then those with spare bits set, of which the last have
/// a stated bit wrong too. The stored book gives each to one of the three openings only: to the next one, in turns that
/// start here with that of the number given.
fn every_spelling(book: &mut Book, keys: &KeySet, first: usize) {
    let count = 1 + book.random.below(LONGEST);
    let right = Made::new(book, keys, count);
    let wrong = stated_bit_wrong(book, keys.length, &right.tag);
    let refused = [spellings(keys.length, &right.tag), wrong].concat();
    let tags = std::iter::once((right.tag.clone(), 0)).chain(refused.into_iter().map(|tag| (tag, 7)));
    for (turn, (tag, number)) in (first..).zip(tags) {
        let made = Made { tag, ..right.clone() };
        let [stream, message, frame, openings @ ..] = CHECKING;
        let opening = openings[turn % openings.len()];
        for call in book.pick(vec![stream, message, frame, opening], CHECKING.to_vec()) {
            check_by(book, call, keys, &made, number);
        }
    }
}

/// Tags with spare bits set and a stated bit wrong: all spare bits with the stated one beside them; and, where there is
/// an earlier byte, one spare bit with the stated one at the same place there, so that the two must not undo each other
/// where the differences of the bytes are gathered.
fn stated_bit_wrong(book: &mut Book, length: u8, tag: &[u8]) -> Vec<Vec<u8>> {
    let stated = usize::from(length);
    let mut wrong = vec![turned(&all_set(length, tag), stated - 1)];
    if tag.len() > 1 {
        let spare = stated + book.random.below(8 * tag.len() - stated);
        let earlier = 8 * book.random.below(tag.len() - 1) + spare % 8;
        wrong.push(turned(&turned(tag, spare), earlier));
    }
    wrong
}

/// All spare bits set, and one other fault. Its number is given: 7 is judged only where nothing else applies.
fn with_another_fault(book: &mut Book, length: u8) {
    let order = 1 + book.random.below(5);
    let keys = book.keys(order, length.into());
    let right = Made::new(book, &keys, 40);
    let tag = all_set(length, &right.tag);
    let (message, received) = (Data::of(&right.message), Data::of(&tag));
    let frame = Data::Written([&right.message[..], &tag].concat());
    // With the set of faults 1 the order is wrong, and with 2 the tag length: so these are the numbers too.
    for set in [1, 2] {
        let wrong = book.with_faults(keys.clone(), set);
        book.check(&wrong, &right.behind, &tag, Some(set as u8));
        book.verify(&wrong, &message, &received, Some(set as u8));
        give_frame(book, &wrong, &frame, set as u8);
    }
    let longer = [&tag[..], &[0]].concat();
    book.check(&keys, &right.behind, &longer, Some(3));
    book.verify(&keys, &message, &Data::of(&longer), Some(3));
    let mut spoilt = right.behind.clone();
    spoilt.four += 1;
    book.check(&keys, &spoilt, &tag, Some(4));
    book.verify(&keys, &Data::Pattern(1_048_577, 9, 9), &received, Some(5));
    book.verify(&keys, &Data::of(&[]), &received, Some(6));
    book.check(&keys, &Stream::default(), &tag, Some(6));
    let too_long = [&vec![0x11; 256 - tag.len()], &tag[..]].concat();
    for frame in [tag, too_long] {
        give_frame(book, &keys, &Data::Written(frame), 8);
    }
}

/// A refused frame is judged, and opened by one of the openings.
fn give_frame(book: &mut Book, keys: &KeySet, frame: &Data, number: u8) {
    book.judge(keys, frame, Some(number));
    let opening = book.random.one_of(&CHECKING[3..]);
    book.open(opening, keys, frame, &Data::of(TABLE), Some(false));
}
