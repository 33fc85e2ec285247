//! Questions about order 0. The key call and the key line take it as order 2 (item 2 of the requests); every later call
//! refuses a key set that has it.
//!
//! Up to 48 bytes all orders give the same tag with the same counts, so most messages and bodies here are longer. A
//! question is made for its whole answer, which is said without the code that answers: by Algorithm 2.2 and the
//! standard library's formatting.

use crate::book::{formatted, space_in_question, Book, Data};
use crate::forms::KeySet;
use crate::hex;
use crate::inner::hold;
use crate::made::{check_by, tag, whole, Made, CHECKING};

/// The longest message whose tag does not show the order, the first that does, and more around full blocks.
const COUNTS: [usize; 6] = [48, 49, 64, 65, 100, 200];

/// The size of the writer's space.
const ROOM: usize = 510;

pub fn ask(book: &mut Book) {
    for length in book.pick(vec![8, 64, 128], vec![1, 7, 8, 9, 40, 63, 64, 65, 127, 128]) {
        key_sets(book, length);
    }
    // Here the tags are so long that those of two orders are not alike by chance.
    let any = 40 + book.random.below(89) as u8;
    for length in book.pick(vec![0, 60], vec![0, 60, 64, any]) {
        let [zero, one] = key_sets(book, length);
        taken(book, &zero, &one);
        refused(book, &zero, &one);
    }
}

/// One K and L at the orders 0, 1 and 2, by the key call and by a key line. At order 0 the whole answer is that at
/// order 2, the steps and the order in the set too. Hands on the sets made at orders 0 and 1.
fn key_sets(book: &mut Book, length: u8) -> [KeySet; 2] {
    let (k, l) = (book.random.bytes(16), book.random.bytes(16));
    let [zero, one, two] = [0, 1, 2].map(|order| {
        let numbers = [order, length].map(|number| u64::from(number).to_be_bytes()).concat();
        let fields = [numbers, Data::of(&k).in_question(), Data::of(&l).in_question()];
        let called = book.ask(1, &fields, Some(0));
        let line = hex::written(&[&[order, length], &k[..], &l].concat());
        let read = book.ask(2, &[Data::of(line.as_bytes()).in_question()], Some(0));
        let count = book.count;
        hold(called == read, || {
            format!("line {count} answers as the line before it, which gives the same to the key call")
        });
        called
    });
    let count = book.count;
    hold(zero == two && zero != one, || {
        format!("up to line {count}, order 0 is taken as order 2")
    });
    [zero, one].map(|answer| KeySet::from_bytes(&answer[9..]))
}

/// Each later call under the set made at order 0. The tag of order 2 is right. That of order 1 differs from 49 bytes
/// on; up to 48 bytes it is the same, and the same questions are not asked twice.
fn taken(book: &mut Book, zero: &KeySet, one: &KeySet) {
    let any = vec![1 + book.random.below(48), 49 + book.random.below(191)];
    for count in [&COUNTS[..], &book.pick(vec![], any)].concat() {
        let right = Made::new(book, zero, count);
        making(book, zero, &right, 0);
        checking(book, zero, &right, 0);
        let tag = tag(one, &right.message);
        hold((tag == right.tag) == (count <= 48), || {
            format!("the tags of orders 1 and 2 over {count} bytes")
        });
        if count > 48 {
            checking(book, zero, &Made { tag, ..right }, 7);
        }
    }
}

/// Each later call under the same set with its order put to 0. Streams and tags are those of order 2, and those of
/// order 1 where they are others, so that they are right for a call that would take 0 as either. Up to 32 bytes they
/// are right even for one that would go on with 0: only the first block is absorbed, and that by the whole cipher.
fn refused(book: &mut Book, zero: &KeySet, one: &KeySet) {
    let mut keys = zero.clone();
    keys.order = 0;
    for count in book.pick(vec![32, 100], vec![16, 32, 49, 65, 200]) {
        for maker in [zero, one].into_iter().take(if count > 48 { 2 } else { 1 }) {
            let made = Made::new(book, maker, count);
            making(book, &keys, &made, 1);
            checking(book, &keys, &made, 1);
        }
    }
}

/// The calls that add, close, tag and write. A refusal hands back the stream, and leaves the space as it was.
fn making(book: &mut Book, keys: &KeySet, made: &Made, number: u8) {
    let filler = book.random.one_of(&[0x00, 0x30, 0xA5, 0xFF]);
    let size = made.tag.len();
    let message = Data::of(&made.message).in_question();
    let (space, room) = (space_in_question((size, filler)), space_in_question((ROOM, filler)));
    let (mut after, mut tag, mut line) = (&made.before, vec![filler; size], String::new());
    if number == 0 {
        (after, tag, line) = (&made.behind, made.tag.clone(), formatted(&made.frame()));
    }
    let fields = [made.before.to_bytes(), Data::of(&made.part).in_question()];
    whole(book, 4, keys, &fields, &[vec![number], after.to_bytes()]);
    let tagged = [made.verdict(number), tag];
    whole(book, 5, keys, &[made.behind.to_bytes(), space.clone()], &tagged);
    whole(book, 7, keys, &[message.clone(), space], &tagged);
    let written = (line.len() as u64).to_be_bytes().to_vec();
    let untouched = vec![filler; ROOM - line.len()];
    let answer = [made.verdict(number), written, line.into_bytes(), untouched];
    whole(book, 15, keys, &[message, room], &answer);
}

/// Every call that takes a received tag.
fn checking(book: &mut Book, keys: &KeySet, made: &Made, number: u8) {
    for call in CHECKING {
        check_by(book, call, keys, made, number);
    }
}
