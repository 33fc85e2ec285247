//! Fresh inputs of the program send, at random. They are short: a program may answer them under an emulator.

use crate::bodies::{nothing, Bodies};
use crate::inputs::{key_line, with_order, Pair};
use crate::library::read_key_line;
use crate::questions_keys::OTHERS;
use crate::random::Random;

pub fn all(random: &mut Random) -> Vec<Pair> {
    let mut pairs: Vec<Pair> = (0..11).map(|round| mixed(random, round)).collect();
    pairs.extend([(4_096, 4), (8_192, 3), (65_536, 1)].map(|step| line_ends(random, step)));
    pairs.extend([
        many_empty_lines(random),
        many_short_bodies(random),
        around_the_limits(random),
        very_long(random),
    ]);
    pairs.extend(refused_key_lines(random));
    // Behind all others, so that they and the random numbers that they draw stay as they are.
    pairs.push(order_00(random));
    pairs
}

/// Any order and tag length that a key line may have, 0 among them.
fn started(random: &mut Random) -> Bodies {
    let (order, length) = (random.below(6) as u8, random.below(129) as u8);
    Bodies::new(random, order, length)
}

/// Lines of every kind, every other time without the last line feed. The last is a body, since an empty line without
/// its line feed would be no line.
fn mixed(random: &mut Random, round: usize) -> Pair {
    let mut input = started(random);
    for _ in 0..40 + random.below(30) {
        input.any_line(random, 1_000);
    }
    input.line_of(random, 120);
    if round % 2 == 1 {
        input = input.without_last_line_feed();
    }
    input.named("mixed")
}

/// Line feeds around multiples of what a program may read at once, up to three bytes on either side, and lines behind.
fn line_ends(random: &mut Random, (step, multiples): (usize, usize)) -> Pair {
    let mut input = started(random);
    for k in 1..=multiples {
        let shift = random.below(6);
        input.up_to(random, step * k + shift - 3);
    }
    for characters in [2, 300, 0, 60] {
        input.line_of(random, characters);
    }
    input.named("line ends")
}

fn many_empty_lines(random: &mut Random) -> Pair {
    let mut input = started(random);
    for _ in 0..3_000 {
        input.refused(b"");
    }
    input.line_of(random, 2);
    input.named("3,000 empty lines")
}

/// Bodies of one byte and tags of sixteen: the output is many times as long as the input.
fn many_short_bodies(random: &mut Random) -> Pair {
    let order = 1 + random.below(5) as u8;
    let mut input = Bodies::new(random, order, 128);
    for _ in 0..2_000 {
        input.line_of(random, 2);
    }
    input.named("2,000 bodies of one byte")
}

/// Lines of no characters up to a few, around the longest body, and around the longest line.
fn around_the_limits(random: &mut Random) -> Pair {
    let mut input = started(random);
    let fits = 2 * input.longest();
    for characters in (0..70).chain(fits - 6..fits + 6).chain(505..=514) {
        input.line_of(random, characters);
    }
    input.named("lines around the limits")
}

fn very_long(random: &mut Random) -> Pair {
    let mut input = started(random);
    for _ in 0..4 {
        let count = 511 + random.below(20_000);
        let character = random.one_of(b"0F?a\r\0\xFF");
        input.refused(&vec![character; count]);
        input.line_of(random, 100);
    }
    input.named("very long lines")
}

/// Refused by the order or the tag length, and by the number of characters or by one of them. The lines behind would be
/// a key line that is not refused, and bodies.
fn refused_key_lines(random: &mut Random) -> [Pair; 2] {
    let (order, length) = random.one_of(&[(6, 1), (200, 0), (0, 129), (5, 255), (9, 200)]);
    let wrong = key_line(random, order, length);
    let right = key_line(random, 2, 64);
    let mut spoilt = right.clone();
    if random.chance(2) {
        spoilt.resize(random.one_of(&[0, 66, 67, 69, 70, 600]), b'0');
    } else {
        spoilt[random.below(68)] = random.one_of(&OTHERS);
    }
    [wrong, spoilt].map(|line| nothing("refused key line", &[&line[..], b"\n", &right, b"\n\n00\n"].concat()))
}

/// The inputs above may all have other orders. What is written is held to the frames of order 2, and bodies of 49 bytes
/// and more show them.
fn order_00(random: &mut Random) -> Pair {
    let length = random.below(129) as u8;
    let line = key_line(random, 0, length);
    let mut input = Bodies::with_key_line(&line);
    input.keys = read_key_line(&with_order(&line, 2)).2;
    for round in 0..32 {
        let any = 1 + random.below(input.longest());
        let count = [48, 49].get(round).copied().unwrap_or(any);
        input.line_of(random, 2 * count);
    }
    input.named("order 00")
}
