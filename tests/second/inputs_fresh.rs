//! Fresh inputs of the program check, at random.

use crate::inputs::{key_line, refused, Input, Pair};
use crate::inputs_spare::among_others;
use crate::inputs_stored::frames_of_order_1_and_2;
use crate::library::tag_size;
use crate::random::Random;

pub fn all(random: &mut Random) -> Vec<Pair> {
    let mut pairs: Vec<Pair> = (0..16).map(|round| mixed(random, round)).collect();
    pairs.extend([4_096, 8_192, 65_536].map(|step| line_ends(random, step)));
    pairs.extend([
        many_empty_lines(random),
        bodies(random),
        very_long(random),
        refused_key_line(random),
    ]);
    // Each behind all before it, so that those and the random numbers that they draw stay as they are.
    pairs.push(order_00(random));
    pairs.extend((0..3).map(|_| among_others(random)));
    pairs
}

/// Every other time without the last line feed.
fn mixed(random: &mut Random, round: usize) -> Pair {
    let input = mixed_lines(random);
    let input = if round % 2 == 1 {
        input.without_last_line_feed()
    } else {
        input
    };
    input.named("mixed")
}

/// A few hundred lines of every kind.
pub fn mixed_lines(random: &mut Random) -> Input {
    let (order, length) = (random.below(6) as u8, random.below(129) as u8);
    let mut input = Input::new(random, order, length);
    for _ in 0..200 + random.below(200) {
        input.any_line(random, 1_000);
    }
    // The last is no empty line, since without its line feed that would be no line.
    input.line_of(random, 120);
    input
}

/// Line feeds around multiples of what a program may read at once, up to two bytes on either side.
fn line_ends(random: &mut Random, step: usize) -> Pair {
    let (order, length) = (1 + random.below(5) as u8, 1 + random.below(128) as u8);
    let mut input = Input::new(random, order, length);
    for k in 1..=if step == 65_536 { 6 } else { 30 } {
        let shift = random.below(6);
        input.up_to(random, step * k + shift - 3);
    }
    input.named("line ends")
}

fn many_empty_lines(random: &mut Random) -> Pair {
    let mut input = Input::new(random, 1, 1);
    for _ in 0..70_000 {
        input.line(b"", Some(8));
    }
    input.named("70,000 empty lines")
}

/// Lines of every number of characters up to beyond the limit.
fn bodies(random: &mut Random) -> Pair {
    let (order, length) = (1 + random.below(5) as u8, 1 + random.below(128) as u8);
    let mut input = Input::new(random, order, length);
    for characters in 2 * tag_size(&input.keys)..=514 {
        input.line_of(random, characters);
    }
    input.named("every number of characters")
}

fn very_long(random: &mut Random) -> Pair {
    let mut input = Input::new(random, 2, 64);
    for _ in 0..12 {
        let count = 511 + random.below(150_000);
        let character = random.one_of(b"0F?a\r\0\xFF");
        input.line(&vec![character; count], Some(8));
        input.line_of(random, 100);
    }
    input.named("very long lines")
}

fn refused_key_line(random: &mut Random) -> Pair {
    let (order, length, number) = random.one_of(&[(6, 1, 1), (200, 0, 1), (0, 129, 2), (5, 255, 2), (9, 200, 1)]);
    let line = key_line(random, order, length);
    refused(
        "refused key line",
        &[&line[..], b"\n", &line, b"\n\n00\n"].concat(),
        number,
    )
}

/// The inputs above may all have other orders. The tags are so long that those of two orders are not alike by chance,
/// and the longest body fits with the longest tag.
fn order_00(random: &mut Random) -> Pair {
    let length = 40 + random.below(89) as u8;
    let any = (0..30).map(|_| 1 + random.below(239));
    let counts: Vec<usize> = [48, 49].into_iter().chain(any).collect();
    frames_of_order_1_and_2(random, length, &counts).named("order 00")
}
