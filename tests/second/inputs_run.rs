//! The stored run of the program check. It is longer than three reads of the program, and its last line lacks the line
//! feed: a checker that stops after a read, that loses, cuts or repeats the line at the end of one, or that leaves out
//! the last line must not pass it.

use crate::book::{frame_of, turned};
use crate::hex;
use crate::inputs::{Input, Pair};
use crate::inputs_fresh::mixed_lines;
use crate::library::{tag_size, FRAME, LINE};
use crate::questions_keys::OTHERS;
use crate::random::Random;

/// The most bytes that the program reads at once. Each multiple of it is an edge: a line across it comes in two parts.
const READ: usize = 65_536;

/// The lines behind the mixed ones are made from a seed of their own, since the random numbers of the corpus go on to
/// the inputs of tests/check, which stay as they are.
const SEED: u64 = 0x4544_4745_2D52_554E;

/// There are three edges because only one line can stand across an edge, and three kinds of line are to do so. The last
/// line is a right frame, so that its answer cannot be that of a refusal.
pub fn run(random: &mut Random) -> Pair {
    let mut input = mixed_lines(random);
    let random = &mut Random(SEED);
    // The edge is inside a pair of digits.
    frame_across(&mut input, random, READ, (151, 149));
    input.up_to(random, READ + READ / 4);
    lines_around_the_limit(&mut input, random);
    // All characters stand before the edge, and the line feed is the first byte behind it.
    frame_across(&mut input, random, 2 * READ, (400, 0));
    bodies_around_full_blocks(&mut input, random);
    // The line is too long before the edge already, and what stands behind it would be accepted as a line of its own.
    too_long_across(&mut input, random, 3 * READ, (600, 400));
    input.up_to(random, 3 * READ + 8_000);
    input.line_of(random, 300);
    input.without_last_line_feed().named("stored run")
}

/// Lines of all kinds, then a right frame with so many characters before the edge and so many behind it.
fn frame_across(input: &mut Input, random: &mut Random, edge: usize, (before, behind): (usize, usize)) {
    input.up_to(random, edge - before - 1);
    input.line_of(random, before + behind);
}

/// The same with a line above the limit: several right frames, one of which starts at the edge.
fn too_long_across(input: &mut Input, random: &mut Random, edge: usize, (before, behind): (usize, usize)) {
    input.up_to(random, edge - before - 1);
    let parts = [before, behind].map(|characters| frames_in_one_line(random, input, characters));
    input.line(&parts.concat(), Some(8));
}

/// Lines of digits alone, then with another character in the last place or before the limit. Each starts with a right
/// frame that is as long as it can be, so that cut at the limit it would be accepted; a line with a right frame follows
/// each, so that its end must be found.
fn lines_around_the_limit(input: &mut Input, random: &mut Random) {
    for characters in [509, 510, 511, 512, 513, 1_000, 5_000] {
        let digits = frames_in_one_line(random, input, characters);
        let too_long = characters > LINE;
        let number = if characters % 2 == 1 { 9 } else { 0 };
        input.line(&digits, Some(if too_long { 8 } else { number }));
        input.line_of(random, 100);
        for place in [characters - 1, random.below(characters.min(LINE))] {
            let mut line = digits.clone();
            line[place] = random.one_of(&OTHERS);
            input.line(&line, Some(if too_long { 8 } else { 9 }));
            input.line_of(random, 100);
        }
    }
}

/// So many digits: right frames one behind the other, each as long as it can be, and other digits where none has room.
fn frames_in_one_line(random: &mut Random, input: &Input, characters: usize) -> Vec<u8> {
    let size = tag_size(&input.keys);
    let mut line = String::new();
    loop {
        let bytes = (characters - line.len()).min(LINE) / 2;
        if bytes <= size {
            let digits = hex::written(&random.bytes(size + 1));
            return [line.as_bytes(), &digits.as_bytes()[..characters - line.len()]].concat();
        }
        line += &hex::written(&frame_of(&input.keys, &random.bytes(bytes - size)));
    }
}

/// Bodies of some full blocks, of one byte less and of one more: each right, then damaged in a bit of the body or of
/// the tag.
fn bodies_around_full_blocks(input: &mut Input, random: &mut Random) {
    let longest = FRAME - tag_size(&input.keys);
    for count in (1..=longest).filter(|count| [15, 0, 1].contains(&(count % 16))) {
        let frame = frame_of(&input.keys, &random.bytes(count));
        input.frame(&frame, Some(0));
        let bit = random.below(8 * count + usize::from(input.keys.length));
        input.frame(&turned(&frame, bit), Some(7));
    }
}
