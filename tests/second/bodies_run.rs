//! The stored run of the program send. It is longer than three reads of the program, and its last line lacks the line
//! feed: a sender that stops after a read, that loses, cuts or repeats the line at the end of one, or that leaves out
//! the last line must not pass it.

use crate::bodies::Bodies;
use crate::hex;
use crate::inputs::Pair;
use crate::library::LINE;
use crate::questions_keys::OTHERS;
use crate::random::Random;

/// The most bytes that the program reads at once. Each multiple of it is an edge: a line across it comes in two parts.
const READ: usize = 65_536;

/// There are three edges, as in the run of check. The tags have spare bits. The last line is a body, so that its answer
/// is no empty line.
pub fn run(random: &mut Random) -> Pair {
    let mut input = Bodies::new(random, 3, 60);
    empty_lines(&mut input, random);
    // The edge is inside a pair of digits.
    body_across(&mut input, random, READ, (151, 149));
    lines_around_the_limits(&mut input, random);
    // All characters stand before the edge, and the line feed is the first byte behind it.
    body_across(&mut input, random, 2 * READ, (400, 0));
    bodies_around_full_blocks(&mut input, random);
    // The line is too long before the edge already, and what stands behind it would be a body as a line of its own.
    input.up_to(random, 3 * READ - 600 - 1);
    input.refused(hex::written(&random.bytes(500)).as_bytes());
    input.up_to(random, 3 * READ + 8_000);
    input.line_of(random, 300);
    input.without_last_line_feed().named("stored run")
}

/// Lines of all kinds, then a body with so many characters before the edge and so many behind it.
fn body_across(input: &mut Bodies, random: &mut Random, edge: usize, (before, behind): (usize, usize)) {
    input.up_to(random, edge - before - 1);
    input.line_of(random, before + behind);
}

/// Empty lines alone, in twos and many, each time with a body behind them.
fn empty_lines(input: &mut Bodies, random: &mut Random) {
    for count in [1, 2, 300] {
        for _ in 0..count {
            input.refused(b"");
        }
        input.line_of(random, 60);
    }
}

/// Lines of digits alone around the longest body, around the longest line and beyond, then with another character in
/// the last place or before the limit. Those that are too long would be written if they were cut at the longest body; a
/// body follows each, so that its end must be found.
fn lines_around_the_limits(input: &mut Bodies, random: &mut Random) {
    let fits = 2 * input.longest();
    let around = (fits - 2..=fits + 2).chain(509..=513);
    for characters in around.chain([1_000, 5_000]) {
        input.line_of(random, characters);
        input.line_of(random, 100);
        for place in [characters - 1, random.below(characters.min(LINE))] {
            let mut line = hex::written(&random.bytes(characters.div_ceil(2))).into_bytes();
            line.truncate(characters);
            line[place] = random.one_of(&OTHERS);
            input.refused(&line);
            input.line_of(random, 100);
        }
    }
}

/// Bodies of some full blocks, of one byte less and of one more.
fn bodies_around_full_blocks(input: &mut Bodies, random: &mut Random) {
    for count in (1..=input.longest()).filter(|count| [15, 0, 1].contains(&(count % 16))) {
        input.body(&random.bytes(count));
    }
}
