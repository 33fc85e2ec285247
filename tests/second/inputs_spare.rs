//! Inputs of the program check with spare bits set.

use crate::inputs::{right_frame, Input, Pair};
use crate::random::Random;
use crate::spare::{lengths, spellings};

/// The inputs for every tag length are made from a seed of their own, so that they are the same each time.
const SEED: u64 = 0x5350_4152_452D_4954;

/// An input for each tag length that has spare bits, named by it; the orders come in turn.
pub fn every_length() -> Vec<Pair> {
    let random = &mut Random(SEED);
    let numbered = lengths().zip((1..=5).cycle());
    numbered
        .map(|(length, order)| refused_spellings(random, order, length).named(&format!("check-{length:03}")))
        .collect()
}

/// Frames that are accepted; the last of them with each of its spare bits set alone and with all of them, each of which
/// is refused; and one more that is accepted, so that a refused frame must leave the program as it was.
pub fn refused_spellings(random: &mut Random, order: u8, length: u8) -> Input {
    let mut input = Input::new(random, order, length);
    let [first, second, third, last] = [(); 4].map(|()| right_frame(random, &input.keys));
    for frame in [&first, &second, &third] {
        input.frame(frame, Some(0));
    }
    for spelling in spellings(length, &third) {
        input.frame(&spelling, Some(7));
    }
    input.frame(&last, Some(0));
    input
}

/// At random: lines of every kind, each with a frame behind it that has spare bits set.
pub fn among_others(random: &mut Random) -> Pair {
    let lengths: Vec<u8> = lengths().collect();
    let (order, length) = (random.below(6) as u8, random.one_of(&lengths));
    let mut input = Input::new(random, order, length);
    for _ in 0..60 {
        input.any_line(random, 600);
        let spelled = spellings(length, &right_frame(random, &input.keys));
        input.frame(&spelled[random.below(spelled.len())], Some(7));
    }
    input.named("spare bits")
}
