//! The stored inputs of the program send, each under a name that says what it is. Where check has an input of the same
//! kind, the name is the same.

use crate::bodies::{nothing, Bodies};
use crate::hex;
use crate::inner::hold;
use crate::inputs::Pair;
use crate::inputs_stored::{key_lines_refused, key_lines_with_faults_together};
use crate::random::Random;

pub fn all(random: &mut Random) -> Vec<Pair> {
    let mut pairs = key_lines(random);
    let refused = [key_lines_refused(random), key_lines_with_faults_together(random)].concat();
    pairs.extend(refused.iter().map(|(name, text, _)| nothing(name, text)));
    pairs.extend([
        worked_example(),
        empty_lines(random),
        short_lines(random),
        every_character(random),
        carriage_returns(random),
        lower_case(random),
        lines_near_the_limit(random),
        very_long_lines(random),
    ]);
    pairs.extend(orders_and_lengths(random));
    pairs.extend([(2, 8), (5, 128)].map(|pair| bodies_of_every_size(random, pair)));
    pairs.extend(repeated_lines(random));
    pairs.extend([4_096, 8_192, 65_536].map(|step| line_ends_around(random, step)));
    pairs.push(written_line_ends_around_4096(random));
    pairs
}

/// No key line, or nothing behind it; a last line without its line feed; order and tag length 00.
fn key_lines(random: &mut Random) -> Vec<Pair> {
    let right = Bodies::new(random, 2, 64);
    let (mut empty, mut body) = (right.clone(), right.clone());
    empty.refused(b"");
    body.line_of(random, 300);
    let [order_00, order_01] = order_00_and_01(random, 64);
    let length_00 = Bodies::new(random, 3, 0).then_bodies(random);
    let [both_00, order_01_length_00] = order_00_and_01(random, 0);
    vec![
        nothing("empty-input", b""),
        nothing("one-line-feed", b"\n"),
        nothing("one-character", b"0"),
        right.clone().named("key-line-alone"),
        right.without_last_line_feed().named("key-line-alone-without-line-feed"),
        empty.named("key-line-and-one-empty-line"),
        body.without_last_line_feed().named("last-line-feed-missing"),
        order_00.named("key-line-order-00"),
        length_00.named("key-line-length-00"),
        both_00.named("key-line-order-and-length-00"),
        order_01.named("key-line-order-01-in-place-of-00"),
        order_01_length_00.named("key-line-order-01-in-place-of-00-length-00"),
    ]
}

/// Under order 00, and under 01 in its place, with the same K, L and bodies. Whoever relied on 00 when it was taken as
/// order 1 must say 01 since item 2 of the requests: what is written for the second is what was for the first before.
fn order_00_and_01(random: &mut Random, length: u8) -> [Bodies; 2] {
    let mut again = Random(random.0);
    [(0, random), (1, &mut again)].map(|(order, random)| Bodies::new(random, order, length).then_bodies(random))
}

impl Bodies {
    /// Around full blocks and up to the longest, then one byte more. Up to 48 bytes the order makes no difference.
    fn then_bodies(mut self, random: &mut Random) -> Bodies {
        for count in [1, 15, 16, 17, 33, 48, 49, 100, self.longest(), self.longest() + 1] {
            self.line_of(random, 2 * count);
        }
        self
    }
}

/// The key line of the outline's example, a body of five bytes, a line that is refused, and a body of eight.
fn worked_example() -> Pair {
    let mut input = Bodies::with_key_line(format!("0240{:064}", 0).as_bytes());
    input.body(b"HELLO");
    input.refused(b"ABC");
    input.body(&[0x00, 0x11, 0x22, 0x33, 0x44, 0x55, 0x66, 0x77]);
    input.named("worked-example")
}

fn empty_lines(random: &mut Random) -> Pair {
    let mut input = Bodies::new(random, 1, 8);
    for _ in 0..5 {
        input.refused(b"");
    }
    input.line_of(random, 20);
    input.refused(b"");
    input.named("empty-lines")
}

/// Lines of 1 to 3 characters, of which only pairs of digits are bodies.
fn short_lines(random: &mut Random) -> Pair {
    let mut input = Bodies::new(random, 3, 24);
    for line in ["0", "000", "A", "F", " ", "  ", "0 ", " 0", "\t", "?", "0x", "00 "] {
        input.refused(line.as_bytes());
    }
    for byte in [0x00, 0x0A, 0xA0, 0xFF] {
        input.body(&[byte]);
    }
    input.body(&[0x00, 0x00]);
    input.named("short-lines")
}

/// Every byte but the line feed at some place of a line of digits.
fn every_character(random: &mut Random) -> Pair {
    let mut input = Bodies::new(random, 4, 40);
    for character in (0..=255u8).filter(|byte| *byte != b'\n') {
        let mut line = hex::written(&random.bytes(17)).into_bytes();
        line[usize::from(character) % 34] = character;
        let digit = b"0123456789ABCDEF".contains(&character);
        let body = hex::pairs(&line).filter(|_| digit);
        input.line(&line, body);
    }
    input.named("every-character")
}

fn carriage_returns(random: &mut Random) -> Pair {
    let mut input = Bodies::new(random, 2, 32);
    for line in [
        "0D0A\r", "\r0D0A", "0D0A\r\r", "\r0D0A\r", "\r", "\r\r", "0D\r0A", "0\r0A",
    ] {
        input.refused(line.as_bytes());
        input.body(b"\r\n");
    }
    input.named("carriage-returns")
}

/// The digits a to f are none: all of them, one at each place of a line, and one of a long line.
fn lower_case(random: &mut Random) -> Pair {
    let mut input = Bodies::new(random, 2, 64);
    for line in ["ab", "aB", "Ab", "abcdef", "0123456789abcdef"] {
        input.refused(line.as_bytes());
    }
    for place in 0..12 {
        let mut line = b"ABCDEFABCDEF".to_vec();
        line[place].make_ascii_lowercase();
        input.refused(&line);
    }
    let mut line = hex::written(&random.bytes(200)).into_bytes();
    line[399] = b'f';
    input.refused(&line);
    input.body(&[0xAB, 0xCD, 0xEF]);
    input.named("lower-case")
}

/// Lines around 510 characters, digits or not. With a tag of one byte, 508 digits are the longest body; 510 can be
/// decoded, but leave no room for a tag.
fn lines_near_the_limit(random: &mut Random) -> Pair {
    let mut input = Bodies::new(random, 5, 7);
    for count in [505, 506, 507, 508, 509, 510, 511, 512, 513, 514, 1_020, 1_022] {
        input.line_of(random, count);
        input.refused(&vec![b'x'; count]);
        input.refused(&[&vec![b'0'; count - 1], &b"\r"[..]].concat());
    }
    input.named("lines-of-509-to-512")
}

fn very_long_lines(random: &mut Random) -> Pair {
    let mut input = Bodies::new(random, 1, 128);
    for (character, count) in [(b'A', 100_000), (b'\0', 99_999), (b'5', 65_536), (b'z', 4_096)] {
        input.refused(&vec![character; count]);
        input.line_of(random, 100);
    }
    input.body(&[0; 239]);
    input.named("lines-of-100000")
}

fn orders_and_lengths(random: &mut Random) -> Vec<Pair> {
    let mut pairs = Vec::new();
    for order in 1..=5 {
        for length in [1, 7, 8, 9, 60, 64, 127, 128] {
            let input = Bodies::new(random, order, length).then_bodies(random);
            pairs.push(input.named(&format!("order-{order}-length-{length}")));
        }
    }
    pairs
}

/// Bodies of 1 to 256 bytes: those that leave no room for their tag are refused, and so is the last, a line above 510.
fn bodies_of_every_size(random: &mut Random, (order, length): (u8, u8)) -> Pair {
    let mut input = Bodies::new(random, order, length);
    for count in 1..=256 {
        input.line_of(random, 2 * count);
    }
    input.named(&format!("bodies-of-every-size-length-{length}"))
}

/// The same kind of short line many times. Of the bodies of one byte the output is longer than what a program reads at
/// once, and the input much shorter.
fn repeated_lines(random: &mut Random) -> Vec<Pair> {
    let [mut empty, mut odd, mut short] = [(); 3].map(|()| Bodies::new(random, 2, 128));
    for _ in 0..5_000 {
        empty.refused(b"");
    }
    for _ in 0..3_000 {
        odd.refused(b"A");
    }
    for _ in 0..2_000 {
        short.line_of(random, 2);
    }
    vec![
        empty.named("empty-lines-5000"),
        odd.without_last_line_feed().named("lines-of-one-character-3000"),
        short.named("bodies-of-one-byte-2000"),
    ]
}

/// Line feeds around multiples of what a program may read at once, from three bytes before to two behind; at 65,536
/// they are the last byte of a read and the first of the next.
fn line_ends_around(random: &mut Random, step: usize) -> Pair {
    let mut input = Bodies::new(random, 4, 72);
    let shifts = if step == 65_536 {
        vec![2, 3]
    } else {
        vec![0, 1, 4, 2, 3, 5]
    };
    for (k, shift) in (1..).zip(shifts) {
        input.up_to(random, step * k + shift - 3);
    }
    input.line_of(random, 60);
    input.named(&format!("line-ends-around-{step}"))
}

/// The same of the output; its sixteenth multiple is that of 65,536 too. A line of the output has the characters of the
/// tag more than that of the input, so with its line feed it is odd; an empty line makes up for that.
fn written_line_ends_around_4096(random: &mut Random) -> Pair {
    let mut input = Bodies::new(random, 1, 64);
    let shifts = [0, 1, 4, 2, 3, 5].into_iter().cycle();
    let places: Vec<usize> = (1..=17).zip(shifts).map(|(k, shift)| 4_096 * k + shift - 3).collect();
    let mut written = 0;
    for place in &places {
        while place - written > 500 {
            let characters = 200 + 2 * random.below(100);
            input.line_of(random, characters - 16);
            written += characters + 1;
        }
        if (place - written) % 2 == 1 {
            input.refused(b"");
            written += 1;
        }
        input.line_of(random, place - written - 16);
        written = place + 1;
    }
    let pair = input.named("written-line-ends-around-4096");
    let ends = places
        .iter()
        .all(|place| pair.output.as_bytes().get(*place) == Some(&b'\n'));
    hold(ends, || "the places of the written line feeds".into());
    pair
}
