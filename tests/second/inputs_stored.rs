//! The stored inputs of the program check, each under a name that says what it is.

use crate::book::{frame_of, turned};
use crate::inputs::{key_line, refused, right_frame, with_order, Input, Pair};
use crate::inputs_spare::refused_spellings;
use crate::library::{read_key_line, tag_size};
use crate::random::Random;
use crate::spare::spellings;
use crate::writer::{write, ROOM};

pub fn all(random: &mut Random) -> Vec<Pair> {
    let mut pairs = key_lines(random);
    let key_lines = [key_lines_refused(random), key_lines_with_faults_together(random)].concat();
    pairs.extend(
        key_lines
            .iter()
            .map(|(name, text, number)| refused(name, text, *number)),
    );
    pairs.extend([
        worked_example(),
        empty_lines(random),
        other_characters(random),
        carriage_returns(random),
    ]);
    pairs.extend([
        lines_near_the_limit(random),
        very_long_lines(random),
        short_lines(random),
    ]);
    pairs.extend([
        every_bit_of_a_frame(random, 2, 60),
        every_bit_of_a_frame(random, 5, 128),
    ]);
    pairs.extend(
        [
            orders_and_lengths(random),
            bodies_of_every_size(random),
            repeated_lines(random),
        ]
        .into_iter()
        .flatten(),
    );
    pairs.extend([4_096, 8_192, 65_536].map(|step| line_ends_around(random, step)));
    // Each behind all before it, so that those and the random numbers that they draw stay as they are.
    pairs.push(one_line_for_one_body(random));
    pairs.push(order_00(random));
    pairs.extend([(3, 1), (5, 4), (4, 127)].map(|pair| spare_bits(random, pair)));
    pairs
}

/// No key line, or nothing behind it.
fn key_lines(random: &mut Random) -> Vec<Pair> {
    let right = Input::new(random, 2, 64);
    let mut frame = right.clone();
    frame.frame(&right_frame(random, &right.keys), Some(0));
    let [order_00, order_01] = order_00_and_01(random, 64);
    let length_00 = Input::new(random, 3, 0).then_frames(random);
    let [both_00, order_01_length_00] = order_00_and_01(random, 0);
    vec![
        Input::default().named("empty-input"),
        refused("one-line-feed", b"\n", 8),
        refused("one-character", b"0", 8),
        right.clone().named("key-line-alone"),
        right.without_last_line_feed().named("key-line-alone-without-line-feed"),
        frame.without_last_line_feed().named("last-line-feed-missing"),
        order_00.named("key-line-order-00"),
        length_00.named("key-line-length-00"),
        both_00.named("key-line-order-and-length-00"),
        order_01.named("key-line-order-01-in-place-of-00"),
        order_01_length_00.named("key-line-order-01-in-place-of-00-length-00"),
    ]
}

/// Under order 00, and under 01 in its place, with the same K, L and bodies. Whoever relied on 00 when it was taken as
/// order 1 must say 01 since item 2 of the requests: the second input and its output are what the first were before.
fn order_00_and_01(random: &mut Random, length: u8) -> [Input; 2] {
    let mut again = Random(random.0);
    [(0, random), (1, &mut again)].map(|(order, random)| Input::new(random, order, length).then_frames(random))
}

impl Input {
    fn then_frames(mut self, random: &mut Random) -> Input {
        for count in [1, 16, 17, 33, 49, 100] {
            let frame = frame_of(&self.keys, &random.bytes(count));
            self.frame(&frame, Some(0));
            self.frame(&turned(&frame, 8 * count), Some(7));
        }
        self
    }
}

/// A name, an input, and the number that its key line is refused with. The inputs of send have these too.
pub type Refused = (String, Vec<u8>, u8);

/// Each with lines behind it, which are not answered.
pub fn key_lines_refused(random: &mut Random) -> Vec<Refused> {
    let right = key_line(random, 2, 0xAA - 0x50);
    let frames = b"\n\n00112233445566778899AABBCCDDEEFF\nab\n";
    let with = |line: &[u8]| [line, frames].concat();
    let lines_of = |count: usize| with(&right.iter().copied().cycle().take(count).collect::<Vec<u8>>());
    let replaced = |place: usize, by: u8| {
        let mut line = right.clone();
        line[place] = by;
        with(&line)
    };
    vec![
        ("key-line-refused-1", with(&key_line(random, 6, 64)), 1),
        ("key-line-refused-1-order-ff", with(&key_line(random, 0xFF, 64)), 1),
        ("key-line-refused-2", with(&key_line(random, 5, 129)), 2),
        ("key-line-refused-2-length-ff", with(&key_line(random, 1, 0xFF)), 2),
        ("key-line-refused-8-empty", frames.to_vec(), 8),
        ("key-line-refused-8-of-66", lines_of(66), 8),
        ("key-line-refused-8-of-67", lines_of(67), 8),
        ("key-line-refused-8-of-69", lines_of(69), 8),
        ("key-line-refused-8-of-70", lines_of(70), 8),
        ("key-line-refused-8-of-5000", lines_of(5_000), 8),
        ("key-line-refused-8-cr-lf", [&right[..], b"\r\n0011\r\n"].concat(), 8),
        ("key-line-refused-8-without-line-feed", right[..67].to_vec(), 8),
        ("key-line-refused-9", replaced(67, b'G'), 9),
        ("key-line-refused-9-first", replaced(0, b'/'), 9),
        ("key-line-refused-9-space", replaced(30, b' '), 9),
        ("key-line-refused-9-nul", replaced(31, 0), 9),
        ("key-line-refused-9-byte-80", replaced(32, 0x80), 9),
        ("key-line-refused-9-last-is-cr", replaced(67, b'\r'), 9),
        ("key-line-refused-9-lower-case", with(&right.to_ascii_lowercase()), 9),
    ]
    .into_iter()
    .map(|(name, text, number)| (name.to_string(), text, number))
    .collect()
}

/// 8 before 9, and 1 and 2 only after both.
pub fn key_lines_with_faults_together(random: &mut Random) -> Vec<Refused> {
    let mut inputs = Vec::new();
    for (set, name) in (0..16).zip(["", "8", "9", "8-9", "1", "8-1", "9-1", "8-9-1"].iter().cycle()) {
        let has = |fault: u32| set >> fault & 1 == 1;
        let faults = if has(3) { format!("{name}-2") } else { name.to_string() };
        let faults = faults.trim_start_matches('-').to_string();
        if !faults.contains('-') {
            continue;
        }
        let mut line = key_line(random, if has(2) { 6 } else { 5 }, if has(3) { 129 } else { 128 });
        if has(1) {
            line[40] = b'g';
        }
        if has(0) {
            line.extend_from_slice(b"00");
        }
        let first = faults.as_bytes()[0] - b'0';
        inputs.push((
            format!("key-line-faults-{faults}"),
            [&line[..], b"\n00\n"].concat(),
            first,
        ));
    }
    inputs
}

/// The outline's five lines and four answers.
fn worked_example() -> Pair {
    let mut input = Input::with_key_line(format!("0240{:064}", 0).as_bytes());
    for (line, number) in [("", 8), ("ABC", 9), ("0011223344556677", 8), ("ab", 9)] {
        input.line(line.as_bytes(), Some(number));
    }
    input.named("worked-example")
}

fn empty_lines(random: &mut Random) -> Pair {
    let mut input = Input::new(random, 1, 8);
    for _ in 0..5 {
        input.line(b"", Some(8));
    }
    input.frame(&right_frame(random, &input.keys.clone()), Some(0));
    input.line(b"", Some(8));
    input.named("empty-lines")
}

/// Every byte but the line feed at some place of an otherwise right frame.
fn other_characters(random: &mut Random) -> Pair {
    let mut input = Input::new(random, 4, 40);
    for character in (0..=255u8).filter(|byte| *byte != b'\n') {
        let frame = frame_of(&input.keys, &random.bytes(12));
        let mut line = crate::hex::written(&frame).into_bytes();
        let digit = b"0123456789ABCDEF".contains(&character);
        line[usize::from(character) % 34] = character;
        input.line(&line, if digit { None } else { Some(9) });
    }
    input.named("every-character")
}

fn carriage_returns(random: &mut Random) -> Pair {
    let mut input = Input::new(random, 2, 32);
    let frame = frame_of(&input.keys, b"CR");
    let line = crate::hex::written(&frame).into_bytes();
    for (before, after, number) in [
        ("", "\r", 9),
        ("\r", "", 9),
        ("", "\r\r", 9),
        ("\r", "\r", 9),
        ("", "", 0),
    ] {
        input.line(&[before.as_bytes(), &line, after.as_bytes()].concat(), Some(number));
    }
    input.line(b"\r", Some(9));
    input.line(&[&line[..6], b"\r", &line[6..]].concat(), Some(9));
    input.named("carriage-returns")
}

/// 509 to 512 characters, digits or not: 510 digits are a frame of 255 bytes.
fn lines_near_the_limit(random: &mut Random) -> Pair {
    let mut input = Input::new(random, 5, 100);
    for count in [505, 506, 507, 508, 509, 510, 511, 512, 513, 514, 1_020, 1_022] {
        input.line_of(random, count);
        input.line(&vec![b'x'; count], Some(if count > 510 { 8 } else { 9 }));
        input.line(
            &[&vec![b'0'; count - 1], &b"\r"[..]].concat(),
            Some(if count > 510 { 8 } else { 9 }),
        );
    }
    input.named("lines-of-509-to-512")
}

fn very_long_lines(random: &mut Random) -> Pair {
    let mut input = Input::new(random, 1, 128);
    for (character, count) in [
        (b'A', 100_000),
        (b'\0', 100_000),
        (b'A', 99_999),
        (b'5', 65_536),
        (b'z', 4_096),
    ] {
        input.line(&vec![character; count], Some(8));
        input.frame(&right_frame(random, &input.keys.clone()), Some(0));
    }
    input.line(&[b'0'; 510], None);
    input.named("lines-of-100000")
}

/// Lines of 0 to 3 characters, and frames up to one byte more than the tag.
fn short_lines(random: &mut Random) -> Pair {
    let mut input = Input::new(random, 3, 24);
    for line in ["0", "00", "000", "A", "F", " ", "  ", "0 ", "\t", "?"] {
        let number = if line.len() % 2 == 0 && !line.contains(' ') {
            8
        } else {
            9
        };
        input.line(line.as_bytes(), Some(number));
    }
    for count in 0..=tag_size(&input.keys) {
        input.frame(&random.bytes(count), Some(8));
    }
    input.frame(&frame_of(&input.keys, b"1"), Some(0));
    input.named("short-lines")
}

/// A frame, then the same with each of its bits turned, the tag's spare bits too.
fn every_bit_of_a_frame(random: &mut Random, order: u8, length: u8) -> Pair {
    let mut input = Input::new(random, order, length);
    let frame = frame_of(&input.keys, &random.bytes(23));
    input.frame(&frame, Some(0));
    for bit in 0..8 * frame.len() {
        input.frame(&turned(&frame, bit), Some(7));
    }
    input.named(&format!("every-bit-of-a-frame-order-{order}-length-{length}"))
}

fn orders_and_lengths(random: &mut Random) -> Vec<Pair> {
    let mut pairs = Vec::new();
    for order in 1..=5 {
        for length in [1, 7, 8, 9, 64, 127, 128] {
            let input = Input::new(random, order, length).then_frames(random);
            pairs.push(input.named(&format!("order-{order}-length-{length}")));
        }
    }
    pairs
}

/// Bodies of 1 byte up to 255 less the tag, and one byte more.
fn bodies_of_every_size(random: &mut Random) -> Vec<Pair> {
    let mut pairs = Vec::new();
    for (order, length) in [(2, 8), (5, 128)] {
        let mut input = Input::new(random, order, length);
        for count in 1..=256 - tag_size(&input.keys) {
            let frame = frame_of(&input.keys, &random.bytes(count));
            input.frame(&frame, Some(if frame.len() > 255 { 8 } else { 0 }));
        }
        pairs.push(input.named(&format!("bodies-of-every-size-length-{length}")));
    }
    pairs
}

/// The same short line many times: thousands of answers from little input.
fn repeated_lines(random: &mut Random) -> Vec<Pair> {
    let mut empty = Input::new(random, 2, 128);
    let mut odd = Input::new(random, 2, 128);
    for _ in 0..7_000 {
        empty.line(b"", Some(8));
    }
    for _ in 0..3_000 {
        odd.line(b"A", Some(9));
    }
    vec![
        empty.named("empty-lines-7000"),
        odd.without_last_line_feed().named("lines-of-one-character-3000"),
    ]
}

/// Line feeds from three bytes before to two behind multiples of what a program may read at once.
fn line_ends_around(random: &mut Random, step: usize) -> Pair {
    let mut input = Input::new(random, 4, 72);
    let multiples = if step == 65_536 { 3 } else { 12 };
    for (k, shift) in (1..=multiples).zip([0, 1, 4, 2, 3, 5].into_iter().cycle()) {
        input.up_to(random, step * k + shift - 3);
    }
    input.named(&format!("line-ends-around-{step}"))
}

/// One line is accepted for one body, that which the writer gives; with spare bits of its tag set it is refused. So an
/// accepted line is the one that the writer gives for its body, at every tag length (item 4 of the requests).
fn one_line_for_one_body(random: &mut Random) -> Pair {
    let mut input = Input::new(random, 2, 60);
    let mut space = [0; ROOM];
    let (_, characters) = write(&input.keys, b"one body", &mut space);
    input.line(&space[..characters as usize], Some(0));
    for spelling in spellings(60, &frame_of(&input.keys, b"one body")) {
        input.frame(&spelling, Some(7));
    }
    input.named("one-line-one-body-length-60")
}

/// Frames that are accepted, and one of them refused in every other spelling.
fn spare_bits(random: &mut Random, (order, length): (u8, u8)) -> Pair {
    refused_spellings(random, order, length).named(&format!("spare-bits-length-{length}"))
}

/// Bodies around full blocks, up to 48 bytes and beyond.
fn order_00(random: &mut Random) -> Pair {
    let counts = [1, 16, 48, 49, 64, 65, 80, 81, 100, 200];
    frames_of_order_1_and_2(random, 64, &counts).named("key-line-order-00-frames-of-order-1-and-2")
}

/// A key line with order 00, and each body in the frame of a sender of order 2, which is accepted, and in that of one
/// of order 1. Up to 48 bytes the two are the same frame; beyond, the second is refused.
pub fn frames_of_order_1_and_2(random: &mut Random, length: u8, counts: &[usize]) -> Input {
    let line = key_line(random, 0, length);
    let [one, two] = [1, 2].map(|order| read_key_line(&with_order(&line, order)).2);
    let mut input = Input::with_key_line(&line);
    for &count in counts {
        let body = random.bytes(count);
        input.frame(&frame_of(&two, &body), Some(0));
        input.frame(&frame_of(&one, &body), Some(if count > 48 { 7 } else { 0 }));
    }
    input
}
