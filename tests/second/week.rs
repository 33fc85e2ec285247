//! A week of tariff tables, and the lines of the benchmark.

use crate::bodies::Bodies;
use crate::book::{frame_of, turned};
use crate::inner::hold;
use crate::inputs::{Input, Pair};
use crate::spare::all_set;
use crate::{check, hex};

const BODIES: [&str; 7] = [
    "MON Gibraltar 0450, Ceuta 0520, Tangier 0610",
    "TUE Gibraltar 0450, Ceuta 0515, Tangier 0610, Cadiz 0390",
    "WED Gibraltar 0455, Ceuta 0515",
    "THU Gibraltar 0455",
    "FRI Gibraltar 0490, Ceuta 0560, Tangier 0660, Cadiz 0430, Malaga 0445, Almeria 0470",
    "SAT all ports 0700",
    "SUN all ports 0700, from noon 0450",
];

/// K and L are bytes that follow each other, from these first ones on.
fn key_line(order: u8, length: u8, k: u8, l: u8) -> String {
    let bytes: Vec<u8> = [order, length].into_iter().chain(k..k + 16).chain(l..l + 16).collect();
    hex::written(&bytes)
}

/// Seven frames under order 2 and tags of 64 bits. Wednesday's was damaged on its way: byte 16 has its bit of value 4
/// turned.
pub fn week() -> Pair {
    let mut input = Input::with_key_line(key_line(2, 64, 0x10, 0xA0).as_bytes());
    for (day, body) in BODIES.iter().enumerate() {
        let frame = frame_of(&input.keys, body.as_bytes());
        let damaged = day == 2;
        let frame = if damaged { turned(&frame, 8 * 16 + 5) } else { frame };
        input.frame(&frame, Some(if damaged { 7 } else { 0 }));
    }
    input.named("week")
}

/// The same week under tags of 60 bits, with nothing damaged. Behind Tuesday's frame stands a relay's copy of it, with
/// the four spare bits of the tag set. It is refused, or the unit would file one frame twice (item 4 of the requests).
pub fn week_of_60_bits() -> Pair {
    let mut input = Input::with_key_line(key_line(2, 60, 0x10, 0xA0).as_bytes());
    for (day, body) in BODIES.iter().enumerate() {
        let frame = frame_of(&input.keys, body.as_bytes());
        input.frame(&frame, Some(0));
        if day == 1 {
            input.frame(&all_set(60, &frame), Some(7));
        }
    }
    input.named("week60")
}

/// The same week as shore sends it, as files by the ends of their names: the key line, the bodies, the frames that send
/// writes for these, and what check says to them. Nothing is damaged here.
pub fn week_sent() -> [(&'static str, Vec<u8>); 4] {
    let key = key_line(2, 64, 0x10, 0xA0) + "\n";
    let mut input = Bodies::with_key_line(key.trim_end().as_bytes());
    for body in BODIES {
        input.body(body.as_bytes());
    }
    let Pair { input, output, .. } = input.named("week sent");
    let bodies = input[key.len()..].to_vec();
    let verdicts = check::answer_all(&[key.as_bytes(), output.as_bytes()].concat());
    [
        ("key", key.into_bytes()),
        ("bodies", bodies),
        ("frames", output.into_bytes()),
        ("verdicts", verdicts.into_bytes()),
    ]
}

const BENCH_BODY: (usize, u8, u8) = (100, 3, 7);

/// One frame of 100 body bytes under order 2 and tags of 128 bits.
pub fn bench_line() -> Pair {
    let mut input = Input::with_key_line(key_line(2, 128, 0x00, 0x10).as_bytes());
    let (count, first, step) = BENCH_BODY;
    let frame = frame_of(&input.keys, &crate::probe::pattern(count, first, step));
    input.frame(&frame, Some(0));
    input.named("bench line")
}

/// The body of that frame under the same key line, for which send writes the line.
pub fn bench_body() -> Pair {
    let key = key_line(2, 128, 0x00, 0x10);
    let mut input = Bodies::with_key_line(key.as_bytes());
    let (count, first, step) = BENCH_BODY;
    input.body(&crate::probe::pattern(count, first, step));
    let pair = input.named("bench body");
    hold(
        [&key, "\n", &pair.output].concat().into_bytes() == bench_line().input,
        || "send writes the line of the benchmark".into(),
    );
    pair
}
