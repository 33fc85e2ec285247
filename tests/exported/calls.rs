//! What calls.c does, from Rust: the exported calls of the static library, a question a line on standard input, in
//! hexadecimal, and its answer a line on standard output. calls.c has the form of both.

#[path = "../../examples/rust/collierbud.rs"]
mod collierbud;

use collierbud::Keys;
use std::io::{self, BufRead};

fn bytes(digits: &str) -> Vec<u8> {
    (0..digits.len())
        .step_by(2)
        .map(|at| u8::from_str_radix(&digits[at..at + 2], 16).expect("a question is in hexadecimal"))
        .collect()
}

fn key(field: &[u8]) -> [u8; 16] {
    field.try_into().expect("a key has sixteen bytes")
}

/// The number, the counts, and the tag space where a tag was asked for, which holds A5 before.
fn answer(question: &str) -> String {
    let (call, fields) = question.split_once(' ').expect("a question is a call and its fields");
    let fields: Vec<Vec<u8>> = fields.split(' ').map(bytes).collect();
    let (order, bits) = (usize::from(fields[0][0]), usize::from(fields[1][0]));
    let (k, l) = (key(&fields[2]), key(&fields[3]));
    let (keys, text) = (Keys { order, bits, k, l }, &fields[4]);
    let mut tag = Vec::new();
    let (number, counts) = match call {
        "tag" => {
            tag = vec![0xA5; if bits == 0 { 16 } else { (bits + 7) / 8 }];
            let (number, counts) = keys.tag(text, &mut tag);
            (number, counts.to_vec())
        }
        "check" => {
            let (number, counts) = keys.check(text, &fields[5]);
            (number, counts.to_vec())
        }
        _ => {
            let (number, [whole, four], body) = keys.open(text);
            (number, vec![whole, four, body.len() as u64])
        }
    };
    let counts: String = counts.iter().map(|count| format!("{count:016X}")).collect();
    let tag: String = tag.iter().map(|byte| format!("{byte:02X}")).collect();
    format!("{number:02X}{counts}{tag}")
}

fn main() {
    for line in io::stdin().lock().lines() {
        println!("{}", answer(&line.expect("standard input is text")));
    }
}
