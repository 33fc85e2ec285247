//! What examples/c/tagged.c does, from Rust. It prints examples/c/tagged.out.
//!
//!     (cd crates/collierbud && rt lib)
//!     rustc --edition 2021 -L crates/collierbud/out examples/rust/main.rs -o tagged && ./tagged

mod collierbud;

fn open_and_say(what: &str, keys: &collierbud::Keys, frame: &[u8]) {
    let (number, [whole, four], body) = keys.open(frame);
    let body = String::from_utf8_lossy(body);
    println!("{what} {number}, {whole} whole and {four} four-round steps, body \"{body}\"");
}

fn main() {
    let keys = collierbud::Keys {
        order: 2,
        bits: 64,
        k: std::array::from_fn(|i| 0x10 + i as u8),
        l: std::array::from_fn(|i| 0xA0 + i as u8),
    };
    let text = b"MON Gibraltar 0450, Ceuta 0520, Tangier 0610";
    let mut tag = [0; 8];

    let (number, [whole, four]) = keys.tag(text, &mut tag);
    let digits: String = tag.iter().map(|b| format!("{b:02X}")).collect();
    println!("tag {number}, {whole} whole and {four} four-round steps, {digits}");

    println!("check {}", keys.check(text, &tag).0);
    let sixth = collierbud::Keys { order: 6, ..keys };
    println!("check at order 6 {}", sixth.check(text, &tag).0);

    let mut frame = [&text[..], &tag].concat();
    open_and_say("open", &keys, &frame);
    frame[16] ^= 4; // 0450 becomes 0410
    open_and_say("open damaged", &keys, &frame);
    open_and_say("open a tag alone", &keys, &frame[text.len()..]);
}
