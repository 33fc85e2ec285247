//! AES-128 encryption (FIPS 197) and its four-round piece (document 001, 2.2 and 2.3).
//!
//! A block is an integer of 128 bits, big endian: byte 0 is the highest. Byte r + 4c stands in row r, column c, so a
//! column is 32 neighbouring bits with row 0 on top.

use crate::field::{affine, inverse, times_x};
use crate::inner::hold;

pub type Block = u128;

/// The eleven round keys, taken as they are: those of a made-up key set need not come from any K.
pub type RoundKeys = [Block; 11];

/// The number 1 in each of the four columns.
const COLUMNS: u128 = u128::MAX / 0xFFFF_FFFF;

fn sub_bytes(state: Block) -> Block {
    affine(inverse(state))
}

/// Row r is turned to the left by r places, so place i = r + 4c takes what stood at r + 4(c + r).
fn shift_rows(state: Block) -> Block {
    let bytes = state.to_be_bytes();
    Block::from_be_bytes(std::array::from_fn(|i| bytes[(i + 4 * (i % 4)) % 16]))
}

/// Every column turned upwards by some rows: row r takes what stood in row r + rows.
fn turn_columns(state: Block, rows: u32) -> Block {
    let kept = COLUMNS * u128::from(u32::MAX << (8 * rows));
    ((state << (8 * rows)) & kept) | ((state >> (32 - 8 * rows)) & !kept)
}

/// Row r becomes 2 a_r + 3 a_(r+1) + a_(r+2) + a_(r+3), and 3 a is 2 a + a (FIPS 197, 5.1.3).
fn mix_columns(state: Block) -> Block {
    let [next, second, third] = [1, 2, 3].map(|rows| turn_columns(state, rows));
    times_x(state ^ next) ^ next ^ second ^ third
}

/// A round without its key: SubBytes, ShiftRows, MixColumns.
fn mixed_round(state: Block) -> Block {
    mix_columns(shift_rows(sub_bytes(state)))
}

/// E: ten rounds, the last without MixColumns (FIPS 197, 5.1).
pub fn encrypt(keys: &RoundKeys, block: Block) -> Block {
    let state = keys[1..10]
        .iter()
        .fold(block ^ keys[0], |state, key| mixed_round(state) ^ key);
    shift_rows(sub_bytes(state)) ^ keys[10]
}

/// G under U: no key first, U's three parts after the first, second and third round, none after the fourth, which keeps
/// its ShiftRows and MixColumns (document 001, 2.3 and 2.7).
pub fn four_rounds(u: &[Block; 3], block: Block) -> Block {
    let state = u.iter().fold(block, |state, part| mixed_round(state) ^ part);
    mixed_round(state)
}

/// The key expansion (FIPS 197, 5.2), four words at a time; the round constants are the powers of x.
pub fn round_keys(key: Block) -> RoundKeys {
    let constants = std::iter::successors(Some(1), |&power| Some(times_x(power)));
    let mut keys = [key; 11];
    for (i, constant) in (1..11).zip(constants) {
        keys[i] = next_round_key(keys[i - 1], constant);
    }
    keys
}

/// Word j of the next round key is the sum of the words 0 to j of this one and of its last word, turned, substituted
/// and with the round constant added on top.
fn next_round_key(key: Block, constant: u128) -> Block {
    let turned = (key as u32).rotate_left(8);
    let added = sub_bytes(turned.into()) as u32 ^ ((constant as u32) << 24);
    let sums = key ^ (key >> 32) ^ (key >> 64) ^ (key >> 96);
    sums ^ (COLUMNS * u128::from(added))
}

/// The published vectors of FIPS 197 (appendices A.1, B and C.1), and the two entries that the outline gives.
pub fn hold_to_published_vectors() {
    hold(sub_bytes(0) & 0xFF == 0x63 && sub_bytes(0x53) & 0xFF == 0xED, || {
        "the substitution of 00 and 53".into()
    });
    let key = 0x2B7E1516_28AED2A6_ABF71588_09CF4F3C;
    let keys = round_keys(key);
    hold(keys[10] == 0xD014F9A8_C9EE2589_E13F0CC8_B6630CA6, || {
        "FIPS 197, A.1: the last round key".into()
    });
    let answer = encrypt(&keys, 0x3243F6A8_885A308D_313198A2_E0370734);
    hold(answer == 0x3925841D_02DC09FB_DC118597_196A0B32, || {
        "FIPS 197, appendix B".into()
    });
    let answer = encrypt(
        &round_keys(0x00010203_04050607_08090A0B_0C0D0E0F),
        0x00112233_44556677_8899AABB_CCDDEEFF,
    );
    hold(answer == 0x69C4E0D8_6A7B0430_D8CDB780_70B4C55A, || {
        "FIPS 197, appendix C.1".into()
    });
}
