//! The spare bits of a tag: the low bits of its last byte that are beyond the tag length. A written tag has zeros
//! there, and so has a received one that is accepted (item 4 of the requests).

/// The tag lengths that have spare bits: those that are no multiple of 8.
pub fn lengths() -> impl Iterator<Item = u8> {
    (1..=128).filter(|length| length % 8 != 0)
}

/// All spare bits of a tag of so many bits, in its last byte.
fn all(length: u8) -> u8 {
    match length % 8 {
        0 => 0,
        stated => 0xFF >> stated,
    }
}

/// Bytes that end with a tag, with these bits of its last byte set.
fn with(bytes: &[u8], bits: u8) -> Vec<u8> {
    let mut set = bytes.to_vec();
    if let Some(last) = set.last_mut() {
        *last |= bits;
    }
    set
}

/// Bytes that end with a tag of so many bits, with all its spare bits set.
pub fn all_set(length: u8, bytes: &[u8]) -> Vec<u8> {
    with(bytes, all(length))
}

/// The same with each spare bit set alone, from the highest on, and then with all of them. Where there is but one, both
/// are the same, and stand here once.
pub fn spellings(length: u8, bytes: &[u8]) -> Vec<Vec<u8>> {
    let all = all(length);
    let alone = (0..8).rev().map(|place| 1 << place).filter(|bit| all & bit != 0);
    let together = Some(all).filter(|bits| bits.count_ones() > 1);
    alone.chain(together).map(|bits| with(bytes, bits)).collect()
}
