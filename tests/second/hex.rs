//! Pairs of the characters 0-9 and A-F.

/// The bytes that the characters write, or nothing where their number is odd or one of them is another character.
pub fn pairs(characters: &[u8]) -> Option<Vec<u8>> {
    if characters.len() % 2 == 1 {
        return None;
    }
    characters
        .chunks_exact(2)
        .map(|pair| Some(digit(pair[0])? << 4 | digit(pair[1])?))
        .collect()
}

fn digit(character: u8) -> Option<u8> {
    match character {
        b'0'..=b'9' => Some(character - b'0'),
        b'A'..=b'F' => Some(character - b'A' + 10),
        _ => None,
    }
}

/// The characters that write the bytes.
pub fn written(bytes: &[u8]) -> String {
    let digits = bytes.iter().flat_map(|byte| [byte >> 4, byte & 15]);
    digits
        .filter_map(|value| char::from_digit(value.into(), 16))
        .map(|c| c.to_ascii_uppercase())
        .collect()
}
