//! The field GF(2^8) of FIPS 197, section 4, sixteen elements at a time.
//!
//! An element is a polynomial over GF(2) of degree at most 7, written as an integer whose bit i is the coefficient of
//! x^i. A block is sixteen such integers, so an integer of 128 bits is read here as sixteen lanes of eight bits, and
//! each operation works on all of them. Nothing is looked up in a table: an inverse is computed whenever it is wanted.

/// The polynomial 1 in each lane.
const ONES: u128 = u128::MAX / 0xFF;

/// What x^8 leaves modulo x^8 + x^4 + x^3 + x + 1 (FIPS 197, 4.2).
const X8: u128 = 0x1B;

/// The constant of the affine map (FIPS 197, 5.1.1).
const AFFINE: u128 = 0x63;

/// In each lane the coefficient of x^i, 0 or 1.
const fn coefficient(a: u128, i: u32) -> u128 {
    (a >> i) & ONES
}

/// Each lane times x: every coefficient moves up by one, and x^8 is reduced.
pub const fn times_x(a: u128) -> u128 {
    let overflow = coefficient(a, 7);
    ((a ^ (overflow << 7)) << 1) ^ (overflow * X8)
}

/// Lane by lane the product: the sum, over the terms x^i of `b`, of `a` times x^i.
pub fn product(a: u128, b: u128) -> u128 {
    let multiples = std::iter::successors(Some(a), |&multiple| Some(times_x(multiple)));
    // A coefficient times FF is a lane of ones where the term is there, and of zeros where it is not.
    (0..8)
        .zip(multiples)
        .fold(0, |sum, (i, multiple)| sum ^ (multiple & (coefficient(b, i) * 0xFF)))
}

/// x^0, x^2, x^4 .. x^14.
const EVEN_POWERS: [u128; 8] = {
    let mut powers = [1; 8];
    let mut i = 1;
    while i < 8 {
        powers[i] = times_x(times_x(powers[i - 1]));
        i += 1;
    }
    powers
};

/// Lane by lane the square. Over GF(2) the square of a sum is the sum of the squares, so x^i becomes x^(2i).
fn square(a: u128) -> u128 {
    (0..8)
        .zip(EVEN_POWERS)
        .fold(0, |sum, (i, power)| sum ^ (coefficient(a, i) * power))
}

/// Lane by lane the inverse. The 255 elements other than zero are a group, so the inverse of a is a^254; and zero goes
/// to zero, as the outline has it.
pub fn inverse(a: u128) -> u128 {
    let a2 = square(a);
    let a3 = product(a2, a);
    let a12 = square(square(a3));
    let a15 = product(a12, a3);
    let a240 = square(square(square(square(a15))));
    product(product(a240, a12), a2)
}

/// Lane by lane the affine map: bit i of the image is the sum of the bits i, i+4, i+5, i+6 and i+7 (modulo 8) and of
/// bit i of 63 (FIPS 197, 5.1.1).
pub fn affine(a: u128) -> u128 {
    let bit = |i: u32| {
        [0, 4, 5, 6, 7]
            .iter()
            .fold(0, |sum, k| sum ^ coefficient(a, (i + k) % 8))
    };
    (0..8).fold(ONES * AFFINE, |image, i| image ^ (bit(i) << i))
}
