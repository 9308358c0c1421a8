//! The digest that the oracle and the proved code are compared by.

use crate::answer::Answer;

/// The largest prime below 2^32: a digest and a number mix without overflow in 64 bits.
const MODULUS: u64 = 4_294_967_291;
/// The multiplier of the 32-bit FNV hash.
const MULTIPLIER: u64 = 16_777_619;

/// The digest of nothing. It is not 0, in which leading zeros would leave no trace.
pub const START: u64 = 1;

/// `h` with the numbers of one more answer folded in.
pub fn fold(h: u64, answer: &Answer) -> u64 {
    let mut h = h;
    answer.numbers(&mut |number| h = mix(h, number));
    h
}

fn mix(h: u64, number: u64) -> u64 {
    (h * MULTIPLIER + number % MODULUS) % MODULUS
}
