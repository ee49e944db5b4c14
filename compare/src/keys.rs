//! Lists of keys that are hard for a search by hashes, and easy ones.

use crate::inputs::{Rng, shuffle};
use std::collections::HashSet;

/// What the library's search multiplies a key by, modulo 2^32 (crates/batch_index). Its hashes are the top bits of such products.
pub const FACTOR: u32 = 2_891_336_453;

/// What a key is multiplied by for a hash, by its number: FACTOR for the first, and once more for each one after it.
pub fn factor(hash: u32) -> u32 {
    FACTOR.wrapping_pow(hash)
}

/// Multiplying by this undoes multiplying by the odd number, modulo 2^32: the power of 2^30 of any odd number is 1.
pub fn inverse(odd: u32) -> u32 {
    odd.wrapping_pow((1 << 30) - 1)
}

/// A hash, by its number, that lies in a range of one in so many numbers.
#[derive(Clone, Copy)]
pub struct Narrow {
    pub hash: u32,
    pub one_in: u32,
}

/// Different keys of which one hash takes the numbers from `start` on, and each other lies in its range.
pub fn crowded_from(start: u32, hash: u32, others: &[Narrow]) -> impl Iterator<Item = u32> {
    let back = inverse(factor(hash));
    let limits: Vec<(u32, u32)> = others
        .iter()
        .map(|other| (factor(other.hash), u32::MAX / other.one_in))
        .collect();
    let numbers = (0..=u32::MAX).map(move |step| start.wrapping_add(step));
    let keys = numbers.map(move |number| number.wrapping_mul(back));
    keys.filter(move |key| {
        limits
            .iter()
            .all(|&(factor, limit)| key.wrapping_mul(factor) <= limit)
    })
}

/// The keys without those that stand before.
pub fn distinct(keys: impl Iterator<Item = u32>) -> impl Iterator<Item = u32> {
    let mut seen = HashSet::new();
    keys.filter(move |key| seen.insert(*key))
}

/// Different numbers of 32 bits.
pub fn random(count: usize, rng: &mut Rng) -> Vec<u32> {
    let words = std::iter::repeat_with(|| rng.word() as u32);
    distinct(words).take(count).collect()
}

/// Different keys with neighbouring numbers for the first hash, in any order.
pub fn crowded(count: usize, rng: &mut Rng) -> Vec<u32> {
    let mut keys: Vec<u32> = crowded_from(rng.word() as u32, 1, &[])
        .take(count)
        .collect();
    shuffle(&mut keys, rng);
    keys
}

pub fn descending(count: usize) -> Vec<u32> {
    (0..count as u32).rev().collect()
}

/// Different keys, but for the last tenth, which stand before, near or far.
pub fn doubled_late(count: usize, rng: &mut Rng) -> Vec<u32> {
    let mut keys = random(count, rng);
    let first = count - count / 10;
    for position in first..count {
        keys[position] = keys[rng.below(position)];
    }
    keys
}
