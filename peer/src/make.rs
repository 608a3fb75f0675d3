//! Run files from a seed: lawful ones, full ones, mutated ones, ones at a border of a code, damaged ones.

mod border;
mod damaged;
mod full;
mod lawful;
mod mutated;
mod schedule;

use crate::random::Random;

/// The file of this number for this seed.
pub fn make(seed: u64, number: u64) -> Vec<u8> {
    let mut random = Random::new(seed, number);
    match random.range(0, 99) {
        0..=49 => lawful::make(&mut random).write(),
        50..=55 => full::make(&mut random).write(),
        56..=65 => mutated::make(&mut random),
        66..=87 => border::make(&mut random),
        _ => damaged::make(&mut random),
    }
}
