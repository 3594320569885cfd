//! Seeded captures, step scripts and board scripts that reach deep states, and
//! recorder scripts.

pub mod board_mixes;
pub mod boards;
pub mod bus;
pub mod decoding;
pub mod edge;
pub mod low;
pub mod malformed;
pub mod mixes;
pub mod program;
pub mod programming;
pub mod random;
pub mod recorders;
pub mod scenes;
pub mod service;
pub mod steps;
pub mod story;

/// The captures of a seed that must meet every row often enough.
pub const SET: usize = 3_000;

/// The captures, the first of the set, and the scripts that go through the
/// proved programs if no other number is asked for. They tell every wrong
/// reading that can be told; the package `wrong-readings` holds them to it.
pub const COMPARED: usize = 300;
pub const SCRIPTS: u64 = 10;
pub const CASES: usize = 100;

/// The bytes of one file of a seed's set: every third is a refused trace, each
/// kind in its turn, the others are stories. The first two have the least and
/// the most records, so that the smallest set has both.
pub fn file(seed: u64, number: usize) -> Vec<u8> {
    let mut random = random::Random::new(seed, number as u64);
    if number % 3 == 2 {
        return malformed::malformed(random, number / 3);
    }
    let length = match (number, random.below(200)) {
        (0, _) => 0,
        (1, _) | (_, 0) => 16_000,
        (_, 1..=16) => random.below(4),
        _ => random.between(30, 300),
    };
    story::trace(&story::story(random, length))
}
