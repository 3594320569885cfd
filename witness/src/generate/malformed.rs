//! Traces that are refused, one kind for each way a header can be wrong.

use crate::trace::LONGEST;

use super::random::Random;
use super::story::{story, trace};

/// How many kinds there are.
pub const KINDS: usize = 7;

pub fn malformed(mut random: Random, kind: usize) -> Vec<u8> {
    let length = random.between(1, 20);
    let story_seed = u64::from(random.word());
    let mut trace = trace(&story(Random::new(story_seed, 0), length));
    match kind % KINDS {
        0 => trace.truncate(random.below(7)),
        1 => spoil_mark(&mut random, &mut trace),
        2 => spoil_version(&mut random, &mut trace),
        3 => spoil_count(&mut random, &mut trace),
        4 => {
            let cut = random.between(1, trace.len() - 7);
            trace.truncate(trace.len() - cut);
        }
        5 => {
            let added = random.pick(&[1, 1, 2, 3, 4, 8, 100]);
            trace.resize(trace.len() + added, 0x18);
        }
        _ => oversize(&mut random, &mut trace),
    }
    trace
}

/// The mark, and sometimes what comes after it as well: 5 comes first.
fn spoil_mark(random: &mut Random, trace: &mut [u8]) {
    let place = random.below(3);
    trace[place] ^= random.pick(&[0x20, 0x01, 0x80, 0xFF]);
    if random.coin() {
        trace[4] = random.byte();
        trace[5] = random.byte();
    }
}

fn spoil_version(random: &mut Random, trace: &mut [u8]) {
    let version = random.pick(&[0x0000, 0x0002, 0x0100, 0x0101, 0xFFFF]);
    trace[3..5].copy_from_slice(&u16::to_be_bytes(version));
    if random.coin() {
        trace[5] = 0xFF;
    }
}

/// A count just above the most, or far; sometimes with its records there.
fn spoil_count(random: &mut Random, trace: &mut Vec<u8>) {
    let far = random.pick(&[16_002, 20_000, 0xFFFF]);
    let count = random.pick(&[16_001, 16_001, 16_001, far]);
    trace[5..7].copy_from_slice(&u16::to_be_bytes(count));
    if count < 16_003 && random.once_in(4) {
        trace.resize(7 + 4 * usize::from(count), 0x18);
    }
}

/// Longer than any good trace, with a head that is good or wrong.
fn oversize(random: &mut Random, trace: &mut Vec<u8>) {
    match random.below(5) {
        0 => spoil_mark(random, trace),
        1 => spoil_version(random, trace),
        2 => spoil_count(random, trace),
        3 => trace[5..7].copy_from_slice(&16_000u16.to_be_bytes()),
        _ => {}
    }
    let beyond = random.pick(&[1, 4, 5, 3_000]);
    trace.resize(LONGEST + beyond, 0x18);
}
