//! Traces of 16,000 records for the benchmark, in several mixes of cycles.
//! Records are made byte by byte, with no unit beside them.

use super::random::Random;

pub const NAMES: [&str; 5] = ["quiet", "faults", "commands", "mixed", "noise"];

const RECORDS: usize = 16_000;

type Record = [u8; 4];

const ACKNOWLEDGE: Record = [0x14, 0, 0, 0];
const RESET: Record = [0x80, 0x80, 0, 0];
const CLEAR_VTR: Record = [0x83, 0, 0x11, 0];
const CLEAR_FATL: Record = [0x83, 0, 0x14, 0];

/// The trace of a mix, by its place in `NAMES`.
pub fn trace(mix: usize, seed: u64) -> Vec<u8> {
    let mut random = Random::new(seed, mix as u64);
    let mut records = Vec::new();
    if mix < 4 {
        program(&mut random, mix == 0, &mut records);
    }
    while records.len() < RECORDS {
        records.push(next(mix, &mut random));
    }
    let mut trace = b"MBT\0\x01".to_vec();
    trace.extend((RECORDS as u16).to_be_bytes());
    trace.extend(records.concat());
    trace
}

/// Loads all 64 descriptors with %0F, and turns translation on.
fn program(random: &mut Random, open: bool, records: &mut Vec<Record>) {
    let mut write = |code: u8, byte: u8| records.push([0x83, 0, code, byte]);
    write(0x20, 0);
    write(0x01, 0);
    for byte in table(random, open) {
        write(0x0F, byte);
    }
    write(0x00, 0xC0 | (random.byte() % 8));
}

/// The bytes of 64 descriptors; open ones have few flags and much room.
pub(super) fn table(random: &mut Random, open: bool) -> Vec<u8> {
    let mut bytes = Vec::new();
    for _ in 0..64 {
        bytes.extend([random.byte(), random.byte()]);
        bytes.push(random.byte() | if open { 0x80 } else { 0 });
        bytes.push(match (open, random.below(8)) {
            (true, 0) => 1 << random.below(6),
            (true, _) => 0,
            (false, _) => random.byte() & random.byte() & 0x3F,
        });
    }
    bytes
}

fn next(mix: usize, random: &mut Random) -> Record {
    match (mix, random.below(1000)) {
        (0, 0..=2) | (1, 0..=39) | (2, 0..=19) | (3, 0..=39) => ACKNOWLEDGE,
        (0, 3..=4) | (1, 40..=69) => CLEAR_VTR,
        (1, 70..=74) => CLEAR_FATL,
        (2, 20) | (3, 40..=41) => RESET,
        (2, 100..) | (3, 42..=359) => command(random),
        (3, 960..) | (4, _) => noise(random),
        _ => memory(random, mix == 0),
    }
}

/// A third are fetches; one in sixteen of the others is DMA.
pub(super) fn memory(random: &mut Random, lower_half: bool) -> Record {
    let fetch = random.once_in(3);
    let status = random.pick(&[0x8, 0x8, 0x8, 0x9, 0x9, 0xA, 0xB, 0xC]);
    let read = fetch || !random.once_in(3);
    let dma = !fetch && random.once_in(16);
    let half = if !lower_half && random.once_in(8) {
        64
    } else {
        0
    };
    let near = if random.coin() { 0x7F } else { 0xFF };
    [
        if fetch { 0xD } else { status }
            | u8::from(read) << 4
            | u8::from(random.coin()) << 5
            | u8::from(dma) << 6,
        (random.byte() % 64) | half,
        random.byte() & near,
        random.byte(),
    ]
}

/// Descriptor bytes mostly; now and then a set or clear command, or a bad code.
pub(super) fn command(random: &mut Random) -> Record {
    let common = random.pick(&[
        0x00, 0x01, 0x02, 0x03, 0x04, 0x05, 0x06, 0x07, 0x08, 0x09, 0x0A, 0x0B, 0x0B, 0x0B, 0x0C,
        0x0D, 0x0E, 0x0F, 0x0F, 0x0F, 0x0F, 0x11, 0x13, 0x14, 0x20, 0x12, 0x30,
    ]);
    let code = if random.once_in(400) {
        random.pick(&[0x10, 0x15, 0x16])
    } else {
        common
    };
    let read = match code {
        0x02..=0x07 => !random.once_in(16),
        0x10..=0x16 => random.once_in(16),
        _ => random.coin(),
    };
    let byte = random.byte();
    let byte = if code == 0 { 0xC0 | (byte % 8) } else { byte };
    [0x83 | u8::from(read) << 4, random.byte() % 128, code, byte]
}

/// Any record, with resets made rare and codes often listed ones.
pub(super) fn noise(random: &mut Random) -> Record {
    let reset = if random.once_in(64) { 0x80 } else { 0 };
    let codes = if random.coin() { 0x0F } else { 0xFF };
    [
        random.byte(),
        (random.byte() % 128) | reset,
        random.byte() & codes,
        random.byte(),
    ]
}
