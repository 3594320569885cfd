//! Recorder scripts: buffers of every length that matters, counts that stand and
//! counts that no trace has, and cycles that meet what ticket 1 says of them.

pub mod desk;

use super::low::low;
use super::random::Random;
use super::story::story;
use crate::cycle::Cycle;
use crate::trace::{HEAD, LONGEST, MOST, RECORD};
use desk::{any, beyond, bit_by_bit, length, Desk};

/// The scripts of a seed, and the cases of each.
pub const SCRIPTS: u64 = 10;
pub const CASES: usize = KINDS.len();

/// A kind of case: its name, and what makes it.
type Kind = (&'static str, fn(&mut Desk));

/// The first case of a script starts as a script does, with no buffer said.
const KINDS: [Kind; 17] = [
    ("unsaid", unsaid),
    ("short", short),
    ("fitting", fitting),
    ("bits", bits),
    ("fields", fields),
    ("range", range),
    ("reset", reset),
    ("order", order),
    ("counts", counts),
    ("deep", deep),
    ("back", back),
    ("header", header),
    ("past", past),
    ("full", full),
    ("again", again),
    ("same", same),
    ("story", recorded_story),
];

/// The longest buffer of a script.
const WIDEST: usize = 0xFFFF;

/// The scripts of a seed.
pub fn scripts(seed: u64) -> impl Iterator<Item = String> {
    (0..SCRIPTS).map(move |number| cases(seed.wrapping_add(number)).collect())
}

/// The cases of one script, one of each kind. Only the first leaves its buffer
/// unsaid, so that each case is a script by itself.
pub fn cases(seed: u64) -> impl Iterator<Item = String> {
    let kinds = KINDS.iter().enumerate();
    kinds.map(move |(case, (name, make))| {
        // A lane of its own: step scripts and board scripts have the first ones.
        let mut desk = Desk::new(Random::new(seed, 2 << 32 | case as u64));
        make(&mut desk);
        format!("# {case} {name}\n{}", desk.text)
    })
}

/// A buffer of no bytes: 10 but where 1 or 7 comes before it.
fn unsaid(desk: &mut Desk) {
    desk.text();
    desk.any();
    desk.beyond();
    desk.put(0, 0x4D);
    desk.start();
    let count = desk.random.pick(&[MOST as u64, u64::MAX]);
    desk.count(count);
    desk.any();
    desk.beyond();
    desk.text();
    desk.start();
    desk.any();
}

/// Each length up to that of two records and a byte.
fn short(desk: &mut Desk) {
    for length in 0..=length(2) + 1 {
        desk.lend_any(length);
        let stands = desk.random.pick(&[0, 0, 1, MOST as u64]);
        if stands > 0 {
            desk.count(stands);
        }
        desk.start();
        desk.any();
        if desk.random.once_in(4) {
            desk.beyond();
        }
        desk.several(2);
        desk.text();
        desk.start();
    }
}

/// Room for some records and no more, and for a byte less or more.
fn fitting(desk: &mut Desk) {
    for _ in 0..2 {
        let records = desk.random.between(1, 7);
        for length in [length(records) - 1, length(records), length(records) + 1] {
            desk.lend_any(length);
            desk.start();
            desk.several(records - 1);
            desk.text();
            desk.several(3);
            desk.text();
        }
    }
}

/// Each bit of a cycle by itself, over bytes that have it and that do not.
fn bits(desk: &mut Desk) {
    let byte = desk.random.byte();
    for (alone, byte) in [(true, byte), (false, !byte)] {
        let cycles = bit_by_bit(alone);
        desk.lend(length(cycles.len()), byte);
        desk.start();
        for cycle in cycles {
            desk.cycle(cycle);
        }
        desk.text();
    }
}

/// Every status, and any fields beside it; some cycles twice, and some alike but
/// for the low byte.
fn fields(desk: &mut Desk) {
    desk.lend_any(length(60));
    desk.start();
    for status in 0..16 {
        let cycle = any(&mut desk.random);
        desk.cycle(Cycle { status, ..cycle });
        if desk.random.coin() {
            let low = low(&mut desk.random);
            let again = Cycle {
                status,
                low,
                ..cycle
            };
            desk.cycle(again);
        }
        desk.any();
    }
    desk.text();
}

/// Cycles out of their numbers among others, where there is room, where there is
/// none, and where the trace has as many records as it can have.
fn range(desk: &mut Desk) {
    let room = desk.random.between(4, 9);
    desk.lend_any(length(room));
    desk.start();
    for _ in 0..2 * room {
        match desk.random.coin() {
            true => desk.any(),
            false => desk.beyond(),
        }
    }
    desk.text();
    let far = desk.random.pick(&[MOST as u64, 1 << 32, u64::MAX]);
    for count in [room as u64 - 1, room as u64, far] {
        desk.count(count);
        desk.beyond();
        desk.beyond();
    }
    desk.start();
    desk.beyond();
    desk.text();
}

/// Resets with all their fields, within their numbers and out of them.
fn reset(desk: &mut Desk) {
    desk.lend_any(length(16));
    desk.start();
    for _ in 0..14 {
        let make = desk.random.pick(&[any, any, any, beyond]);
        let cycle = make(&mut desk.random);
        desk.cycle(Cycle {
            reset: true,
            ..cycle
        });
    }
    desk.several(2);
    desk.text();
}

/// 1, 7 and 10 at once, each pair of them, and each alone.
fn order(desk: &mut Desk) {
    let few = desk.random.below(12);
    let edges = [LONGEST - RECORD, LONGEST - 1, LONGEST, LONGEST + 1];
    for length in [few].into_iter().chain(edges).chain([WIDEST]) {
        desk.lend_any(length);
        for count in MOST - 2..=MOST + 1 {
            desk.count(count as u64);
            desk.beyond();
            desk.any();
        }
    }
}

/// Counts at which a number of 14, 16, 32, 62, 63 or 64 bits ends, in buffers of
/// any length.
fn counts(desk: &mut Desk) {
    let few = desk.random.between(1, 6) as u64;
    let ends = [14, 16, 32, 62, 63].map(|bits| 1u64 << bits);
    let mut counts = vec![
        0,
        1,
        few,
        MOST as u64,
        16_381,
        16_382,
        u64::MAX - 1,
        u64::MAX,
    ];
    for end in ends {
        counts.extend([end - 1, end, end + few]);
    }
    let short = length(desk.random.between(1, 8));
    for length in [short, LONGEST, WIDEST] {
        desk.lend_any(length);
        for count in counts.clone() {
            if desk.random.once_in(8) {
                desk.start();
            }
            desk.count(count);
            desk.any();
            if count > MOST as u64 && desk.random.once_in(8) {
                desk.text();
            }
        }
    }
}

/// Records far behind the start, where the count takes both its bytes.
fn deep(desk: &mut Desk) {
    let length = desk
        .random
        .pick(&[LONGEST - 1, LONGEST, LONGEST + 1, WIDEST]);
    desk.lend_any(length);
    for bit in 0..14 {
        let any = desk.random.below(MOST - 2) as u64;
        let edge = (1 << bit) - 1;
        for count in [edge, any] {
            desk.count(count);
            desk.any();
        }
    }
    desk.start();
    desk.several(2);
    desk.text();
}

/// A smaller count than the one that stands, so that records are written anew;
/// and a greater one, so that there are records which no call has written.
fn back(desk: &mut Desk) {
    let records = desk.random.between(4, 9);
    desk.lend_any(length(records + 3));
    desk.start();
    desk.several(records);
    desk.text();
    for _ in 0..3 {
        let count = desk.random.below(records) as u64;
        desk.count(count);
        desk.text();
        desk.any();
        desk.text();
    }
    desk.count(records as u64 + 1);
    desk.text();
    desk.any();
    desk.text();
    desk.several(2);
    desk.text();
}

/// A header that is not what the writer left, before a cycle, a refused one and
/// the start.
fn header(desk: &mut Desk) {
    desk.lend_any(length(12));
    desk.start();
    for at in 0..HEAD {
        desk.any();
        let (flip, wild) = (1 << desk.random.below(8), desk.random.byte() | 1);
        let change = desk.random.pick(&[flip, wild, 0xFF]);
        let byte = desk.lent.buffer[at] ^ change;
        desk.put(at, byte);
        desk.text();
        if desk.random.coin() {
            desk.beyond();
        }
    }
    desk.any();
    desk.text();
    for at in 0..HEAD {
        let byte = desk.random.byte();
        desk.put(at, byte);
    }
    desk.any();
    desk.text();
    spoil_count(desk);
    desk.start();
    desk.any();
    desk.text();
}

/// A header with a good mark and another count than the one that stands.
fn spoil_count(desk: &mut Desk) {
    for count in [0, 2, MOST as u16, MOST as u16 + 1, 0xFFFF] {
        let [high, low] = count.to_be_bytes();
        desk.put(5, high);
        desk.put(6, low);
        desk.text();
        desk.any();
        desk.beyond();
    }
    let [high, low] = desk.random.word().to_be_bytes();
    desk.put(5, high);
    desk.put(6, low);
}

/// Bytes past the trace's end, at once behind it and at the buffer's end.
fn past(desk: &mut Desk) {
    let records = desk.random.between(3, 8);
    let end = length(records) + desk.random.below(4);
    desk.lend_any(end);
    desk.start();
    for number in 0..records {
        for at in [length(number), length(number + 1), end - 1, end, WIDEST] {
            let byte = desk.random.byte();
            desk.put(at, byte);
        }
        desk.any();
    }
    desk.any();
    desk.text();
    desk.start();
    desk.several(2);
    desk.text();
    // What the calls before the second start left behind the trace.
    desk.count(records as u64);
    desk.put(6, records as u8);
    desk.text();
}

/// The last records that a trace can have, and one more.
fn full(desk: &mut Desk) {
    let length = desk
        .random
        .pick(&[LONGEST - 1, LONGEST, LONGEST, LONGEST + 1, WIDEST]);
    desk.lend_any(length);
    desk.count(MOST as u64 - 3);
    desk.several(2);
    desk.beyond();
    desk.any();
    desk.text();
    desk.any();
    desk.beyond();
    desk.any();
    desk.start();
    desk.text();
}

/// Starts after cycles, in buffers that are long enough and in some that are not,
/// beside counts of all sorts.
fn again(desk: &mut Desk) {
    for room in [0, 1, 3, 6] {
        let byte = desk.random.below(4);
        desk.lend_any(length(room) + byte);
        desk.start();
        desk.several(room);
        desk.text();
        desk.start();
        desk.text();
        desk.any();
        let any = desk.random.below(room + 2) as u64;
        let count = desk
            .random
            .pick(&[any, MOST as u64 - 1, MOST as u64, u64::MAX]);
        desk.count(count);
        desk.start();
        desk.any();
        desk.text();
    }
    let short = desk.random.below(HEAD);
    desk.lend_any(short);
    desk.count(1);
    desk.start();
    desk.text();
}

/// The same cycles over other bytes.
fn same(desk: &mut Desk) {
    let cycles: Vec<_> = (0..6).map(|_| any(&mut desk.random)).collect();
    for byte in [0xAA, 0x00, 0xFF] {
        let longer = desk.random.below(9);
        desk.lend(length(cycles.len()) + longer, byte);
        desk.start();
        for &cycle in &cycles {
            desk.cycle(cycle);
        }
        desk.text();
    }
}

/// What a board builder sends us: a run from power-on, with low bytes.
fn recorded_story(desk: &mut Desk) {
    let records = desk.random.between(30, 80);
    let seed = u64::from(desk.random.word());
    desk.lend_any(length(records));
    desk.start();
    for mut cycle in story(Random::new(seed, 0), records) {
        cycle.low = low(&mut desk.random);
        desk.cycle(cycle);
    }
    desk.text();
}
