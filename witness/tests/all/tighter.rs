//! Demand 3's line of ticket 5: of two units, the first with a tighter table, on
//! the same cycles, the first is nowhere further from the edge where both
//! translate. At the start they differ in nothing but their tables, and nobody
//! writes a descriptor; demand 3's stop at an aborted fetch is not needed.

use witness::checks::Checks;
use witness::cycle::{Cycle, Kind};
use witness::generate::random::Random;
use witness::unit::attribute::{CHG, CPUI, DIRW, DMAI, EXC, RD, REF, SYS};
use witness::unit::{Descriptor, Unit};
use witness::Document01;

use crate::distance::segment;
use crate::others::takes_descriptor;
use crate::pairs::{busy, every, Pair, Turn, Wanted};
use crate::rows::{acknowledge, read, unit, write, TRANSLATES};

/// The same base and direction, every flag that the wider one has and perhaps
/// more, and no wider a range. REF and CHG may be any.
pub fn tightened(random: &mut Random, wider: &Descriptor) -> Descriptor {
    let limit = match (random.once_in(3), wider.has(DIRW)) {
        (true, _) => wider.limit,
        (_, true) => random.between(usize::from(wider.limit), 0xFF) as u8,
        (_, false) => random.between(0, usize::from(wider.limit)) as u8,
    };
    let flags = (RD | SYS | CPUI | EXC | DMAI) & random.byte() & random.byte() & random.byte();
    let marks = (CHG | REF) & random.byte();
    Descriptor {
        limit,
        attributes: (wider.attributes | flags) ^ marks,
        ..*wider
    }
}

/// Limits are often far from an end, so that there is something to take away.
fn new(random: &mut Random) -> Pair {
    let mut wider = busy(random);
    for descriptor in &mut wider.table {
        let any = random.byte();
        descriptor.limit = random.pick(&[descriptor.limit, any]);
    }
    let tighter = Unit {
        table: wider.table.map(|wider| tightened(random, &wider)),
        ..wider.clone()
    };
    Pair {
        inside: (0..64).collect(),
        units: [tighter, wider],
    }
}

fn next(pair: &mut Pair, random: &mut Random) -> Turn {
    let writes = |cycle: &Cycle| takes_descriptor(cycle) && cycle.write();
    pair.turn(random, &|_, cycle| !writes(cycle))
}

fn both_translate(turn: &Turn) -> bool {
    turn.answers.iter().all(|one| one.kind == Kind::Translated)
}

/// In a length violation the distance is 0, so the line holds there as well.
fn nowhere_further(_pair: &Pair, turn: &Turn) -> bool {
    let [tighter, wider] = turn.answers;
    !both_translate(turn) || tighter.distance <= wider.distance
}

/// Of a cycle that both translate: limit and DIRW are as they were before it.
fn beyond(pair: &Pair, turn: &Turn) -> [bool; 2] {
    let place = usize::from(turn.cycle.segment % 64);
    let units = pair.units.each_ref();
    units.map(|unit| Document01::outside(&unit.table[place], &turn.cycle))
}

/// The ticket's case, where one distance is less than the other.
fn less(pair: &Pair, turn: &Turn) -> bool {
    let [tighter, wider] = turn.answers;
    let inside = both_translate(turn) && beyond(pair, turn) == [false; 2];
    inside && tighter.distance < wider.distance
}

fn stack(turn: &Turn) -> bool {
    turn.descriptor().has(DIRW)
}

const MET: &[Wanted] = &[
    ("less, upward", |pair, turn| {
        less(pair, turn) && !stack(turn)
    }),
    ("less, downward", |pair, turn| {
        less(pair, turn) && stack(turn)
    }),
    ("less but not 0", |pair, turn| {
        less(pair, turn) && turn.answers[0].distance != 0
    }),
    ("less for DMA", |pair, turn| {
        less(pair, turn) && turn.cycle.dma
    }),
    ("less, the tighter one suppressed alone", |pair, turn| {
        less(pair, turn) && turn.answers[0].sup && !turn.answers[1].sup
    }),
    ("less, another VTR in each", |pair, turn| {
        less(pair, turn) && pair.units[0].vtr != pair.units[1].vtr
    }),
    ("the same and not 0", |_, turn| {
        let [tighter, wider] = turn.answers;
        both_translate(turn) && tighter.distance == wider.distance && wider.distance != 0
    }),
    ("beyond the tighter one's edge alone", |pair, turn| {
        both_translate(turn) && beyond(pair, turn) == [true, false]
    }),
    ("beyond both edges", |pair, turn| {
        both_translate(turn) && beyond(pair, turn) == [true, true]
    }),
];

#[test]
fn in_any_run_the_tighter_unit_is_nowhere_further_from_the_edge() {
    every(new, next, nowhere_further, MET);
}

/// Why both must translate. The tighter unit has one violation more, so FATL
/// stands in it when the last one comes, which gives the wider one alone a fetch
/// to abort.
#[test]
fn where_the_wider_unit_aborts_a_fetch_the_tighter_one_may_be_further() {
    let mut wider = unit(TRANSLATES, 0, (0, 0xFF, 0));
    wider.table[1] = segment(0xFF, CPUI);
    let mut tighter = wider.clone();
    tighter.table[0].attributes = RD;
    let fetch = Cycle {
        status: 0xD,
        ..read(0, 0x10)
    };
    let mut pair = Pair {
        inside: Vec::new(),
        units: [tighter, wider],
    };
    for cycle in [
        write(0, 0),
        acknowledge(),
        read(1, 0),
        acknowledge(),
        read(1, 0),
    ] {
        pair.step(cycle, cycle);
    }
    let answers = pair.step(fetch, fetch).answers;
    let [tighter, wider] = answers.map(|one| (one.kind, one.distance));
    assert_eq!(tighter, (Kind::Translated, 0xEF));
    assert_eq!(wider, (Kind::AbortedFetch, 0));
}

/// The line by itself, of every two limits and every offset.
#[test]
fn a_wider_segment_leaves_no_less() {
    for (narrow, wide) in (0..=0xFF).flat_map(|wide| (0..=wide).map(move |narrow| (narrow, wide))) {
        let upward = [narrow, wide].map(|limit| segment(limit, 0));
        let downward = [wide, narrow].map(|limit| segment(limit, DIRW));
        for pair in [upward, downward] {
            for cycle in (0..=0xFF).map(|offset| read(0, offset)) {
                let [tighter, wider] = pair.map(|one| Document01::distance(&one, &cycle));
                assert!(tighter <= wider, "{pair:?} {cycle:?}");
            }
        }
    }
}
