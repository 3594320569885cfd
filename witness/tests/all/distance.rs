//! How near the edge is, ticket 5: every translated cycle that is not an
//! aborted fetch carries it, whatever else is found, and every other answer 0.

use witness::checks::{Checks, Finding};
use witness::commands::code::CLEAR_VTR;
use witness::coverage::distance_rows;
use witness::cycle::{Cycle, Kind};
use witness::generate::bus::finding;
use witness::unit::attribute::DIRW;
use witness::unit::violation::{PWW, RDV};
use witness::unit::{mode, Descriptor, Unit};
use witness::Document01;

use crate::others::aborted;
use crate::pairs::{every_turn, is, Pair, Turn, Wanted};
use crate::refusals::{command, standing};
use crate::rows::{acknowledge, read, step, unit, write, TRANSLATES};
use crate::scripted::meet_often;

pub fn segment(limit: u8, attributes: u8) -> Descriptor {
    Descriptor {
        base: 0,
        limit,
        attributes,
    }
}

/// The ticket's sentence in whole numbers.
fn left(descriptor: &Descriptor, offset: u8) -> u8 {
    let [limit, offset] = [descriptor.limit, offset].map(i16::from);
    let blocks = match descriptor.has(DIRW) {
        true => offset - limit,
        false => limit - offset,
    };
    u8::try_from(blocks).unwrap_or(0)
}

fn carried(descriptor: &Descriptor, cycle: Cycle) -> u8 {
    let mut unit = unit(TRANSLATES, 0, (0, descriptor.limit, descriptor.attributes));
    step(&mut unit, cycle).distance
}

/// Every limit, offset and direction.
fn everywhere(holds: fn(&Descriptor, u8) -> bool) {
    for limit in 0..=0xFF {
        for descriptor in [0, DIRW].map(|attributes| segment(limit, attributes)) {
            for offset in 0..=0xFF {
                assert!(holds(&descriptor, offset), "{descriptor:?} {offset}");
            }
        }
    }
}

#[test]
fn it_is_limit_less_offset_or_offset_less_limit_with_dirw_or_0() {
    everywhere(|descriptor, offset| {
        carried(descriptor, read(0, offset)) == left(descriptor, offset)
    });
}

/// What it means. So many blocks after the accessed one in the segment's
/// direction pass the length check, and the next does not or is no block at all.
#[test]
fn so_many_blocks_after_the_accessed_one_pass_and_the_next_does_not() {
    everywhere(|descriptor, offset| {
        let next = |&block: &u8| match descriptor.has(DIRW) {
            true => block.checked_sub(1),
            false => block.checked_add(1),
        };
        let blocks = std::iter::successors(Some(offset), next).skip(1);
        let passing = blocks.take_while(|&block| !Document01::outside(descriptor, &read(0, block)));
        passing.count() == usize::from(carried(descriptor, read(0, offset)))
    });
}

#[test]
fn near_the_edge_block_by_block() {
    let upward = [(0x00, 2), (0x01, 1), (0x02, 0), (0x03, 0), (0xFF, 0)];
    let downward = [(0xFF, 15), (0xF1, 1), (0xF0, 0), (0xEF, 0), (0x00, 0)];
    for (descriptor, blocks) in [(segment(0x02, 0), upward), (segment(0xF0, DIRW), downward)] {
        for (offset, distance) in blocks {
            let carried = carried(&descriptor, write(0, offset));
            assert_eq!(carried, distance, "{descriptor:?} {offset:02X}");
        }
    }
}

/// Any status, direction, mode and master.
fn memory_cycles(segment: u8, offset: u8) -> impl Iterator<Item = Cycle> {
    (0..48).map(move |number| Cycle {
        status: 0x8 + number / 8,
        read: number & 1 != 0,
        normal: number & 2 != 0,
        dma: number & 4 != 0,
        ..read(segment, offset)
    })
}

/// Not flags, notes or VTR, not what the cycle is and what is found in it: DIRW
/// alone, and whether it is an aborted fetch.
#[test]
fn nothing_else_that_is_found_or_stands_changes_it() {
    for (attributes, notes) in (0..=0xFF).flat_map(|byte| (0..16).map(move |notes| (byte, notes))) {
        for vtr in [0, RDV] {
            let mut before = standing(vtr, notes);
            // One of the two has room and the other none, as DIRW says.
            before.table[0] = segment(0x20, attributes);
            before.table[1] = segment(0x15, attributes);
            for cycle in memory_cycles(0, 0x15).chain(memory_cycles(1, 0x20)) {
                let answer = step(&mut before.clone(), cycle);
                let descriptor = &before.table[usize::from(cycle.segment)];
                let expected = match aborted(&before, &cycle) {
                    true => (Kind::AbortedFetch, 0),
                    false => (Kind::Translated, left(descriptor, cycle.offset)),
                };
                assert_eq!((answer.kind, answer.distance), expected, "{cycle:?}");
            }
        }
    }
}

/// A cycle with this status that names a segment with room at its offset.
fn roomy(status: u8) -> Cycle {
    Cycle {
        status,
        ..read(0, 1)
    }
}

/// Cycles of all kinds but T, with MR, in a unit whose await stands.
fn others() -> [(u8, Cycle, Kind); 14] {
    let reset = Cycle {
        reset: true,
        ..roomy(0x8)
    };
    let beyond = Cycle {
        segment: 128,
        ..roomy(0x8)
    };
    let passes = mode::MSEN;
    let other_range = TRANSLATES | mode::URS;
    let other_mode = TRANSLATES | mode::MST | mode::NMS;
    [
        (passes, roomy(0x8), Kind::Passed),
        (mode::TRNS, roomy(0x8), Kind::Ignored),
        (other_range, roomy(0x8), Kind::Ignored),
        (other_mode, roomy(0x8), Kind::Ignored),
        (TRANSLATES, roomy(0xE), Kind::Ignored),
        (TRANSLATES, roomy(0xD), Kind::AbortedFetch),
        (passes, roomy(0xD), Kind::AbortedFetch),
        (TRANSLATES, reset, Kind::Reset),
        (TRANSLATES, acknowledge(), Kind::Acknowledge),
        (TRANSLATES, command(CLEAR_VTR, false), Kind::Command),
        (TRANSLATES, command(0x09, true), Kind::Command),
        (TRANSLATES, beyond, Kind::Refused(1)),
        (TRANSLATES, command(0x12, true), Kind::Refused(3)),
        (TRANSLATES, command(CLEAR_VTR, true), Kind::Refused(4)),
    ]
}

/// And so does a damaged unit's, whatever the cycle.
#[test]
fn every_other_answer_carries_0() {
    for (mr, cycle, kind) in others() {
        let mut unit = unit(mr, 0, (0x1000, 0xFF, 0));
        unit.awaits = true;
        let damaged = Unit {
            sar: 64,
            ..unit.clone()
        };
        for (mut unit, kind) in [(unit, kind), (damaged, Kind::Refused(2))] {
            let answer = step(&mut unit, cycle);
            assert_eq!((answer.kind, answer.distance), (kind, 0), "{cycle:?}");
        }
    }
}

#[test]
fn it_is_printed_in_decimal_at_the_end() {
    for offset in 0..=0xFF {
        let mut unit = unit(TRANSLATES, 0, (0x2300, 0xFF, 0));
        let text = step(&mut unit, read(0, offset)).to_string();
        let left = 255 - u32::from(offset);
        assert_eq!(text, format!("T 23{offset:02X} 0 0 -- {left}"));
    }
}

/// What the cycle's segment has left, whether the answer carries it or not.
fn room(turn: &Turn) -> u8 {
    left(turn.descriptor(), turn.cycle.offset)
}

fn carries(_pair: &Pair, turn: &Turn) -> bool {
    let carried = match is(turn, Kind::Translated) {
        true => room(turn),
        false => 0,
    };
    turn.answers[0].distance == carried
}

fn suppressed_with_room(turn: &Turn) -> bool {
    turn.answers[0].sup && turn.answers[0].distance != 0
}

fn other_with_room(turn: &Turn, kind: Kind) -> bool {
    is(turn, kind) && room(turn) != 0
}

const CARRIED: &[Wanted] = &[
    ("1", |_, turn| turn.answers[0].distance == 1),
    ("2 to 127", |_, turn| {
        (2..128).contains(&turn.answers[0].distance)
    }),
    ("above 127", |_, turn| turn.answers[0].distance > 127),
    ("0, translated", |_, turn| {
        is(turn, Kind::Translated) && turn.answers[0].distance == 0
    }),
    ("for DMA", |_, turn| {
        turn.cycle.dma && turn.answers[0].distance != 0
    }),
    ("in a DMA violation", |_, turn| {
        turn.cycle.dma && suppressed_with_room(turn)
    }),
    ("under hold", |_, turn| {
        turn.before.hold && !turn.cycle.dma && suppressed_with_room(turn)
    }),
    ("in a CPU violation", |_, turn| {
        !turn.before.hold && !turn.cycle.dma && suppressed_with_room(turn)
    }),
    ("aborted fetch", |_, turn| {
        other_with_room(turn, Kind::AbortedFetch)
    }),
    ("passed", |_, turn| other_with_room(turn, Kind::Passed)),
    ("ignored", |_, turn| other_with_room(turn, Kind::Ignored)),
    ("command", |_, turn| other_with_room(turn, Kind::Command)),
    ("refusal 1", |_, turn| {
        other_with_room(turn, Kind::Refused(1))
    }),
];

#[test]
fn in_any_run_translated_cycles_alone_carry_it() {
    every_turn(|_, _| true, carries, CARRIED);
}

/// What the unit found, if it translated the cycle.
fn found(turn: &Turn) -> Option<Finding> {
    finding(&turn.before, &turn.cycle).filter(|_| is(turn, Kind::Translated))
}

fn warned(turn: &Turn) -> bool {
    found(turn) == Some(Finding::Warning)
}

fn without_violation(turn: &Turn) -> bool {
    matches!(found(turn), Some(Finding::Clean | Finding::Warning))
}

fn cpu_write(turn: &Turn) -> bool {
    turn.cycle.write() && !turn.cycle.dma
}

/// Distance 0, at the edge or beyond it, with DIRW or without.
fn at_distance_0(turn: &Turn, stack: bool) -> bool {
    turn.descriptor().has(DIRW) == stack && turn.answers[0].distance == 0
}

/// A CPU write without violation warns exactly with DIRW set and distance 0, and
/// nothing else warns. Where the VTR is zero a warning shows: PWW alone.
fn warns_at_distance_0(pair: &Pair, turn: &Turn) -> bool {
    let warns = cpu_write(turn) && without_violation(turn) && at_distance_0(turn, true);
    let shows = pair.units[0].vtr == PWW;
    warned(turn) == warns && (turn.before.vtr != 0 || shows == warns)
}

const WARNED: &[Wanted] = &[
    ("warned, VTR zero", |_, turn| {
        warned(turn) && turn.before.vtr == 0
    }),
    ("warned, VTR standing", |_, turn| {
        warned(turn) && turn.before.vtr != 0
    }),
    ("warned under hold", |_, turn| {
        warned(turn) && turn.before.hold
    }),
    ("a stack's write with room", |_, turn| {
        let room = turn.descriptor().has(DIRW) && turn.answers[0].distance != 0;
        cpu_write(turn) && without_violation(turn) && room
    }),
    ("a write at the edge, upward", |_, turn| {
        cpu_write(turn) && without_violation(turn) && at_distance_0(turn, false)
    }),
    ("a stack's write at its limit, a violation", |_, turn| {
        let limit = turn.cycle.offset == turn.descriptor().limit;
        let violates = matches!(found(turn), Some(Finding::Violation(_)));
        cpu_write(turn) && violates && limit && at_distance_0(turn, true)
    }),
    ("a stack's write beyond its limit", |_, turn| {
        let beyond = Document01::outside(turn.descriptor(), &turn.cycle);
        cpu_write(turn) && found(turn).is_some() && beyond && at_distance_0(turn, true)
    }),
    ("a stack's read at its limit", |_, turn| {
        let read = turn.cycle.read && !turn.cycle.dma;
        read && without_violation(turn) && at_distance_0(turn, true)
    }),
    ("a stack's DMA write at its limit", |_, turn| {
        let write = turn.cycle.write() && turn.cycle.dma;
        write && without_violation(turn) && at_distance_0(turn, true)
    }),
];

#[test]
fn in_any_run_a_write_warns_exactly_at_a_stacks_distance_0() {
    every_turn(|_, _| true, warns_at_distance_0, WARNED);
}

/// Refusals 1 and 2 are what no capture meets.
#[test]
fn the_scripts_meet_every_case_often() {
    meet_often(|| {
        let mut rows = distance_rows::rows();
        let refusals = [1, 2].map(|number| distance_rows::not_carried_by(Kind::Refused(number)));
        rows.extend(refusals);
        rows
    });
}
