//! The segments that VSN and ISN keep, ticket 2: all seven bits, as the cycle
//! that stored them had them, whatever MR says later.

use witness::commands::code::{CLEAR_VTR, ISN, MR, RESET, VSN};
use witness::cycle::{Cycle, Kind};
use witness::unit::{attribute, mode, violation, Unit};

use crate::pairs::{every_turn, is, obeys, Pair, Turn, Wanted};
use crate::refusals::command;
use crate::rows::{acknowledge, read, step, unit, write, TRANSLATES};

/// Each range with the MR of a unit that translates it.
const RANGES: [(u8, u8); 2] = [(0, TRANSLATES), (64, TRANSLATES | mode::URS)];

/// A clean fetch and then a violation, both in this segment.
fn fault(unit: &mut Unit, segment: u8) {
    let fetch = Cycle {
        status: 0xD,
        ..read(segment, 0x12)
    };
    step(unit, fetch);
    step(unit, write(segment, 0x34));
}

/// A unit that has been through it, if it translates the segment.
fn faulted(mr: u8, segment: u8) -> Unit {
    let descriptor = (0, 0xFF, attribute::RD);
    let mut unit = unit(mr, usize::from(segment % 64), descriptor);
    fault(&mut unit, segment);
    unit
}

/// What commands %03 and %06 read.
fn shown(unit: &mut Unit) -> [Option<u8>; 2] {
    [VSN, ISN].map(|code| step(unit, command(code, true)).data)
}

#[test]
fn segment_65_is_kept_as_41_and_segment_1_as_01() {
    for (mr, segment, number) in [(0xE0, 65, 0x41), (0xC0, 1, 0x01)] {
        let mut unit = faulted(mr, segment);
        assert_eq!(
            (unit.vtr, unit.vsn, unit.isn),
            (violation::RDV, number, number)
        );
        assert_eq!(shown(&mut unit), [Some(number); 2]);
    }
}

#[test]
fn every_segment_is_kept_by_the_unit_of_its_range_and_no_other() {
    for segment in 0..=127 {
        for (first, mr) in RANGES {
            let own = (first..first + 64).contains(&segment);
            let kept = if own { segment } else { 0 };
            assert_eq!(shown(&mut faulted(mr, segment)), [Some(kept); 2]);
        }
    }
}

#[test]
fn a_rewrite_of_mr_leaves_the_old_range_until_the_next_store() {
    for (first, mr) in RANGES {
        let (old, new) = (first + 1, (first ^ 64) + 1);
        let mut unit = faulted(mr, old);
        let rewrite = Cycle {
            data: mr ^ mode::URS,
            ..command(MR, false)
        };
        for cycle in [rewrite, acknowledge(), command(CLEAR_VTR, false)] {
            step(&mut unit, cycle);
            assert_eq!(shown(&mut unit), [Some(old); 2], "{cycle:?}");
        }
        fault(&mut unit, new);
        assert_eq!(shown(&mut unit), [Some(new); 2]);
    }
}

#[test]
fn resets_leave_both() {
    let reset = |select: bool| Cycle {
        reset: true,
        select,
        ..Cycle::default()
    };
    for cycle in [reset(false), reset(true), command(RESET, false)] {
        let mut unit = faulted(0xE0, 127);
        step(&mut unit, cycle);
        assert_eq!(shown(&mut unit), [Some(127); 2], "{cycle:?}");
    }
}

/// Seen from outside: the VTR gets its first primary flag. VOFF is stored too.
pub fn stores_vsn(pair: &Pair, turn: &Turn) -> bool {
    let primary = |unit: &Unit| unit.vtr & violation::PRIMARY != 0;
    !primary(&turn.before) && primary(&pair.units[0])
}

/// A fetch that is translated with SUP off, while the VTR is zero.
pub fn stores_isn(turn: &Turn) -> bool {
    let fetch = turn.cycle.status == 0xD && turn.cycle.read && !turn.cycle.dma;
    let clean = is(turn, Kind::Translated) && !turn.answers[0].sup;
    fetch && clean && turn.before.vtr == 0
}

/// A store keeps the cycle's segment, whose bit 6 is URS; what is not stored
/// stays; and a read shows what stood.
fn keeps_segments(pair: &Pair, turn: &Turn) -> bool {
    let (unit, before) = (&pair.units[0], &turn.before);
    let kept = |stores: bool, after: u8, stood: u8| match stores {
        true => after == turn.cycle.segment && (after & 0x40 != 0) == before.mode(mode::URS),
        false => after == stood,
    };
    let shows = |code: u8, stood: u8| !obeys(turn, code) || turn.answers[0].data == Some(stood);
    kept(stores_vsn(pair, turn), unit.vsn, before.vsn)
        && kept(stores_isn(turn), unit.isn, before.isn)
        && shows(VSN, before.vsn)
        && shows(ISN, before.isn)
}

const KEPT: &[Wanted] = &[
    ("VSN stored, bit 6 set", |pair, turn| {
        stores_vsn(pair, turn) && pair.units[0].vsn >= 64
    }),
    ("VSN stored, bit 6 clear", |pair, turn| {
        stores_vsn(pair, turn) && pair.units[0].vsn < 64
    }),
    ("VSN stored over the other range's", |pair, turn| {
        stores_vsn(pair, turn) && (pair.units[0].vsn ^ turn.before.vsn) & 0x40 != 0
    }),
    ("ISN stored, bit 6 set", |pair, turn| {
        stores_isn(turn) && pair.units[0].isn >= 64
    }),
    ("ISN stored, bit 6 clear", |pair, turn| {
        stores_isn(turn) && pair.units[0].isn < 64
    }),
    ("ISN stored over the other range's", |pair, turn| {
        stores_isn(turn) && (pair.units[0].isn ^ turn.before.isn) & 0x40 != 0
    }),
    ("VSN read, bit 6 set", |_, turn| {
        obeys(turn, VSN) && turn.before.vsn >= 64
    }),
    ("VSN read, bit 6 clear", |_, turn| {
        obeys(turn, VSN) && turn.before.vsn < 64
    }),
    ("VSN read, bit 6 unlike URS", |_, turn| {
        obeys(turn, VSN) && (turn.before.vsn >= 64) != turn.before.mode(mode::URS)
    }),
    ("ISN read, bit 6 set", |_, turn| {
        obeys(turn, ISN) && turn.before.isn >= 64
    }),
    ("ISN read, bit 6 clear", |_, turn| {
        obeys(turn, ISN) && turn.before.isn < 64
    }),
    ("ISN read, bit 6 unlike URS", |_, turn| {
        obeys(turn, ISN) && (turn.before.isn >= 64) != turn.before.mode(mode::URS)
    }),
];

#[test]
fn in_any_run_a_store_keeps_the_segment_and_its_range() {
    every_turn(|_, _| true, keeps_segments, KEPT);
}
