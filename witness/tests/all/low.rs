//! The low byte that is kept beside VOFF, ticket 8: stored in the first row and
//! left by everything else. Nothing but the byte itself depends on it.

use witness::commands::code::{
    CLEAR_FATL, CLEAR_SWW, CLEAR_VTR, DSCR, MR, RESET, SAR, VOFF, WHOLE_STEPPING,
};
use witness::cycle::{Cycle, Kind};
use witness::generate::random::Random;
use witness::trace::Layout;
use witness::unit::violation::{FATL, PRIMARY, PWW, RDV, SWW};
use witness::unit::{attribute, Descriptor, Unit};
use witness::Document01;

use crate::pairs::{busy, every, is, obeys, Pair, Turn, Wanted};
use crate::refusals::command;
use crate::rows::{acknowledge, read, step, unit, write, TRANSLATES};
use crate::sample::SAMPLE;
use crate::segments::{stores_isn, stores_vsn};

const OLD: u8 = 0x5A;
const NEW: u8 = 0xA5;

/// Segment 0 can only be read, segment 1 is a stack; a byte is kept.
fn start() -> Unit {
    let mut unit = unit(TRANSLATES, 0, (0, 0xFF, attribute::RD));
    unit.table[1] = Descriptor {
        base: 0,
        limit: 0xF0,
        attributes: attribute::DIRW,
    };
    unit.low = OLD;
    unit
}

fn violation() -> Cycle {
    write(0, 0x34)
}

/// A system stack warning.
fn warning() -> Cycle {
    Cycle {
        status: 0x9,
        ..write(1, 0xF0)
    }
}

fn fetch() -> Cycle {
    Cycle {
        status: 0xD,
        ..read(1, 0xF8)
    }
}

fn reset(select: bool) -> Cycle {
    Cycle {
        reset: true,
        select,
        ..Cycle::default()
    }
}

/// Steps a cycle that has the new low byte.
fn step_new(unit: &mut Unit, cycle: Cycle) -> Kind {
    step(unit, Cycle { low: NEW, ..cycle }).kind
}

/// A unit whose own violation has stored the old byte.
fn faulted() -> Unit {
    let mut unit = Unit { low: 0, ..start() };
    let cycle = Cycle {
        low: OLD,
        ..violation()
    };
    step(&mut unit, cycle);
    assert_eq!((unit.vtr, unit.low), (RDV, OLD));
    unit
}

#[test]
fn power_on_makes_it_0() {
    assert_eq!(Unit::power_on().low, 0);
}

#[test]
fn a_first_violation_and_a_first_warning_store_any_byte() {
    for (cycle, flag) in [(violation(), RDV), (warning(), PWW)] {
        for low in 0..=0xFF {
            let mut unit = start();
            step(&mut unit, Cycle { low, ..cycle });
            let kept = (unit.vtr, unit.voff, unit.low);
            assert_eq!(kept, (flag, cycle.offset, low));
        }
    }
}

/// What the rows after the first leave in the VTR.
#[test]
fn no_later_row_stores_it() {
    let other_warning = Cycle {
        status: 0x8,
        ..warning()
    };
    let rows: [(&[Cycle], Cycle, u8); 8] = [
        (&[], violation(), RDV),
        (&[], warning(), RDV | PWW),
        (&[fetch()], violation(), RDV | FATL),
        (&[fetch(), violation()], violation(), RDV | FATL),
        (&[fetch()], other_warning, RDV | FATL),
        (&[fetch()], warning(), RDV | SWW),
        (&[fetch(), warning()], warning(), RDV | SWW),
        (&[fetch(), warning()], violation(), RDV | SWW | FATL),
    ];
    for (first, cycle, vtr) in rows {
        let mut unit = faulted();
        for &cycle in first {
            step_new(&mut unit, cycle);
        }
        assert_eq!(step_new(&mut unit, cycle), Kind::Translated);
        assert_eq!((unit.vtr, unit.voff, unit.low), (vtr, 0x34, OLD));
    }
}

#[test]
fn a_dma_violation_stores_nothing() {
    for mut unit in [start(), faulted()] {
        let before = unit.clone();
        let cycle = Cycle {
            dma: true,
            low: NEW,
            ..violation()
        };
        assert!(step(&mut unit, cycle).sup);
        assert_eq!(unit, before);
    }
}

#[test]
fn no_fetch_stores_it() {
    let mut unit = start();
    assert_eq!(step_new(&mut unit, fetch()), Kind::Translated);
    assert_eq!((unit.isn, unit.ioff, unit.low), (1, 0xF8, OLD));
    let mut unit = faulted();
    assert_eq!(step_new(&mut unit, fetch()), Kind::AbortedFetch);
    assert_eq!(unit.low, OLD);
}

#[test]
fn clean_passed_and_ignored_cycles_store_nothing() {
    for (mr, kind) in [
        (TRANSLATES, Kind::Translated),
        (0x80, Kind::Passed),
        (0x00, Kind::Ignored),
    ] {
        let mut unit = Unit { mr, ..start() };
        assert_eq!(step_new(&mut unit, read(0, 0x34)), kind);
        assert_eq!(unit.low, OLD);
    }
}

/// Refused ones among them. A twin that keeps another byte answers the same, so
/// none shows it.
#[test]
fn no_command_shows_or_changes_it() {
    for unit in [start(), faulted()] {
        for (code, read) in (0..=0xFF).flat_map(|code| [(code, true), (code, false)]) {
            let cycle = Cycle {
                low: NEW,
                ..command(code, read)
            };
            let mut units = [OLD, !OLD].map(|low| Unit {
                low,
                ..unit.clone()
            });
            let [answer, twin] = units.each_mut().map(|unit| step(unit, cycle));
            assert_eq!(answer, twin, "{code:02X}");
            assert_eq!(units.map(|unit| unit.low), [OLD, !OLD], "{code:02X}");
        }
    }
}

#[test]
fn resets_and_the_acknowledge_leave_it() {
    for unit in [start(), faulted()] {
        for (cycle, kind) in [
            (reset(false), Kind::Reset),
            (reset(true), Kind::Reset),
            (command(RESET, false), Kind::Command),
            (acknowledge(), Kind::Acknowledge),
        ] {
            let mut unit = unit.clone();
            assert_eq!(step_new(&mut unit, cycle), kind);
            assert_eq!(unit.low, OLD);
        }
    }
}

/// What clears the VTR lets the next fault store its byte; the acknowledge, and
/// what leaves a primary flag, do not.
#[test]
fn the_next_first_entry_stores_the_next_byte() {
    let mode = Cycle {
        data: TRANSLATES,
        ..command(MR, false)
    };
    let clears = [
        (command(CLEAR_VTR, false), NEW),
        (command(RESET, false), NEW),
        (reset(false), NEW),
        (reset(true), NEW),
        (acknowledge(), OLD),
        (command(CLEAR_SWW, false), OLD),
        (command(CLEAR_FATL, false), OLD),
    ];
    for (clear, low) in clears {
        for fault in [violation(), warning()] {
            let mut unit = faulted();
            step(&mut unit, clear);
            step(&mut unit, mode);
            assert_eq!(unit.low, OLD);
            step_new(&mut unit, fault);
            assert_eq!(unit.low, low, "{clear:?}");
        }
    }
}

#[test]
fn a_refusal_leaves_it() {
    let beyond = Cycle {
        segment: 128,
        ..violation()
    };
    let damaged = Unit { sar: 64, ..start() };
    let orphan = Unit {
        vtr: FATL,
        ..start()
    };
    let refused = [
        (start(), beyond, 1),
        (damaged, violation(), 2),
        (orphan, violation(), 2),
        (start(), command(0x12, true), 3),
        (start(), command(VOFF, false), 4),
    ];
    for (mut unit, cycle, number) in refused {
        let before = unit.clone();
        assert_eq!(step_new(&mut unit, cycle), Kind::Refused(number));
        assert_eq!(unit, before);
    }
}

/// Record 6 of document 01's sample is a violation.
#[test]
fn a_version_1_trace_stores_0_over_an_older_byte() {
    let mut unit = Unit {
        low: OLD,
        ..Unit::power_on()
    };
    for (number, cycle) in Document01::cycles(&SAMPLE).enumerate() {
        step(&mut unit, cycle);
        assert_eq!(unit.low, if number < 6 { OLD } else { 0 });
    }
}

#[test]
fn no_byte_of_a_version_1_record_is_the_low_byte() {
    for byte in 0..=0xFF {
        assert_eq!(Document01::decode([byte; 4]).low, 0);
    }
}

/// Units that differ in nothing but the kept byte, which is inverted.
fn twins(random: &mut Random) -> Pair {
    let unit = busy(random);
    let twin = Unit {
        low: !unit.low,
        ..unit.clone()
    };
    Pair {
        inside: (0..64).collect(),
        units: [unit, twin],
    }
}

/// Any cycle, and for the twin the same with its low byte inverted.
fn inverted(pair: &mut Pair, random: &mut Random) -> Turn {
    let cycle = pair.any(random);
    let twin = Cycle {
        low: !cycle.low,
        ..cycle
    };
    pair.step(cycle, twin)
}

/// The twins answer alike and stay twins. The byte stays but in a first entry,
/// which stores it with VOFF.
fn keeps_the_low_byte(pair: &Pair, turn: &Turn) -> bool {
    let [unit, twin] = &pair.units;
    let alike = *twin
        == Unit {
            low: !unit.low,
            ..unit.clone()
        };
    let kept = match stores_vsn(pair, turn) {
        true => (unit.low, unit.voff) == (turn.cycle.low, turn.cycle.offset),
        false => (unit.low, unit.voff) == (turn.before.low, turn.before.voff),
    };
    turn.answers[0] == turn.answers[1] && alike && kept
}

/// A byte that differs from the kept one is stored.
fn stores_another(pair: &Pair, turn: &Turn) -> bool {
    stores_vsn(pair, turn) && turn.before.low != pair.units[0].low
}

/// The VTR gets this flag and had a primary one.
fn adds(pair: &Pair, turn: &Turn, flag: u8) -> bool {
    turn.before.vtr & PRIMARY != 0 && pair.units[0].vtr & !turn.before.vtr & flag != 0
}

fn writes(turn: &Turn, code: u8) -> bool {
    obeys(turn, code) && turn.cycle.write()
}

const KEPT: &[Wanted] = &[
    ("stored by a violation", |pair, turn| {
        stores_another(pair, turn) && pair.units[0].vtr != PWW
    }),
    ("stored by a warning", |pair, turn| {
        stores_another(pair, turn) && pair.units[0].vtr == PWW
    }),
    ("0 stored", |pair, turn| {
        stores_another(pair, turn) && pair.units[0].low == 0
    }),
    ("255 stored", |pair, turn| {
        stores_another(pair, turn) && pair.units[0].low == 0xFF
    }),
    ("stored over 0", |pair, turn| {
        stores_another(pair, turn) && turn.before.low == 0
    }),
    ("bit 7 set by a store", |pair, turn| {
        stores_vsn(pair, turn) && pair.units[0].low & !turn.before.low & 0x80 != 0
    }),
    ("bit 7 cleared by a store", |pair, turn| {
        stores_vsn(pair, turn) && turn.before.low & !pair.units[0].low & 0x80 != 0
    }),
    ("further entry", |pair, turn| adds(pair, turn, PRIMARY)),
    ("FATL", |pair, turn| adds(pair, turn, FATL)),
    ("SWW", |pair, turn| adds(pair, turn, SWW)),
    ("DMA suppressed", |_, turn| {
        turn.cycle.dma && turn.answers[0].sup
    }),
    ("ISN stored", |_, turn| stores_isn(turn)),
    ("aborted fetch", |_, turn| is(turn, Kind::AbortedFetch)),
    ("passed", |_, turn| is(turn, Kind::Passed)),
    ("ignored", |_, turn| is(turn, Kind::Ignored)),
    ("reset", |_, turn| is(turn, Kind::Reset)),
    ("acknowledge", |_, turn| is(turn, Kind::Acknowledge)),
    ("software reset", |_, turn| writes(turn, RESET)),
    ("clear VTR", |_, turn| writes(turn, CLEAR_VTR)),
    ("clear SWW", |_, turn| writes(turn, CLEAR_SWW)),
    ("clear FATL", |_, turn| writes(turn, CLEAR_FATL)),
    ("MR written", |_, turn| writes(turn, MR)),
    ("SAR written", |_, turn| writes(turn, SAR)),
    ("DSCR written", |_, turn| writes(turn, DSCR)),
    ("descriptor written", |_, turn| writes(turn, WHOLE_STEPPING)),
    ("VOFF read", |_, turn| obeys(turn, VOFF)),
    ("refusal 1", |_, turn| is(turn, Kind::Refused(1))),
    ("refusal 3", |_, turn| is(turn, Kind::Refused(3))),
    ("refusal 4", |_, turn| is(turn, Kind::Refused(4))),
];

#[test]
fn in_any_run_first_entries_alone_store_it_and_nothing_else_reads_it() {
    every(twins, inverted, keeps_the_low_byte, KEPT);
}
