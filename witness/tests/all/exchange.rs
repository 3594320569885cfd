//! Set and clear commands, written one after another with nothing between
//! them: ticket 10, and which other command each may change places with.

use witness::commands::code::{CLEAR_FATL, CLEAR_SWW, CLEAR_VTR, RESET, SET_CPUI, SET_DMAI};
use witness::cycle::{Answer, Cycle};
use witness::generate::random::Random;
use witness::generate::steps::undamaged;
use witness::step::Step;
use witness::unit::Unit;
use witness::Document01;

const SETS_AND_CLEARS: [u8; 6] = [RESET, CLEAR_VTR, CLEAR_SWW, CLEAR_FATL, SET_CPUI, SET_DMAI];

/// A selected CPU write with this code: any data byte, mode and segment.
fn write(random: &mut Random, code: u8) -> Cycle {
    Cycle {
        status: 0x3,
        normal: random.coin(),
        select: true,
        segment: random.byte() % 128,
        offset: code,
        data: random.byte(),
        ..Cycle::default()
    }
}

fn after(unit: &Unit, cycles: &[Cycle]) -> (Unit, Vec<Answer>) {
    let mut unit = unit.clone();
    let answers = cycles
        .iter()
        .map(|cycle| Document01::step(&mut unit, cycle));
    let answers = answers.collect();
    (unit, answers)
}

/// Holds for each of many units and pairs of writes, or fails for one.
fn always(first: u8, second: u8, law: fn(&Unit, Cycle, Cycle) -> bool) -> bool {
    let mut random = Random::new(u64::from(first), u64::from(second));
    (0..400).all(|_| {
        let unit = undamaged(&mut random);
        let pair = [first, second].map(|code| write(&mut random, code));
        law(&unit, pair[0], pair[1])
    })
}

fn exchanged(unit: &Unit, c: Cycle, d: Cycle) -> bool {
    after(unit, &[c, d]).0 == after(unit, &[d, c]).0
}

fn first_alone(unit: &Unit, c: Cycle, d: Cycle) -> bool {
    after(unit, &[c, d]).0 == after(unit, &[c]).0
}

fn second_alone(unit: &Unit, c: Cycle, d: Cycle) -> bool {
    after(unit, &[c, d]).0 == after(unit, &[d]).0
}

fn same_answers(unit: &Unit, c: Cycle, d: Cycle) -> bool {
    after(unit, &[c, d]).1 == after(unit, &[d, c]).1
}

#[test]
fn the_laws_of_the_ticket() {
    assert!(always(SET_CPUI, SET_CPUI, first_alone));
    assert!(always(SET_DMAI, SET_DMAI, first_alone));
    assert!(always(SET_CPUI, SET_DMAI, exchanged));
    assert!(always(CLEAR_SWW, CLEAR_FATL, exchanged));
    assert!(always(CLEAR_VTR, RESET, second_alone));
    assert!(always(RESET, CLEAR_VTR, first_alone));
}

/// A software reset clears MR and DSCR, and %08, %0B, %0C and %0F go by DSCR;
/// these four, %0A and %0E can write attributes.
#[test]
fn these_change_places_and_no_others() {
    for first in SETS_AND_CLEARS {
        for second in 0..=0xFF {
            let by_dscr = matches!(second, 0x08 | 0x0B | 0x0C | 0x0F);
            let apart = match first {
                RESET => by_dscr || matches!(second, 0x00 | 0x20),
                SET_CPUI | SET_DMAI => by_dscr || matches!(second, 0x0A | 0x0E),
                _ => false,
            };
            let holds = always(first, second, exchanged);
            assert_eq!(holds, !apart, "{first:02X} {second:02X}");
        }
    }
}

/// Each is part of itself; SWW and FATL of VTR, and VTR of a software reset.
#[test]
fn these_may_be_left_out_and_no_others() {
    let part = |part, whole| match (part, whole) {
        (CLEAR_SWW | CLEAR_FATL, CLEAR_VTR) => true,
        (CLEAR_VTR | CLEAR_SWW | CLEAR_FATL, RESET) => true,
        _ => part == whole,
    };
    for first in SETS_AND_CLEARS {
        for second in SETS_AND_CLEARS {
            let pair = format!("{first:02X} {second:02X}");
            let (one, other) = (part(second, first), part(first, second));
            assert_eq!(always(first, second, first_alone), one, "{pair}");
            assert_eq!(always(first, second, second_alone), other, "{pair}");
        }
    }
}

/// Only a software reset takes the trap line back.
#[test]
fn answers_beside_a_software_reset_differ() {
    for first in SETS_AND_CLEARS {
        for second in SETS_AND_CLEARS {
            let alike = (first == RESET) == (second == RESET);
            let holds = always(first, second, same_answers);
            assert_eq!(holds, alike, "{first:02X} {second:02X}");
        }
    }
}
