//! Refusals 1 to 4 of a cycle: their conditions, their order, their answer.

use witness::commands::code::CLEAR_VTR;
use witness::cycle::{Answer, Cycle, Kind};
use witness::script::parse_unit;
use witness::step::Step;
use witness::unit::{violation, Unit};
use witness::Document01;

/// Steps a cycle that must be refused, with the request down and up.
fn refused(number: u8, unit: &Unit, cycle: Cycle) {
    for request in [false, true] {
        let mut unit = unit.clone();
        unit.request = request;
        let before = unit.clone();
        let answer = Document01::step(&mut unit, &cycle);
        assert_eq!(answer, Answer::quiet(Kind::Refused(number), request));
        assert_eq!(unit, before);
    }
}

pub fn command(code: u8, read: bool) -> Cycle {
    Cycle {
        status: 0x3,
        read,
        select: true,
        offset: code,
        data: 0xFF,
        ..Cycle::default()
    }
}

fn damaged() -> Vec<Unit> {
    let damage: [fn(&mut Unit); 8] = [
        |unit| unit.sar = 64,
        |unit| unit.vsn = 128,
        |unit| unit.isn = 0xFF,
        |unit| unit.bcsr = 64,
        |unit| unit.dscr = 4,
        |unit| unit.vtr = violation::SWW,
        |unit| unit.vtr = violation::FATL,
        |unit| unit.vtr = violation::SWW | violation::FATL,
    ];
    let broken = damage.iter().map(|damage| {
        let mut unit = Unit::power_on();
        damage(&mut unit);
        unit
    });
    broken.collect()
}

#[test]
fn out_of_range_is_1() {
    let unit = Unit::power_on();
    for reset in [false, true] {
        let good = Cycle {
            reset,
            ..command(0x12, true)
        };
        let status = Cycle { status: 16, ..good };
        let segment = Cycle {
            segment: 128,
            ..good
        };
        refused(1, &unit, status);
        refused(1, &unit, segment);
    }
}

#[test]
fn damage_is_2_and_comes_first() {
    for unit in damaged() {
        for reset in [false, true] {
            let ignored = Cycle {
                reset,
                ..Cycle::default()
            };
            refused(2, &unit, ignored);
            refused(
                2,
                &unit,
                Cycle {
                    status: 0xFF,
                    ..ignored
                },
            );
        }
        refused(2, &unit, command(0x12, true));
        refused(2, &unit, command(0x02, false));
    }
}

type Register = fn(&mut Unit) -> &mut u8;

/// VSN and ISN by ticket 2, the others by document 01.
#[test]
fn each_register_is_damaged_exactly_above_its_bound() {
    let bounds: [(Register, u8); 5] = [
        (|unit| &mut unit.sar, 63),
        (|unit| &mut unit.vsn, 127),
        (|unit| &mut unit.isn, 127),
        (|unit| &mut unit.bcsr, 63),
        (|unit| &mut unit.dscr, 3),
    ];
    for (register, bound) in bounds {
        for value in 0..=0xFF {
            let mut unit = Unit::power_on();
            *register(&mut unit) = value;
            if value > bound {
                refused(2, &unit, Cycle::default());
            } else {
                let answer = Document01::step(&mut unit, &Cycle::default());
                assert_eq!(answer, Answer::quiet(Kind::Ignored, false), "{unit:?}");
            }
        }
    }
}

/// Any VTR and any notes in a unit that translates.
pub fn standing(vtr: u8, notes: u8) -> Unit {
    let line = format!("U C0 00 00 {vtr:02X} 00 00 00 00 00 {notes:02X} 00");
    parse_unit(&line).expect("a unit's line")
}

#[test]
fn exactly_the_orphans_of_all_vtrs_are_damaged() {
    let memory = Cycle {
        status: 0x8,
        offset: 1,
        ..Cycle::default()
    };
    let reset = Cycle {
        reset: true,
        ..Cycle::default()
    };
    let beyond = Cycle {
        segment: 128,
        ..memory
    };
    let cycles = [
        (memory, Kind::Translated),
        (reset, Kind::Reset),
        (command(CLEAR_VTR, false), Kind::Command),
        (beyond, Kind::Refused(1)),
    ];
    for (vtr, notes) in (0..=0xFF).flat_map(|vtr| (0..16).map(move |notes| (vtr, notes))) {
        let before = standing(vtr, notes);
        for (cycle, kind) in cycles {
            let mut unit = before.clone();
            let answer = Document01::step(&mut unit, &cycle);
            if matches!(vtr, 0x40 | 0x80 | 0xC0) {
                assert_eq!(answer, Answer::quiet(Kind::Refused(2), before.request));
                assert_eq!(unit, before);
            } else {
                assert_eq!(answer.kind, kind, "{before:?}");
            }
        }
    }
}

#[test]
fn every_code_in_each_direction() {
    let listed = |code| matches!(code, 0x00..=0x11 | 0x13..=0x16 | 0x20);
    for code in 0..=0xFF {
        for read in [false, true] {
            let one_way = match code {
                0x02..=0x07 => !read,
                0x10..=0x16 => read,
                _ => false,
            };
            if !listed(code) {
                refused(3, &Unit::power_on(), command(code, read));
            } else if one_way {
                refused(4, &Unit::power_on(), command(code, read));
            } else {
                let answer = Document01::step(&mut Unit::power_on(), &command(code, read));
                assert_eq!(answer.kind, Kind::Command);
                assert_eq!(answer.data.is_some(), read);
            }
        }
    }
}

#[test]
fn only_a_selected_command_is_3_or_4() {
    let wrong = command(0x12, true);
    let others = [
        Cycle {
            select: false,
            ..wrong
        },
        Cycle { dma: true, ..wrong },
        Cycle { status: 2, ..wrong },
    ];
    for cycle in others {
        let answer = Document01::step(&mut Unit::power_on(), &cycle);
        assert_eq!(answer, Answer::quiet(Kind::Ignored, false));
    }
    let reset = Cycle {
        reset: true,
        ..wrong
    };
    let answer = Document01::step(&mut Unit::power_on(), &reset);
    assert_eq!(answer, Answer::quiet(Kind::Reset, false));
}
