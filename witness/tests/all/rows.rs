//! The proved rows P1 to P11 of document 01.

use witness::cycle::{Answer, Cycle, Kind};
use witness::step::Step;
use witness::unit::{attribute, violation, Descriptor, Unit};
use witness::Document01;

/// Translating, lower range, one table.
pub const TRANSLATES: u8 = 0xC0;

pub fn unit(mr: u8, number: usize, descriptor: (u16, u8, u8)) -> Unit {
    let mut unit = Unit::power_on();
    unit.mr = mr;
    let (base, limit, attributes) = descriptor;
    unit.table[number] = Descriptor {
        base,
        limit,
        attributes,
    };
    unit
}

pub fn read(segment: u8, offset: u8) -> Cycle {
    Cycle {
        status: 0x8,
        read: true,
        segment,
        offset,
        ..Cycle::default()
    }
}

pub fn write(segment: u8, offset: u8) -> Cycle {
    Cycle {
        read: false,
        ..read(segment, offset)
    }
}

pub fn acknowledge() -> Cycle {
    Cycle {
        status: 0x4,
        read: true,
        ..Cycle::default()
    }
}

pub fn step(unit: &mut Unit, cycle: Cycle) -> Answer {
    Document01::step(unit, &cycle)
}

/// The VTR that one cycle leaves in a fresh unit with such a descriptor.
fn vtr(descriptor: (u16, u8, u8), cycle: Cycle) -> u8 {
    let mut unit = unit(TRANSLATES, 0, descriptor);
    step(&mut unit, cycle);
    unit.vtr
}

#[test]
fn p1_base_and_offset_are_added() {
    let mut unit = unit(TRANSLATES, 0, (0x2311, 0xFF, 0));
    let answer = step(&mut unit, read(0, 0x15));
    assert_eq!(
        (answer.kind, answer.address),
        (Kind::Translated, Some(0x2326))
    );
}

#[test]
fn p2_the_sum_wraps() {
    let mut unit = unit(TRANSLATES, 0, (0xFFF0, 0xFF, 0));
    assert_eq!(step(&mut unit, read(0, 0x20)).address, Some(0x0010));
}

#[test]
fn p3_limit() {
    assert_eq!(vtr((0, 0x02, 0), read(0, 0x02)), 0);
    assert_eq!(vtr((0, 0x02, 0), read(0, 0x03)), violation::SLV);
    for offset in 0..=0xFF {
        assert_eq!(vtr((0, 0xFF, 0), read(0, offset)), 0);
    }
}

#[test]
fn p4_downward_limit() {
    let stack = (0, 0xF0, attribute::DIRW);
    assert_eq!(vtr(stack, write(0, 0xF0)), violation::PWW);
    assert_eq!(vtr(stack, write(0, 0xEF)), violation::SLV);
    assert_eq!(vtr(stack, write(0, 0xF1)), 0);
}

#[test]
fn p5_limit_zero() {
    for offset in 0..=0xFF {
        let upward = if offset == 0 { 0 } else { violation::SLV };
        let downward = if offset == 0 { violation::PWW } else { 0 };
        assert_eq!(vtr((0, 0, 0), write(0, offset)), upward);
        assert_eq!(vtr((0, 0, attribute::DIRW), write(0, offset)), downward);
    }
}

/// VSN by ticket 2; document 01 has %01.
#[test]
fn p6_what_a_violation_stores() {
    let mut unit = unit(0xE0, 1, (0, 0x02, attribute::RD));
    let cycle = Cycle {
        normal: true,
        ..write(65, 0x93)
    };
    let answer = step(&mut unit, cycle);
    assert!(answer.sup && answer.trap);
    assert_eq!(
        (unit.vtr, unit.bcsr, unit.vsn, unit.voff),
        (0x05, 0x28, 0x41, 0x93)
    );
}

#[test]
fn p7_acknowledge_drives_the_units_line() {
    let mut unit = unit(0x82, 0, (0, 0, 0));
    unit.request = true;
    let answer = step(&mut unit, acknowledge());
    assert_eq!((answer.kind, answer.data), (Kind::Acknowledge, Some(0x04)));
    assert!(!answer.trap);
}

#[test]
fn p8_stepping_wraps() {
    for read in [false, true] {
        let mut unit = unit(0, 0, (0, 0, 0));
        (unit.sar, unit.dscr) = (63, 3);
        let cycle = Cycle {
            status: 0x3,
            read,
            select: true,
            offset: 0x0F,
            ..Cycle::default()
        };
        step(&mut unit, cycle);
        assert_eq!((unit.sar, unit.dscr), (0, 0));
    }
}

#[test]
fn p9_dma_violation_is_not_recorded() {
    let mut unit = unit(TRANSLATES, 0, (0, 0xFF, attribute::RD));
    let before = unit.clone();
    let cycle = Cycle {
        dma: true,
        ..write(0, 0)
    };
    let answer = step(&mut unit, cycle);
    assert!(answer.sup && !answer.trap);
    assert_eq!(unit, before);
}

#[test]
fn p10_passed_through() {
    let mut unit = unit(0x80, 5, (0x1234, 0, attribute::CPUI));
    let answer = step(&mut unit, read(5, 0x15));
    assert_eq!((answer.kind, answer.address), (Kind::Passed, Some(0x0515)));
    assert!(!answer.sup);
}

#[test]
fn p11_system_stack_warnings() {
    let mut unit = unit(TRANSLATES, 0, (0, 0xF0, attribute::DIRW));
    let warning = Cycle {
        status: 0x9,
        ..write(0, 0xF0)
    };
    step(&mut unit, warning);
    assert_eq!(unit.vtr, violation::PWW);
    step(&mut unit, acknowledge());
    assert!(step(&mut unit, warning).trap);
    assert_eq!(unit.vtr, 0x60);
    step(&mut unit, acknowledge());
    assert!(!step(&mut unit, warning).trap);
    assert_eq!(unit.vtr, 0x60);
    assert!(!unit.request && !unit.awaits);
}
