//! What happens to a board: cycles that one unit translates, that several would
//! drive, that none does, commands, acknowledges, resets, refusals of all kinds.

use crate::board::{BoardCycle, Units};
use crate::checks::Finding;
use crate::commands::{code, Commands, Listing};
use crate::cycle::{Cycle, Kind};
use crate::unit::{mode, Unit};
use crate::Document01;

use super::super::bus::{finding, violates, warns};
use super::rig::{answers, drivers, Rig};

pub type Scene = fn(&mut Rig);

/// One unit drives, and finds what is wanted.
fn one(units: &Units, cycle: &BoardCycle, wanted: fn(&Unit, &Cycle) -> bool) -> bool {
    match drivers(units, cycle)[..] {
        [number] => wanted(&units.places[number].unit, &cycle.cycle),
        _ => false,
    }
}

fn clean(unit: &Unit, cycle: &Cycle) -> bool {
    finding(unit, cycle) == Some(Finding::Clean)
}

pub fn memory(rig: &mut Rig) {
    let wanted: fn(&Unit, &Cycle) -> bool = match rig.random.below(8) {
        0 | 1 => violates,
        2 => warns,
        3 | 4 => clean,
        5 => |unit, cycle| cycle.dma && finding(unit, cycle).is_some(),
        _ => |_, _| true,
    };
    let cycle = rig.aimed(|units, cycle| one(units, cycle, wanted));
    rig.push(cycle);
}

/// A memory cycle of any kind, driven by any number of units.
pub fn access(rig: &mut Rig) {
    let cycle = rig.access();
    rig.push(cycle);
}

/// Two units or more would drive the address.
pub fn clash(rig: &mut Rig) {
    let cycle = clashing(rig);
    rig.push(cycle);
}

fn clashing(rig: &mut Rig) -> BoardCycle {
    match rig.random.coin() {
        true => rig.aimed_fetch(|units, cycle| {
            let drivers = drivers(units, cycle);
            let awaits = |&n: &usize| units.places[n].unit.awaits;
            drivers.len() > 1 && drivers.iter().any(awaits)
        }),
        false => rig.aimed(|units, cycle| drivers(units, cycle).len() > 1),
    }
}

/// A fetch that one unit drives or none, with awaits as they stand.
pub fn fetch(rig: &mut Rig) {
    let kind = [Kind::Translated, Kind::Passed, Kind::AbortedFetch];
    let wanted = rig.random.pick(&kind);
    let cycle = rig.aimed_fetch(|units, cycle| answers(units, cycle, wanted));
    rig.push(cycle);
}

/// A fetch that some unit aborts and another drives.
pub fn aborted_beside(rig: &mut Rig) {
    let cycle = rig.aimed_fetch(|units, cycle| {
        let mut places = units.places.iter().take(usize::from(units.count));
        places.any(|place| place.unit.awaits) && one(units, cycle, |unit, _| !unit.awaits)
    });
    rig.push(cycle);
}

/// A fetch that some unit aborts and none drives.
pub fn aborted_undriven(rig: &mut Rig) {
    let cycle = rig.aimed_fetch(|units, cycle| {
        drivers(units, cycle).is_empty() && answers(units, cycle, Kind::AbortedFetch)
    });
    rig.push(cycle);
}

pub fn dma(rig: &mut Rig) {
    let cycle = rig.aimed(|units, cycle| cycle.cycle.dma && drivers(units, cycle).len() == 1);
    rig.push(cycle);
}

/// Any listed code. A read goes mostly to one unit, a write to any number.
pub fn command(rig: &mut Rig) {
    let any = rig.random.byte() % 0x21;
    let code = rig
        .random
        .pick(&[any, any, 0x0F, 0x0B, code::VTR, code::SAR]);
    let read = match Document01::listing(code) {
        Listing::ReadOnly => true,
        Listing::WriteOnly => false,
        _ => rig.random.coin(),
    };
    let units = match read && !rig.random.once_in(4) {
        true => vec![rig.unit()],
        false => rig.some(),
    };
    let data = rig.random.byte();
    // Not into MR: a few of those, and every cycle would be refused.
    let code = if code == code::MR && !read {
        code::SAR
    } else {
        code
    };
    let selects = rig.only(&units);
    rig.command(selects, code, read, data);
}

/// Reads of several units, and of several whose code is not listed or not read.
pub fn read_several(rig: &mut Rig) {
    let clear = rig.random.pick(&[code::RESET, code::CLEAR_VTR, 0x12, 0x30]);
    let any = rig.random.byte() % 0x10;
    let code = rig.random.pick(&[any, any, any, clear]);
    let selects = rig.some();
    let selects = rig.only(&selects);
    let data = rig.random.byte();
    rig.command(selects, code, true, data);
}

/// Codes that are not listed, and listed ones in the wrong direction.
pub fn wrong_command(rig: &mut Rig) {
    let (code, read) = rig.random.pick(&[
        (0x12, true),
        (0x12, false),
        (0x17, true),
        (0xFF, false),
        (code::VOFF, false),
        (code::ISN, false),
        (code::CLEAR_VTR, true),
        (code::RESET, true),
    ]);
    let units = rig.some();
    let (selects, data) = (rig.only(&units), rig.random.byte());
    rig.command(selects, code, read, data);
}

/// Selects past the count alone, with any code: ignored. On a full board there
/// are none.
pub fn past_the_count(rig: &mut Rig) {
    let past = (0xFFFF_u32 << rig.present()) as u16;
    let some = past & rig.random.word();
    let selects = rig.random.pick(&[past, some]);
    let any = rig.random.byte();
    let code = rig
        .random
        .pick(&[any, 0x12, code::MR, code::VTR, code::RESET]);
    let (read, data) = (rig.random.coin(), rig.random.byte());
    rig.command(selects, code, read, data);
}

/// Looks like a command or an acknowledge and is none.
pub fn not_for_the_units(rig: &mut Rig) {
    let (status, dma) = rig.random.pick(&[
        (0x3, true),
        (0x3, true),
        (0x3, true),
        (0x4, true),
        (0x2, false),
        (0xE, false),
    ]);
    let any = rig.access();
    let cycle = Cycle {
        status,
        dma,
        ..any.cycle
    };
    let selects = rig.random.pick(&[any.selects, 0xFFFF]);
    rig.push(BoardCycle { cycle, selects });
}

/// Any cycle with its status or segment out of range, often by one, and often
/// one that would be refused 12 as well.
pub fn out_of_range(rig: &mut Rig) {
    let mut any = clashing(rig);
    let status = rig.random.pick(&[16, 17, 0x13, 0x14, 0x18, 0xFF]);
    match rig.random.coin() {
        true => any.cycle.status = status,
        false => any.cycle.segment |= 0x80,
    }
    any.cycle.reset = rig.random.once_in(6);
    rig.push(any);
}

pub fn acknowledge(rig: &mut Rig) {
    rig.acknowledge();
}

/// The reset line with any selects, in a cycle that could be anything else; then
/// a look at a few registers.
pub fn reset(rig: &mut Rig) {
    let modes = modes(rig);
    let any = rig.access();
    let status = rig.random.byte() % 16;
    let cycle = Cycle {
        status: rig
            .random
            .pick(&[status, 0x3, 0x3, 0x3, 0x4, any.cycle.status]),
        read: !rig.random.once_in(3),
        reset: true,
        ..any.cycle
    };
    let some = rig.some();
    let some = rig.only(&some);
    let selects = rig.random.pick(&[some, some, any.selects]);
    rig.push(BoardCycle { cycle, selects });
    after_reset(rig, &modes);
}

/// A software reset of several units.
pub fn software_reset(rig: &mut Rig) {
    let modes = modes(rig);
    let (units, data) = (rig.some(), rig.random.byte());
    rig.write(&units, code::RESET, data);
    after_reset(rig, &modes);
}

fn modes(rig: &Rig) -> Vec<u8> {
    let places = rig.units.places.iter().take(rig.present());
    places.map(|place| place.unit.mr).collect()
}

/// A cycle or two as the reset left the board, and the old modes again, but for
/// those of units that are off.
fn after_reset(rig: &mut Rig, modes: &[u8]) {
    for _ in 0..rig.random.below(3) {
        access(rig);
    }
    for (number, &mr) in modes.iter().enumerate() {
        let lost = rig.units.places[number].unit.mr != mr;
        if lost && (mr & mode::MSEN != 0 || rig.random.once_in(6)) {
            rig.set_mode(number, mr);
        }
    }
}

/// Another mode for one unit, for a few cycles.
pub fn change_mode(rig: &mut Rig) {
    let number = rig.unit();
    let mr = rig.units.places[number].unit.mr;
    let any = rig.random.byte();
    let flag = rig
        .random
        .pick(&[mode::MSEN, mode::TRNS, mode::URS, mode::NMS, any]);
    rig.set_mode(number, mr ^ flag);
    for _ in 0..rig.random.between(1, 3) {
        memory(rig);
    }
    rig.set_mode(number, mr);
}

/// A fault, and what the kernel does then: the fetch that it aborts, an
/// acknowledge, a look at the units, and a clean slate for some.
pub fn fault(rig: &mut Rig) {
    let cycle = rig.aimed(|units, cycle| one(units, cycle, violates));
    rig.push(cycle);
    for _ in 0..rig.random.below(3) {
        memory(rig);
    }
    for _ in 0..rig.random.between(1, 2) {
        fetch(rig);
    }
    if rig.random.coin() {
        rig.acknowledge();
    }
    for _ in 0..rig.random.below(3) {
        let number = rig.unit();
        let register = code::VTR + rig.random.byte() % 6;
        rig.read(number, register);
    }
    if rig.random.coin() {
        let units = rig.some();
        rig.write(&units, code::CLEAR_VTR, 0);
    }
}

/// Two units that drive one and the same address: what the first would drive is
/// given to the second by its base.
pub fn same_address(rig: &mut Rig) {
    let clashes = |units: &Units, cycle: &BoardCycle| {
        let translates = |&n: &usize| units.places[n].unit.mode(mode::TRNS);
        let drivers = drivers(units, cycle);
        drivers.len() == 2 && drivers.iter().all(translates)
    };
    let cycle = rig.aimed(clashes);
    let at = usize::from(cycle.cycle.entry());
    if let [one, other] = drivers(&rig.units, &cycle)[..] {
        let mut unit = rig.units.places[other].unit.clone();
        unit.table[at].base = rig.units.places[one].unit.table[at].base;
        if !rig.units.places[other].strange {
            rig.place(other, unit, 0);
        }
    }
    rig.push(cycle);
}
