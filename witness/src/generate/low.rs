//! The low byte of an address: which one a cycle has, and a scene of first
//! entries, which store it, and of much that must leave it.

use crate::checks::Finding;
use crate::commands::code;
use crate::cycle::Cycle;

use super::bus::{clean, finding, violates, warns, warns_at_system_stack, Bus};
use super::random::Random;
use super::service::clear;

/// Any byte, often the first or the last or at the middle.
pub fn low(random: &mut Random) -> u8 {
    let any = random.byte();
    random.pick(&[any, any, any, any, 0, 0x7F, 0x80, 0xFF])
}

/// What leaves the low byte, unless the VTR has been cleared; it stands here as
/// often as it should come.
const LEAVES: [fn(&mut Bus); 17] = [
    fault,
    fault,
    later_fault,
    later_fault,
    later_fault,
    again,
    again,
    last_block,
    last_block,
    dma_violation,
    |bus| bus.acknowledge(),
    clear,
    clear,
    read,
    read,
    write,
    refused,
];

/// First entries, with cycles before, between and after them that leave the low
/// byte.
pub fn kept(bus: &mut Bus) {
    let mr = bus.unit.mr;
    for _ in 0..bus.random.between(1, 3) {
        begin_anew(bus, mr);
        fault(bus);
        for _ in 0..bus.random.between(2, 5) {
            let leave = bus.random.pick(&LEAVES);
            leave(bus);
        }
    }
}

/// Clears the VTR by one of the ways there are, with the mode as it was.
fn begin_anew(bus: &mut Bus, mr: u8) {
    match bus.random.below(4) {
        0 | 1 => bus.write(code::CLEAR_VTR, 0),
        2 => {
            let cycle = Cycle {
                reset: true,
                select: bus.random.coin(),
                ..bus.access()
            };
            bus.push(cycle);
            bus.write(code::MR, mr);
        }
        _ => {
            bus.write(code::RESET, 0);
            bus.write(code::MR, mr);
        }
    }
    match bus.random.below(4) {
        0 => dma_violation(bus),
        // The first is aborted if await stands; the second stores ISN and IOFF.
        1 => {
            bus.fetch();
            bus.fetch();
        }
        2 => bus.fetch(),
        _ => {}
    }
}

/// Any violation or warning: a first entry, if the VTR is zero; else a further
/// one, if own stands.
fn fault(bus: &mut Bus) {
    if bus.random.coin() {
        bus.push_aimed(violates);
    } else {
        bus.push_aimed(warns);
    }
}

/// The same of another instruction, which sets FATL or SWW.
fn later_fault(bus: &mut Bus) {
    bus.fetch();
    if bus.random.coin() {
        fault(bus);
    } else {
        bus.push_aimed(warns_at_system_stack);
        again(bus);
    }
}

/// The last cycle once more, alike but for its low byte.
fn again(bus: &mut Bus) {
    if let Some(&cycle) = bus.cycles.last() {
        bus.push(cycle);
    }
}

/// Accesses at the limit that go well, whatever their low bytes.
fn last_block(bus: &mut Bus) {
    bus.push_aimed(|unit, cycle| {
        let descriptor = &unit.table[usize::from(cycle.entry())];
        clean(unit, cycle) && cycle.offset == descriptor.limit
    });
    again(bus);
}

fn dma_violation(bus: &mut Bus) {
    bus.push_aimed(|unit, cycle| {
        cycle.dma && matches!(finding(unit, cycle), Some(Finding::Violation(_)))
    });
}

/// Any register, one of two that nothing else reads often, and often VOFF.
fn read(bus: &mut Bus) {
    let any = bus.random.byte() % 8;
    let seldom = bus.random.pick(&[code::MR, code::SAR]);
    let last = bus.random.pick(&[code::VOFF, code::DSCR, any]);
    for code in [any, seldom, last] {
        bus.read(code);
    }
}

/// A register that can be written; MR as it is, so that the unit goes on.
fn write(bus: &mut Bus) {
    let (mr, any) = (bus.unit.mr, bus.random.byte());
    let writes = [(code::MR, mr), (code::SAR, any), (code::DSCR, any)];
    let (code, data) = bus.random.pick(&writes);
    bus.write(code, data);
}

/// Refused with 3, 4 or 1.
fn refused(bus: &mut Bus) {
    let (code, read) = bus.random.pick(&[
        (0x12, true),
        (0x12, false),
        (0x17, true),
        (code::VOFF, false),
        (code::CLEAR_VTR, true),
    ]);
    let cycle = bus.access();
    match bus.random.below(3) {
        0 | 1 => bus.command(code, read, cycle.data),
        _ => {
            bus.push(Cycle {
                segment: cycle.segment | 0x80,
                ..cycle
            });
        }
    }
}
