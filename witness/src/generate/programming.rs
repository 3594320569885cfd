//! Scenes in which the kernel programs the unit: the mode register, the
//! descriptors by each of their commands, wrong commands, resets.

use crate::commands::code;
use crate::cycle::Cycle;
use crate::unit::{attribute, mode, Descriptor};

use super::bus::{violates, Bus};

/// A fresh table of a few segments and a mode that mostly translates.
pub fn setup(bus: &mut Bus) {
    let upper = bus.random.once_in(3);
    let many = bus.random.between(3, 6);
    bus.segments = (0..many).map(|_| segment(bus, upper)).collect();
    let mode_first = bus.random.coin();
    if mode_first {
        set_mode(bus, upper);
    }
    for (place, segment) in bus.segments.clone().into_iter().enumerate() {
        let descriptor = descriptor(bus, place);
        load(bus, segment % 64, descriptor);
    }
    if !mode_first || bus.random.coin() {
        set_mode(bus, upper);
    }
}

/// Any segment of a range, now and then its first or its last.
fn segment(bus: &mut Bus, upper: bool) -> u8 {
    let number = match bus.random.below(12) {
        0 => 0,
        1 => 63,
        _ => bus.random.byte() % 64,
    };
    number + if upper { 64 } else { 0 }
}

fn set_mode(bus: &mut Bus, upper: bool) {
    let mut mr = mode::MSEN | mode::TRNS | bus.random.byte() & mode::ID;
    if upper {
        mr |= mode::URS;
    }
    if bus.random.once_in(3) {
        mr |= mode::MST;
    }
    if bus.random.coin() {
        mr |= mode::NMS;
    }
    bus.write(code::MR, mr);
}

/// The first place is a good stack and the second a good code segment, so that
/// warnings and clean fetches can be had; the others have any flags.
fn descriptor(bus: &mut Bus, place: usize) -> Descriptor {
    let random = &mut bus.random;
    let base = if random.once_in(4) {
        0xFF00 | random.word()
    } else {
        random.word()
    };
    let small = random.byte() % 4;
    let limit = match random.below(5) {
        0 => 0xFF - small,
        1 => random.byte(),
        _ => small,
    };
    let one = 1 << random.below(5);
    let attributes = match (place, random.below(4)) {
        (0, _) => attribute::DIRW,
        (1, _) => 0,
        (_, 0) => random.byte(),
        (_, 1) => one,
        (_, 2) => one | attribute::DIRW,
        _ => attribute::DIRW,
    };
    Descriptor {
        base,
        limit: if place == 1 { 0xF0 | limit } else { limit },
        attributes,
    }
}

/// Loads a descriptor by one of the ways the commands offer.
fn load(bus: &mut Bus, number: u8, descriptor: Descriptor) {
    let [high, low] = descriptor.base.to_be_bytes();
    let (limit, attributes) = (descriptor.limit, descriptor.attributes);
    // The high bits of these two bytes are not kept.
    let sar = number | bus.random.byte() & 0xC0;
    let dscr = bus.random.byte() & 0xFC;
    if bus.unit.dscr != 0 {
        bus.write(code::DSCR, dscr);
    }
    bus.write(code::SAR, sar);
    let whole = |code: u8| [(code, high), (code, low), (code, limit), (code, attributes)];
    let moves = match bus.random.below(4) {
        0 => whole(0x0B),
        1 => whole(0x0F),
        2 => [(0x08, high), (0x08, low), (0x09, limit), (0x0A, attributes)],
        _ => [(0x0A, attributes), (0x09, limit), (0x0C, high), (0x0C, low)],
    };
    for (code, byte) in moves {
        bus.write(code, byte);
    }
}

/// Reads attributes back, or all of it: REF and CHG are seen nowhere else.
pub fn inspect(bus: &mut Bus, segment: u8) {
    if bus.unit.dscr != 0 {
        bus.write(code::DSCR, 0);
    }
    bus.write(code::SAR, segment % 64);
    let code = bus
        .random
        .pick(&[0x0A, 0x0A, 0x0A, 0x0E, 0x0E, 0x0E, 0x0B, 0x0F]);
    let bytes = if code % 4 == 3 { 4 } else { 1 };
    for _ in 0..bytes {
        bus.read(code);
    }
}

/// Descriptor commands out of step, from any DSCR and near the last SAR.
pub fn ragged(bus: &mut Bus) {
    let hot = bus.segments.clone();
    for _ in 0..bus.random.between(3, 9) {
        if bus.random.coin() {
            let dscr = bus.random.byte();
            bus.write(code::DSCR, dscr);
        }
        if bus.random.once_in(3) {
            let sar = [bus.random.pick(&hot), 62, 63, 63, bus.random.byte()];
            let sar = bus.random.pick(&sar);
            bus.write(code::SAR, sar);
        }
        let code = code::BASE + bus.random.byte() % 8;
        let (read, data) = (!bus.random.once_in(3), bus.random.byte());
        bus.command(code, read, data);
        if bus.random.once_in(3) {
            let register = bus.random.pick(&[code::DSCR, code::SAR, code::MR]);
            bus.read(register);
        }
    }
}

/// Codes that are not listed, and listed ones in the wrong direction.
pub fn wrong_commands(bus: &mut Bus) {
    for _ in 0..bus.random.between(2, 6) {
        let any = bus.random.between(0x21, 0xFF) as u8;
        let near = bus.random.between(0x17, 0x1F) as u8;
        let (read, data) = (bus.random.coin(), bus.random.byte());
        match bus.random.below(5) {
            0 => bus.command(any, read, data),
            1 => bus.command(near, read, data),
            2 => bus.command(0x12, read, data),
            3 => bus.write(data % 6 + code::VTR, data),
            _ => {
                let clear = bus.random.pick(&[0x10, 0x11, 0x13, 0x14, 0x15, 0x16]);
                bus.read(clear);
            }
        }
    }
}

/// Cycles that look like commands or acknowledges and are none.
pub fn not_for_the_unit(bus: &mut Bus) {
    for _ in 0..bus.random.between(2, 6) {
        let (status, dma, select) = bus.random.pick(&[
            (0x3, false, false),
            (0x3, true, true),
            (0x4, true, true),
            (0x2, false, true),
            (0x5, false, true),
        ]);
        let cycle = Cycle {
            status,
            dma,
            select,
            offset: bus.random.byte() % 0x24,
            ..bus.access()
        };
        bus.push(cycle);
    }
}

/// Any listed register or command, in either direction.
pub fn every_command(bus: &mut Bus) {
    for _ in 0..6 {
        let code = bus.random.byte() % 0x21;
        let (read, data) = (bus.random.coin(), bus.random.byte());
        bus.command(code, read, data);
    }
    if bus.random.coin() {
        setup(bus);
    }
}

/// Sets an inhibit flag everywhere, tries it, and mostly begins anew.
pub fn inhibit_all(bus: &mut Bus) {
    let (code, data) = (bus.random.pick(&[0x15, 0x16]), bus.random.byte());
    bus.write(code, data);
    for _ in 0..bus.random.between(1, 4) {
        let cycle = bus.operand();
        bus.push(cycle);
        inspect(bus, cycle.segment);
    }
    let any = bus.random.byte();
    inspect(bus, any);
    if !bus.random.once_in(4) {
        setup(bus);
    }
}

/// The reset line, in a cycle that could be anything else as well.
pub fn reset(bus: &mut Bus) {
    unsettle(bus);
    let any = bus.random.byte() % 16;
    let cycle = Cycle {
        status: bus.random.pick(&[any, any, 0x3, 0x3, 0x4]),
        read: bus.random.coin(),
        normal: bus.random.coin(),
        dma: bus.random.once_in(4),
        select: bus.random.coin(),
        segment: bus.segment(),
        offset: bus.random.byte(),
        data: bus.random.byte(),
        reset: true,
        ..Cycle::default()
    };
    bus.push(cycle);
    after_reset(bus);
}

pub fn software_reset(bus: &mut Bus) {
    unsettle(bus);
    let data = bus.random.byte();
    bus.write(code::RESET, data);
    after_reset(bus);
}

/// Something for a reset to clear.
fn unsettle(bus: &mut Bus) {
    if bus.random.coin() {
        bus.push_aimed(violates);
    }
    if bus.random.coin() {
        let dscr = bus.random.byte();
        bus.write(code::DSCR, dscr);
    }
}

/// Some cycles in the state that the reset left, a look at the registers, and
/// the old table switched on again or a new one.
fn after_reset(bus: &mut Bus) {
    for _ in 0..bus.random.below(4) {
        let cycle = bus.access();
        bus.push(cycle);
    }
    for register in [
        code::MR,
        code::SAR,
        code::VTR,
        code::VSN,
        code::VOFF,
        code::BCSR,
        code::ISN,
        code::IOFF,
        code::DSCR,
    ] {
        if bus.random.coin() {
            bus.read(register);
        }
    }
    if bus.random.coin() {
        let upper = bus.segments[0] >= 64;
        set_mode(bus, upper);
    } else {
        setup(bus);
    }
}
