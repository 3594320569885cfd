//! Scenes of a running program: instructions, faults and what follows them,
//! DMA, times when the unit does not translate, and plain chaos.

use crate::commands::code;
use crate::cycle::Cycle;
use crate::unit::{attribute, mode};

use super::bus::{clean, violates, warns, warns_at_system_stack, Bus};
use super::programming::inspect;
use super::service::{clear, read_registers, serve};

/// Instructions that mostly go well.
pub fn work(bus: &mut Bus) {
    for _ in 0..bus.random.between(1, 3) {
        bus.fetch();
        for _ in 0..bus.random.below(6) {
            bus.push_aimed(clean);
        }
        if bus.random.once_in(3) {
            let any = bus.operand();
            bus.push(any);
            inspect(bus, any.segment);
        }
    }
    bus.read(code::ISN);
    bus.read(code::IOFF);
}

/// One instruction with a fault, from its fetch to the return from the trap.
pub fn fault(bus: &mut Bus) {
    if bus.random.once_in(3) {
        bus.write(code::CLEAR_VTR, 0);
    }
    bus.fetch();
    for _ in 0..bus.random.below(3) {
        bus.push_aimed(clean);
    }
    event(bus);
    same_instruction(bus);
    next_fetch(bus);
    serve(bus);
    if bus.random.coin() {
        bus.fetch();
    }
}

/// A violation or a warning, where the table allows one.
fn event(bus: &mut Bus) {
    match bus.random.below(5) {
        0 | 1 => bus.push_aimed(violates),
        2 => bus.push_aimed(warns_at_system_stack),
        3 => bus.push_aimed(warns),
        _ => {
            let any = bus.operand();
            bus.push(any);
        }
    }
}

/// What else may come before the next fetch.
fn same_instruction(bus: &mut Bus) {
    for _ in 0..bus.random.below(5) {
        match bus.random.below(13) {
            0..=3 => event(bus),
            4 => bus.push_aimed(clean),
            5 => bus.push_aimed(|_, cycle| cycle.dma),
            6 => clear(bus),
            7 => bus.acknowledge(),
            8 => without_translation(bus),
            9 => read_registers(bus),
            10 => {
                let any = bus.operand();
                bus.push(any);
                inspect(bus, any.segment);
            }
            11 => {
                bus.write(code::CLEAR_VTR, 0xFF);
                event(bus);
            }
            _ => bus.read(code::VTR),
        }
    }
}

/// The fetch that a standing trap aborts, sometimes with the unit switched
/// off or passing, and sometimes another at once.
fn next_fetch(bus: &mut Bus) {
    let mr = bus.unit.mr;
    let off = bus
        .random
        .pick(&[0, 0, 0, mode::TRNS, mode::MSEN, mode::URS]);
    if off != 0 {
        bus.write(code::MR, mr ^ off);
    }
    bus.fetch();
    if bus.random.once_in(3) {
        bus.fetch();
    }
    if off != 0 {
        if bus.random.once_in(4) {
            bus.acknowledge();
        }
        bus.write(code::MR, mr);
    }
    if bus.random.once_in(3) {
        let segment = bus.cycles.last().map_or(0, |cycle| cycle.segment);
        inspect(bus, segment);
    }
}

/// Faults of later instructions while the VTR still holds the first: second
/// warnings and fatal errors, from each state of SWW and FATL.
pub fn faults_in_service(bus: &mut Bus) {
    event(bus);
    for _ in 0..bus.random.between(2, 6) {
        next_fetch(bus);
        if bus.random.coin() {
            bus.acknowledge();
        }
        let clearing = bus.random.pick(&[0, 0, code::CLEAR_SWW, code::CLEAR_FATL]);
        if clearing != 0 {
            bus.write(clearing, 0xFF);
        }
        if bus.random.once_in(3) {
            unmark_stack(bus);
        }
        for _ in 0..bus.random.between(1, 2) {
            if bus.random.once_in(3) {
                bus.push_aimed(warns_at_system_stack);
            } else {
                event(bus);
            }
        }
        bus.read(code::VTR);
        if bus.random.once_in(3) {
            same_instruction(bus);
        }
    }
    serve(bus);
}

/// Takes the marks off the first segment, a stack unless chaos came.
fn unmark_stack(bus: &mut Bus) {
    let segment = bus.segments[0];
    bus.write(code::SAR, segment);
    bus.write(0x0A, attribute::DIRW);
}

/// Cycles that the unit does not translate, a standing hold among them.
pub fn without_translation(bus: &mut Bus) {
    let mr = bus.unit.mr;
    let change = bus.random.pick(&[
        mode::MSEN,
        mode::TRNS,
        mode::URS,
        mode::MSEN | mode::TRNS,
        mode::MST | mode::NMS,
        mode::NMS,
        0,
    ]);
    bus.write(code::MR, mr ^ change);
    for _ in 0..bus.random.between(1, 4) {
        let cycle = match bus.random.below(5) {
            0 => bus.access(),
            1 => Cycle {
                segment: bus.random.byte() % 128,
                ..bus.operand()
            },
            _ => bus.operand(),
        };
        bus.push(cycle);
    }
    if bus.random.once_in(4) {
        bus.acknowledge();
    }
    if bus.random.once_in(3) {
        // VSN and ISN keep the range that stood when they were stored.
        let register = bus.random.pick(&[code::MR, code::VSN, code::ISN]);
        bus.read(register);
    }
    bus.write(code::MR, mr);
}

/// DMA cycles, aimed at limits as the CPU's are, the marks they leave, and two
/// registers that they leave alone.
pub fn dma(bus: &mut Bus) {
    if bus.random.once_in(3) {
        event(bus);
    }
    for _ in 0..bus.random.between(3, 9) {
        let cycle = Cycle {
            dma: true,
            ..bus.access()
        };
        bus.push(cycle);
        if bus.random.once_in(3) {
            inspect(bus, cycle.segment);
        }
    }
    bus.read(code::VTR);
    bus.read(code::ISN);
}

/// Any cycle at all, with command codes mostly listed.
pub fn chaos(bus: &mut Bus) {
    for _ in 0..bus.random.between(3, 25) {
        let code = bus.random.byte() % 0x24;
        let any = Cycle {
            status: bus.random.byte() % 16,
            select: bus.random.coin(),
            ..bus.access()
        };
        let cycle = match bus.random.below(4) {
            0 => Cycle {
                offset: code,
                ..any
            },
            1 => Cycle {
                segment: bus.random.byte() % 128,
                offset: bus.random.byte(),
                reset: bus.random.once_in(12),
                ..any
            },
            _ => bus.access(),
        };
        bus.push(cycle);
    }
}
