//! Scenes of the trap service: acknowledge, the kernel's reading of the
//! registers, and clearing.

use crate::commands::code;

use super::bus::Bus;
use super::programming::inspect;

/// Reads the violation and instruction registers, all or some.
pub fn read_registers(bus: &mut Bus) {
    let all = bus.random.once_in(3);
    for register in code::VTR..=code::IOFF {
        if all || bus.random.once_in(3) {
            bus.read(register);
        }
    }
}

/// The usual service: acknowledge, look, clear, return.
pub fn serve(bus: &mut Bus) {
    if !bus.random.once_in(6) {
        bus.acknowledge();
    }
    read_registers(bus);
    if bus.random.coin() {
        let segments = bus.segments.clone();
        let segment = bus.random.pick(&segments);
        inspect(bus, segment);
    }
    if bus.random.once_in(3) {
        clear(bus);
    }
    if bus.random.once_in(4) {
        bus.acknowledge();
    }
}

pub fn clear(bus: &mut Bus) {
    let code = bus.random.pick(&[
        code::CLEAR_VTR,
        code::CLEAR_VTR,
        code::CLEAR_SWW,
        code::CLEAR_FATL,
    ]);
    let data = bus.random.byte();
    bus.write(code, data);
    if bus.random.once_in(3) {
        bus.read(code::VTR);
    }
}
