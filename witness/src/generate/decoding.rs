//! Scenes that try a decoder: every status, the codes beside the listed ones,
//! and what commands and acknowledges leave alone.

use crate::commands::{code, Commands, Listing};
use crate::cycle::Cycle;
use crate::Document01;

use super::bus::{violates, Bus};

/// The last code of the block of the set and clear commands.
const BLOCK_END: u8 = 0x1F;

/// A cycle of each status. With select on and a code in the address phase, each
/// shows what it would be taken for: a command, an acknowledge or a memory cycle.
pub fn every_status(bus: &mut Bus) {
    for status in 0x0..=0xF {
        let code = bus.random.byte() % (code::WHOLE_STEPPING + 1);
        let cycle = Cycle {
            status,
            select: !bus.random.once_in(4),
            offset: code,
            ..bus.access()
        };
        bus.push(cycle);
    }
}

/// The codes that are not listed and differ in one bit from MR's or DSCR's, and
/// those among the set and clear commands.
pub fn codes_beside(bus: &mut Bus) {
    let beside = (0..8).flat_map(|bit| [code::MR ^ 1 << bit, code::DSCR ^ 1 << bit]);
    for code in beside.chain(code::RESET..=BLOCK_END) {
        if Document01::listing(code) == Listing::NotListed {
            let (read, data) = (!bus.random.once_in(4), bus.random.byte());
            bus.command(code, read, data);
        }
    }
}

/// A fault, and what may come before the next one of the same instruction; DSCR
/// and SAR stay through it.
pub fn clears_in_flight(bus: &mut Bus) {
    let dscr = bus.random.byte();
    bus.write(code::CLEAR_VTR, 0);
    bus.fetch();
    bus.push_aimed(violates);
    bus.write(code::DSCR, dscr);
    match bus.random.below(5) {
        0 => bus.acknowledge(),
        1 => bus.write(code::CLEAR_VTR, dscr),
        2 | 3 => bus.write(code::CLEAR_SWW, dscr),
        _ => bus.write(code::CLEAR_FATL, dscr),
    }
    let next = bus.operand();
    bus.push(next);
    bus.push_aimed(violates);
    for register in [code::VTR, code::DSCR, code::SAR] {
        bus.read(register);
    }
}
