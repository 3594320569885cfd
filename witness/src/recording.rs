//! Recording: what a CPU cycle's violation or warning leaves in the VTR, the
//! violation registers and the notes.

use crate::checks::Finding;
use crate::cycle::Cycle;
use crate::unit::{violation, Unit};

pub trait Recording {
    /// Called for CPU cycles only.
    fn record(unit: &mut Unit, cycle: &Cycle, finding: Finding) {
        let flags = match finding {
            Finding::Clean => return,
            Finding::Warning => violation::PWW,
            Finding::Violation(flags) => flags,
        };
        if unit.vtr & violation::PRIMARY == 0 {
            Self::first_entry(unit, cycle, flags);
        } else if unit.own {
            Self::further_entry(unit, cycle, flags);
        } else if finding == Finding::Warning && Self::system_stack(cycle) {
            Self::second_warning(unit);
        } else {
            Self::fatal(unit);
        }
        if finding != Finding::Warning {
            unit.hold = true;
        }
    }

    /// No primary flag yet.
    fn first_entry(unit: &mut Unit, cycle: &Cycle, flags: u8) {
        unit.vtr |= flags;
        Self::store(unit, cycle);
        unit.own = true;
        Self::trap(unit);
    }

    /// What is kept of the faulting cycle: the low byte exactly with VOFF
    /// (ticket 8), so a 0 takes the place of an older byte as any other does.
    fn store(unit: &mut Unit, cycle: &Cycle) {
        unit.vsn = Self::kept_segment(cycle);
        unit.voff = cycle.offset;
        unit.low = Self::kept_low(cycle);
        unit.bcsr = cycle.bus_status();
    }

    /// What VSN and ISN keep: all seven bits (ticket 2), where document 01 has
    /// the segment modulo 64.
    fn kept_segment(cycle: &Cycle) -> u8 {
        cycle.segment
    }

    /// All eight bits.
    fn kept_low(cycle: &Cycle) -> u8 {
        cycle.low
    }

    /// The instruction that made the first entry: flags, nothing else.
    fn further_entry(unit: &mut Unit, _cycle: &Cycle, flags: u8) {
        unit.vtr |= flags;
    }

    fn second_warning(unit: &mut Unit) {
        if unit.vtr & violation::SWW != 0 {
            return;
        }
        unit.vtr |= violation::SWW;
        if unit.vtr & violation::FATL == 0 {
            Self::trap(unit);
        }
    }

    fn fatal(unit: &mut Unit) {
        let stood = unit.vtr & violation::FATL != 0;
        unit.vtr |= violation::FATL;
        if !stood {
            Self::trap(unit);
        }
    }

    /// A new trap, also while one stands: another aborted fetch comes.
    fn trap(unit: &mut Unit) {
        unit.request = true;
        unit.awaits = true;
    }

    fn system_stack(cycle: &Cycle) -> bool {
        !cycle.normal && cycle.status == 0x9
    }
}
