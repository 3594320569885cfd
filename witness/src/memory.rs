//! The memory cycle: fetches and aborted fetches, SUP and hold, the REF and
//! CHG marks and the instruction address.

use crate::checks::{Checks, Finding};
use crate::cycle::{Answer, Cycle, Kind};
use crate::recording::Recording;
use crate::translation::{Route, Translation};
use crate::unit::{attribute, Unit};

pub trait Memory: Translation + Checks + Recording {
    fn memory(unit: &mut Unit, cycle: &Cycle) -> Answer {
        if Self::fetches(unit, cycle) {
            if unit.awaits {
                return Self::aborted_fetch(unit, cycle);
            }
            Self::start_instruction(unit);
        }
        // Hold as earlier cycles of this instruction left it.
        let held = Self::held(unit, cycle);
        match Self::route(unit, cycle) {
            Route::Translated(address) => Self::translated(unit, cycle, address, held),
            route => {
                let kind = match route {
                    Route::Passed(_) => Kind::Passed,
                    _ => Kind::Ignored,
                };
                Answer {
                    address: route.address(),
                    sup: held,
                    ..Answer::quiet(kind, unit.request)
                }
            }
        }
    }

    /// A CPU read at %D, whichever unit translates it.
    fn fetches(_unit: &Unit, cycle: &Cycle) -> bool {
        !cycle.dma && cycle.read && cycle.status == 0xD
    }

    fn start_instruction(unit: &mut Unit) {
        unit.own = false;
        unit.hold = false;
    }

    /// The address is driven as in any cycle; nothing is checked, measured,
    /// recorded, marked or suppressed.
    fn aborted_fetch(unit: &mut Unit, cycle: &Cycle) -> Answer {
        unit.awaits = false;
        Self::start_instruction(unit);
        Answer {
            address: Self::route(unit, cycle).address(),
            ..Answer::quiet(Kind::AbortedFetch, unit.request)
        }
    }

    /// A standing hold suppresses every memory cycle of the CPU, driven or
    /// not, and none of a DMA master.
    fn held(unit: &Unit, cycle: &Cycle) -> bool {
        unit.hold && !cycle.dma
    }

    /// The distance is carried in a violation as well, with SUP on by hold, and
    /// for any master.
    fn translated(unit: &mut Unit, cycle: &Cycle, address: u16, held: bool) -> Answer {
        let descriptor = &unit.table[usize::from(cycle.entry())];
        let finding = Self::check(descriptor, cycle);
        let distance = Self::distance(descriptor, cycle);
        let sup = held || matches!(finding, Finding::Violation(_));
        if !cycle.dma {
            Self::record(unit, cycle, finding);
        }
        if !sup {
            Self::mark(unit, cycle);
        }
        if Self::keeps_instruction(unit, cycle, finding) {
            unit.isn = Self::kept_segment(cycle);
            unit.ioff = cycle.offset;
        }
        Answer {
            address: Some(address),
            sup,
            distance,
            ..Answer::quiet(Kind::Translated, unit.request)
        }
    }

    /// REF, and CHG too if the cycle writes, for any master.
    fn mark(unit: &mut Unit, cycle: &Cycle) {
        let attributes = &mut unit.table[usize::from(cycle.entry())].attributes;
        *attributes |= attribute::REF;
        if cycle.write() {
            *attributes |= attribute::CHG;
        }
    }

    /// VTR zero, all eight bits: in an undamaged unit that is no primary flag.
    fn keeps_instruction(unit: &Unit, cycle: &Cycle, finding: Finding) -> bool {
        Self::fetches(unit, cycle) && !matches!(finding, Finding::Violation(_)) && unit.vtr == 0
    }
}
