//! The checks of a translated cycle: violations and the write warning, and
//! how near the segment's edge is.

use crate::cycle::Cycle;
use crate::unit::{attribute, violation, Descriptor};

#[derive(Clone, Copy, Debug, PartialEq, Eq)]
pub enum Finding {
    Clean,
    Warning,
    /// The flags that the VTR would get. DMAI has none, so they may be 0.
    Violation(u8),
}

pub trait Checks {
    fn check(descriptor: &Descriptor, cycle: &Cycle) -> Finding {
        let flags = Self::violation_flags(descriptor, cycle);
        if flags != 0 || Self::dma_inhibited(descriptor, cycle) {
            Finding::Violation(flags)
        } else if Self::warns(descriptor, cycle) {
            Finding::Warning
        } else {
            Finding::Clean
        }
    }

    fn violation_flags(descriptor: &Descriptor, cycle: &Cycle) -> u8 {
        let flag = |broken: bool, flag: u8| if broken { flag } else { 0 };
        flag(Self::read_only(descriptor, cycle), violation::RDV)
            | flag(Self::system_only(descriptor, cycle), violation::SYSV)
            | flag(Self::outside(descriptor, cycle), violation::SLV)
            | flag(Self::cpu_inhibited(descriptor, cycle), violation::CPUIV)
            | flag(Self::execute_only(descriptor, cycle), violation::EXCV)
    }

    fn read_only(descriptor: &Descriptor, cycle: &Cycle) -> bool {
        descriptor.has(attribute::RD) && cycle.write()
    }

    fn system_only(descriptor: &Descriptor, cycle: &Cycle) -> bool {
        descriptor.has(attribute::SYS) && cycle.normal
    }

    fn execute_only(descriptor: &Descriptor, cycle: &Cycle) -> bool {
        descriptor.has(attribute::EXC) && !matches!(cycle.status, 0xC | 0xD)
    }

    fn outside(descriptor: &Descriptor, cycle: &Cycle) -> bool {
        if descriptor.has(attribute::DIRW) {
            cycle.offset < descriptor.limit
        } else {
            cycle.offset > descriptor.limit
        }
    }

    /// "How many whole blocks remain between the accessed block and the last
    /// permitted one in the segment's direction: limit less offset byte, or
    /// offset byte less limit with DIRW, and 0 in a length violation" (ticket
    /// 5), which is where the difference is below 0.
    fn distance(descriptor: &Descriptor, cycle: &Cycle) -> u8 {
        if descriptor.has(attribute::DIRW) {
            cycle.offset.saturating_sub(descriptor.limit)
        } else {
            descriptor.limit.saturating_sub(cycle.offset)
        }
    }

    fn cpu_inhibited(descriptor: &Descriptor, cycle: &Cycle) -> bool {
        descriptor.has(attribute::CPUI) && !cycle.dma
    }

    fn dma_inhibited(descriptor: &Descriptor, cycle: &Cycle) -> bool {
        descriptor.has(attribute::DMAI) && cycle.dma
    }

    /// Asked only of a cycle without violation.
    fn warns(descriptor: &Descriptor, cycle: &Cycle) -> bool {
        !cycle.dma
            && cycle.write()
            && descriptor.has(attribute::DIRW)
            && cycle.offset == descriptor.limit
    }
}
