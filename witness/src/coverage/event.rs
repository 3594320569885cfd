//! One stepped cycle with what the rows ask about it.

use crate::checks::Finding;
use crate::cycle::{Answer, Cycle, Kind};
use crate::generate::bus;
use crate::memory::Memory;
use crate::unit::{attribute, violation, Descriptor, Unit};
use crate::Document01;

pub struct Event<'e> {
    pub before: Unit,
    pub cycle: Cycle,
    pub answer: Answer,
    pub after: &'e Unit,
    /// What the checks say, of a translated cycle that is not aborted.
    pub finding: Option<Finding>,
    /// A fetch, aborted or not.
    pub fetch: bool,
    /// Own and hold as the recording and SUP find them.
    pub own: bool,
    pub held: bool,
}

impl Event<'_> {
    pub fn new(before: Unit, cycle: Cycle, answer: Answer, after: &Unit) -> Event<'_> {
        let translated = answer.kind == Kind::Translated;
        let memory = matches!(cycle.status, 0x8..=0xD) && !cycle.reset;
        let fetch = memory && Document01::fetches(&before, &cycle);
        Event {
            finding: if translated {
                bus::finding(&before, &cycle)
            } else {
                None
            },
            fetch,
            own: before.own && !fetch,
            held: before.hold && !fetch && !cycle.dma && memory,
            before,
            cycle,
            answer,
            after,
        }
    }

    pub fn is(&self, kind: Kind) -> bool {
        self.answer.kind == kind
    }

    /// The descriptor of a memory cycle, as it stood.
    pub fn descriptor(&self) -> &Descriptor {
        &self.before.table[usize::from(self.cycle.entry())]
    }

    pub fn stack(&self) -> bool {
        self.descriptor().has(attribute::DIRW)
    }

    /// A flag that the cycle's violation has.
    pub fn found(&self, flag: u8) -> bool {
        matches!(self.finding, Some(Finding::Violation(flags)) if flags & flag != 0)
    }

    pub fn violation(&self) -> bool {
        matches!(self.finding, Some(Finding::Violation(_)))
    }

    pub fn cpu_violation(&self) -> bool {
        self.violation() && !self.cycle.dma
    }

    pub fn warning(&self) -> bool {
        self.finding == Some(Finding::Warning)
    }

    pub fn clean(&self) -> bool {
        self.finding == Some(Finding::Clean)
    }

    pub fn primary(&self) -> bool {
        self.before.vtr & violation::PRIMARY != 0
    }

    pub fn fatal(&self) -> bool {
        self.before.vtr & violation::FATL != 0
    }

    pub fn second(&self) -> bool {
        self.before.vtr & violation::SWW != 0
    }

    /// A warning that the system stack row speaks of.
    pub fn system_stack(&self) -> bool {
        self.warning() && !self.cycle.normal && self.cycle.status == 0x9
    }
}
