//! A bus with one unit on it: takes cycles, keeps them, and steps a unit along
//! so that the next cycle can be aimed at the state it is in. Low bytes stay 0,
//! as a trace has them; nothing that is aimed at depends on them, so scripts
//! put theirs in afterwards.

use crate::checks::{Checks, Finding};
use crate::cycle::{Answer, Cycle};
use crate::memory::Memory;
use crate::step::Step;
use crate::translation::{Route, Translation};
use crate::unit::Unit;
use crate::Document01;

use super::random::Random;

pub struct Bus {
    pub random: Random,
    pub unit: Unit,
    pub cycles: Vec<Cycle>,
    /// The segments that the story plays in.
    pub segments: Vec<u8>,
}

/// What the unit would find in a memory cycle, if it translates it.
pub fn finding(unit: &Unit, cycle: &Cycle) -> Option<Finding> {
    match Document01::route(unit, cycle) {
        Route::Translated(_) => Some(Document01::check(
            &unit.table[usize::from(cycle.entry())],
            cycle,
        )),
        _ => None,
    }
}

impl Bus {
    pub fn new(random: Random) -> Bus {
        Bus {
            random,
            unit: Unit::power_on(),
            cycles: Vec::new(),
            segments: vec![0],
        }
    }

    pub fn push(&mut self, cycle: Cycle) -> Answer {
        self.cycles.push(cycle);
        Document01::step(&mut self.unit, &cycle)
    }

    /// A selected command. Mode, segment and a read's data mean nothing to it; a
    /// segment that has room shows that it carries no distance.
    pub fn command(&mut self, code: u8, read: bool, data: u8) {
        let cycle = Cycle {
            status: 0x3,
            read,
            normal: self.random.once_in(8),
            select: true,
            segment: self.segment(),
            offset: code,
            data,
            ..Cycle::default()
        };
        self.push(cycle);
    }

    pub fn write(&mut self, code: u8, data: u8) {
        self.command(code, false, data);
    }

    pub fn read(&mut self, code: u8) {
        let data = self.random.byte();
        self.command(code, true, data);
    }

    /// The acknowledge looks at nothing but status and master.
    pub fn acknowledge(&mut self) {
        let cycle = Cycle {
            status: 0x4,
            read: !self.random.once_in(5),
            normal: self.random.once_in(5),
            select: self.random.once_in(5),
            segment: self.segment(),
            offset: self.random.byte(),
            data: self.random.byte(),
            ..Cycle::default()
        };
        self.push(cycle);
    }

    /// Mostly one of the story's segments.
    pub fn segment(&mut self) -> u8 {
        if self.random.once_in(12) {
            self.random.byte() % 128
        } else {
            let segments = self.segments.clone();
            self.random.pick(&segments)
        }
    }

    /// An offset at or beside the segment's limit, or a bit away from it, or at an
    /// end.
    pub fn offset(&mut self, segment: u8) -> u8 {
        let limit = self.unit.table[usize::from(segment % 64)].limit;
        let random = self.random.byte();
        let near = [limit, limit.wrapping_add(1), limit.wrapping_sub(1)];
        match self.random.below(11) {
            0..=6 => self.random.pick(&near),
            7 => limit ^ 1 << self.random.below(8),
            8 => 0,
            9 => 0xFF,
            _ => random,
        }
    }

    /// Any memory cycle.
    pub fn access(&mut self) -> Cycle {
        let segment = self.segment();
        Cycle {
            status: self
                .random
                .pick(&[0x8, 0x8, 0x8, 0x9, 0x9, 0x9, 0xA, 0xB, 0xB, 0xB, 0xC, 0xD]),
            read: self.random.coin(),
            normal: self.random.coin(),
            dma: self.random.once_in(8),
            select: self.random.once_in(8),
            segment,
            offset: self.offset(segment),
            data: self.random.byte(),
            ..Cycle::default()
        }
    }

    /// A memory cycle that does not start an instruction.
    pub fn operand(&mut self) -> Cycle {
        loop {
            let cycle = self.access();
            if !Document01::fetches(&self.unit, &cycle) {
                return cycle;
            }
        }
    }

    /// An operand that is as wanted, if some tries find one.
    pub fn aim(&mut self, wanted: impl Fn(&Unit, &Cycle) -> bool) -> Option<Cycle> {
        for _ in 0..80 {
            let cycle = self.operand();
            if wanted(&self.unit, &cycle) {
                return Some(cycle);
            }
        }
        None
    }

    pub fn push_aimed(&mut self, wanted: impl Fn(&Unit, &Cycle) -> bool) {
        if let Some(cycle) = self.aim(wanted) {
            self.push(cycle);
        }
    }

    /// A fetch, mostly from where it is translated without violation.
    pub fn fetch(&mut self) {
        let fetch = |cycle: Cycle| Cycle {
            status: 0xD,
            read: true,
            dma: false,
            ..cycle
        };
        let mut cycle = fetch(self.access());
        if !self.random.once_in(5) {
            for _ in 0..30 {
                if finding(&self.unit, &cycle) == Some(Finding::Clean) {
                    break;
                }
                cycle = fetch(self.access());
            }
        }
        self.push(cycle);
    }
}

/// A CPU cycle that the unit finds to be a violation.
pub fn violates(unit: &Unit, cycle: &Cycle) -> bool {
    !cycle.dma && matches!(finding(unit, cycle), Some(Finding::Violation(_)))
}

pub fn warns(unit: &Unit, cycle: &Cycle) -> bool {
    finding(unit, cycle) == Some(Finding::Warning)
}

/// A warning that may set SWW.
pub fn warns_at_system_stack(unit: &Unit, cycle: &Cycle) -> bool {
    warns(unit, cycle) && !cycle.normal && cycle.status == 0x9
}

pub fn clean(unit: &Unit, cycle: &Cycle) -> bool {
    !cycle.dma && finding(unit, cycle) == Some(Finding::Clean)
}
