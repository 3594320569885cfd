//! One cycle of one unit: the refusals in their order, which cycle is what,
//! reset and acknowledge.

use crate::commands::Commands;
use crate::cycle::{Answer, Cycle, Kind, LAST_SEGMENT};
use crate::memory::Memory;
use crate::unit::{mode, violation, Unit};

#[derive(Clone, Copy, Debug, PartialEq, Eq)]
pub enum Class {
    Reset,
    Acknowledge,
    Command,
    Memory,
    Ignored,
}

pub trait Step: Commands + Memory {
    /// Steps the unit where it stands. A refusal leaves it unchanged.
    fn step(unit: &mut Unit, cycle: &Cycle) -> Answer {
        if let Some(number) = Self::refusal(unit, cycle) {
            return Answer::quiet(Kind::Refused(number), unit.request);
        }
        match Self::class(cycle) {
            Class::Reset => {
                Self::reset(unit, cycle);
                Answer::quiet(Kind::Reset, unit.request)
            }
            Class::Acknowledge => {
                let data = Self::acknowledge(unit, cycle);
                Answer {
                    data,
                    ..Answer::quiet(Kind::Acknowledge, unit.request)
                }
            }
            Class::Command => {
                let data = Self::command(unit, cycle);
                Answer {
                    data,
                    ..Answer::quiet(Kind::Command, unit.request)
                }
            }
            Class::Memory => Self::memory(unit, cycle),
            Class::Ignored => Answer::quiet(Kind::Ignored, unit.request),
        }
    }

    /// The earliest of 2, 1, 3, 4.
    fn refusal(unit: &Unit, cycle: &Cycle) -> Option<u8> {
        if Self::damaged(unit) {
            Some(2)
        } else if Self::out_of_range(cycle) {
            Some(1)
        } else if Self::class(cycle) == Class::Command {
            Self::command_refusal(cycle)
        } else {
            None
        }
    }

    /// VSN and ISN may be any segment (ticket 2); document 01 bounds these two
    /// by 63 as well.
    fn damaged(unit: &Unit) -> bool {
        let above = unit.sar > 63 || unit.bcsr > 63 || unit.dscr > 3;
        let segments = unit.vsn > LAST_SEGMENT || unit.isn > LAST_SEGMENT;
        above || segments || Self::orphan(unit)
    }

    /// SWW or FATL or both standing without a primary flag (ticket 11). No run
    /// from power-on gets there: what takes a primary flag takes all eight.
    fn orphan(unit: &Unit) -> bool {
        unit.vtr != 0 && unit.vtr & violation::PRIMARY == 0
    }

    fn out_of_range(cycle: &Cycle) -> bool {
        cycle.status > 15 || cycle.segment > LAST_SEGMENT
    }

    fn class(cycle: &Cycle) -> Class {
        if cycle.reset {
            return Class::Reset;
        }
        match cycle.status {
            0x4 if !cycle.dma => Class::Acknowledge,
            0x3 if !cycle.dma && cycle.select => Class::Command,
            0x8..=0xD => Class::Memory,
            _ => Class::Ignored,
        }
    }

    fn reset(unit: &mut Unit, cycle: &Cycle) {
        unit.vtr = 0;
        unit.dscr = 0;
        unit.clear_notes();
        unit.mr = if cycle.select { 0x80 } else { 0 };
    }

    /// The notes go with MSEN set or not; the line is driven only with it.
    fn acknowledge(unit: &mut Unit, _cycle: &Cycle) -> Option<u8> {
        let line = if unit.request {
            1 << (unit.mr & mode::ID)
        } else {
            0
        };
        unit.clear_notes();
        unit.mode(mode::MSEN).then_some(line)
    }
}
