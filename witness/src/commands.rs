//! The commands: which codes there are, which way they go, and what one byte
//! of each does.

use crate::cycle::Cycle;
use crate::unit::{attribute, violation, Descriptor, Unit};

/// Command codes. The descriptor group runs from `BASE` on: base, limit,
/// attributes, whole, and from `STEPPING` the same four with SAR stepped.
pub mod code {
    pub const MR: u8 = 0x00;
    pub const SAR: u8 = 0x01;
    pub const VTR: u8 = 0x02;
    pub const VSN: u8 = 0x03;
    pub const VOFF: u8 = 0x04;
    pub const BCSR: u8 = 0x05;
    pub const ISN: u8 = 0x06;
    pub const IOFF: u8 = 0x07;
    pub const BASE: u8 = 0x08;
    pub const STEPPING: u8 = 0x0C;
    pub const WHOLE_STEPPING: u8 = 0x0F;
    pub const RESET: u8 = 0x10;
    pub const CLEAR_VTR: u8 = 0x11;
    pub const CLEAR_SWW: u8 = 0x13;
    pub const CLEAR_FATL: u8 = 0x14;
    pub const SET_CPUI: u8 = 0x15;
    pub const SET_DMAI: u8 = 0x16;
    pub const DSCR: u8 = 0x20;
}

#[derive(Clone, Copy, Debug, PartialEq, Eq)]
pub enum Listing {
    Both,
    ReadOnly,
    /// Set and clear commands, software reset among them.
    WriteOnly,
    NotListed,
}

pub trait Commands {
    fn listing(code: u8) -> Listing {
        match code {
            code::MR | code::SAR | code::DSCR => Listing::Both,
            code::BASE..=code::WHOLE_STEPPING => Listing::Both,
            code::VTR..=code::IOFF => Listing::ReadOnly,
            code::RESET | code::CLEAR_VTR => Listing::WriteOnly,
            code::CLEAR_SWW..=code::SET_DMAI => Listing::WriteOnly,
            _ => Listing::NotListed,
        }
    }

    /// Refusals 3 and 4, of a selected command.
    fn command_refusal(cycle: &Cycle) -> Option<u8> {
        match (Self::listing(cycle.offset), cycle.read) {
            (Listing::NotListed, _) => Some(3),
            (Listing::ReadOnly, false) | (Listing::WriteOnly, true) => Some(4),
            _ => None,
        }
    }

    /// The byte that a read drives; a write drives none.
    fn command(unit: &mut Unit, cycle: &Cycle) -> Option<u8> {
        if matches!(cycle.offset, code::BASE..=code::WHOLE_STEPPING) {
            return Self::descriptor_command(unit, cycle);
        }
        if cycle.read {
            Some(Self::read_register(unit, cycle.offset))
        } else {
            Self::write_register(unit, cycle.offset, cycle.data);
            None
        }
    }

    fn read_register(unit: &Unit, code: u8) -> u8 {
        match code {
            code::MR => unit.mr,
            code::SAR => unit.sar,
            code::VTR => unit.vtr,
            code::VSN => unit.vsn,
            code::VOFF => unit.voff,
            code::BCSR => unit.bcsr,
            code::ISN => unit.isn,
            code::IOFF => unit.ioff,
            code::DSCR => unit.dscr,
            _ => unreachable!("refused before"),
        }
    }

    fn write_register(unit: &mut Unit, code: u8, data: u8) {
        match code {
            code::MR => unit.mr = data,
            code::SAR => unit.sar = data & 0x3F,
            code::RESET => Self::software_reset(unit),
            code::CLEAR_VTR => unit.vtr = 0,
            code::CLEAR_SWW => unit.vtr &= !violation::SWW,
            code::CLEAR_FATL => unit.vtr &= !violation::FATL,
            code::SET_CPUI => Self::set_all(unit, attribute::CPUI),
            code::SET_DMAI => Self::set_all(unit, attribute::DMAI),
            code::DSCR => unit.dscr = data & 0x03,
            _ => unreachable!("refused before"),
        }
    }

    /// MR becomes 0 although select is on; SAR and the rest stay.
    fn software_reset(unit: &mut Unit) {
        unit.mr = 0;
        unit.vtr = 0;
        unit.dscr = 0;
        unit.clear_notes();
    }

    fn set_all(unit: &mut Unit, flag: u8) {
        for descriptor in &mut unit.table {
            descriptor.attributes |= flag;
        }
    }

    /// One byte of the descriptor at SAR; reads move DSCR and SAR as writes do.
    fn descriptor_command(unit: &mut Unit, cycle: &Cycle) -> Option<u8> {
        let number = Self::byte_number(cycle.offset, unit.dscr);
        let descriptor = &mut unit.table[usize::from(unit.sar)];
        let driven = if cycle.read {
            Some(Self::read_byte(descriptor, number))
        } else {
            Self::write_byte(descriptor, number, cycle.data);
            None
        };
        Self::advance(unit, cycle);
        driven
    }

    fn byte_number(code: u8, dscr: u8) -> u8 {
        match code % 4 {
            1 => 2,
            2 => 3,
            _ => dscr,
        }
    }

    fn advance(unit: &mut Unit, cycle: &Cycle) {
        unit.dscr = Self::next_dscr(cycle.offset, unit.dscr);
        if cycle.offset >= code::STEPPING && unit.dscr == 0 {
            unit.sar = (unit.sar + 1) % 64;
        }
    }

    fn next_dscr(code: u8, dscr: u8) -> u8 {
        match code % 4 {
            0 => u8::from(dscr == 0),
            3 => (dscr + 1) % 4,
            _ => 0,
        }
    }

    fn read_byte(descriptor: &Descriptor, number: u8) -> u8 {
        match number {
            0 => descriptor.base.to_be_bytes()[0],
            1 => descriptor.base.to_be_bytes()[1],
            2 => descriptor.limit,
            _ => descriptor.attributes,
        }
    }

    fn write_byte(descriptor: &mut Descriptor, number: u8, data: u8) {
        match number {
            0 => descriptor.base = descriptor.base & 0x00FF | u16::from(data) << 8,
            1 => descriptor.base = descriptor.base & 0xFF00 | u16::from(data),
            2 => descriptor.limit = data,
            _ => descriptor.attributes = data,
        }
    }
}
