//! Translation: whether the unit drives the address lines in a memory cycle,
//! and with what.

use crate::cycle::Cycle;
use crate::unit::{mode, Unit};

#[derive(Clone, Copy, Debug, PartialEq, Eq)]
pub enum Route {
    NotDriven,
    /// TRNS clear: the logical address goes through unchecked.
    Passed(u16),
    Translated(u16),
}

impl Route {
    pub fn address(self) -> Option<u16> {
        match self {
            Route::NotDriven => None,
            Route::Passed(address) | Route::Translated(address) => Some(address),
        }
    }
}

pub trait Translation {
    fn route(unit: &Unit, cycle: &Cycle) -> Route {
        if !unit.mode(mode::MSEN) {
            Route::NotDriven
        } else if !unit.mode(mode::TRNS) {
            Route::Passed(Self::logical(cycle))
        } else if Self::responsible(unit, cycle) {
            Route::Translated(Self::physical(unit, cycle))
        } else {
            Route::NotDriven
        }
    }

    fn responsible(unit: &Unit, cycle: &Cycle) -> bool {
        let range = unit.mode(mode::URS) == (cycle.segment & 0x40 != 0);
        let table = !unit.mode(mode::MST) || unit.mode(mode::NMS) == cycle.normal;
        range && table
    }

    fn logical(cycle: &Cycle) -> u16 {
        u16::from(cycle.segment) * 256 + u16::from(cycle.offset)
    }

    fn physical(unit: &Unit, cycle: &Cycle) -> u16 {
        let descriptor = &unit.table[usize::from(cycle.entry())];
        descriptor.base.wrapping_add(u16::from(cycle.offset))
    }
}
