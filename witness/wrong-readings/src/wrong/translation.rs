//! Wrong readings of the translation.

use super::wrong;
use witness::cycle::Cycle;
use witness::translation::{Route, Translation};
use witness::unit::{mode, Unit};
use witness::Document01;

/// The right answer of a unit with another mode register.
fn responsible(unit: &Unit, mr: u8, cycle: &Cycle) -> bool {
    Document01::responsible(&Unit { mr, ..unit.clone() }, cycle)
}

wrong! { Translation:
    AlwaysOn "MSEN is not looked at" {
        fn route(unit: &Unit, cycle: &Cycle) -> Route {
            let mr = unit.mr | mode::MSEN;
            Document01::route(&Unit { mr, ..unit.clone() }, cycle)
        }
    }
    PassesWhenOff "with MSEN and TRNS clear the address passes" {
        fn route(unit: &Unit, cycle: &Cycle) -> Route {
            match unit.mode(mode::TRNS) {
                true => Document01::route(unit, cycle),
                false => Route::Passed(Document01::logical(cycle)),
            }
        }
    }
    PassesInRange "with TRNS clear only the unit's own range and mode pass" {
        fn route(unit: &Unit, cycle: &Cycle) -> Route {
            match Document01::route(unit, cycle) {
                Route::Passed(_) if !Document01::responsible(unit, cycle) => Route::NotDriven,
                route => route,
            }
        }
    }
    NeverPasses "with TRNS clear nothing is driven" {
        fn route(unit: &Unit, cycle: &Cycle) -> Route {
            match Document01::route(unit, cycle) {
                Route::Passed(_) => Route::NotDriven,
                route => route,
            }
        }
    }
    RangeIgnored "URS is not looked at" {
        fn responsible(unit: &Unit, cycle: &Cycle) -> bool {
            let segment = cycle.segment % 64;
            responsible(unit, unit.mr & !mode::URS, &Cycle { segment, ..*cycle })
        }
    }
    RangeReversed "URS set means the lower range" {
        fn responsible(unit: &Unit, cycle: &Cycle) -> bool {
            responsible(unit, unit.mr ^ mode::URS, cycle)
        }
    }
    RangeOneWay "URS clear means both ranges" {
        fn responsible(unit: &Unit, cycle: &Cycle) -> bool {
            let segment = if unit.mode(mode::URS) { cycle.segment } else { cycle.segment % 64 };
            Document01::responsible(unit, &Cycle { segment, ..*cycle })
        }
    }
    TableIgnored "MST is not looked at: both modes are translated" {
        fn responsible(unit: &Unit, cycle: &Cycle) -> bool {
            responsible(unit, unit.mr & !mode::MST, cycle)
        }
    }
    TableAlways "NMS counts with MST clear too" {
        fn responsible(unit: &Unit, cycle: &Cycle) -> bool {
            responsible(unit, unit.mr | mode::MST, cycle)
        }
    }
    TableReversed "NMS set means system mode" {
        fn responsible(unit: &Unit, cycle: &Cycle) -> bool {
            responsible(unit, unit.mr ^ mode::NMS, cycle)
        }
    }
    TableOneWay "with MST set and NMS clear both modes are translated" {
        fn responsible(unit: &Unit, cycle: &Cycle) -> bool {
            let normal = cycle.normal && unit.mode(mode::NMS);
            Document01::responsible(unit, &Cycle { normal, ..*cycle })
        }
    }
    DmaAnyTable "a DMA cycle is translated in either mode" {
        fn responsible(unit: &Unit, cycle: &Cycle) -> bool {
            let mst = if cycle.dma { mode::MST } else { 0 };
            responsible(unit, unit.mr & !mst, cycle)
        }
    }
    PassesSwapped "a passed address has the segment in the low byte" {
        fn logical(cycle: &Cycle) -> u16 {
            Document01::logical(cycle).swap_bytes()
        }
    }
    Saturates "the sum stays at %FFFF" {
        fn physical(unit: &Unit, cycle: &Cycle) -> u16 {
            let base = unit.table[usize::from(cycle.entry())].base;
            base.saturating_add(u16::from(cycle.offset))
        }
    }
    LosesCarry "the sum does not carry into the high byte" {
        fn physical(unit: &Unit, cycle: &Cycle) -> u16 {
            let [high, low] = unit.table[usize::from(cycle.entry())].base.to_be_bytes();
            u16::from_be_bytes([high, low.wrapping_add(cycle.offset)])
        }
    }
    WrongCarry "the carry into the high byte is that of the high byte and the offset" {
        fn physical(unit: &Unit, cycle: &Cycle) -> u16 {
            let [high, low] = unit.table[usize::from(cycle.entry())].base.to_be_bytes();
            let (_, carry) = high.overflowing_add(cycle.offset);
            u16::from_be_bytes([high.wrapping_add(u8::from(carry)), low.wrapping_add(cycle.offset)])
        }
    }
    Joins "base and offset are joined by or" {
        fn physical(unit: &Unit, cycle: &Cycle) -> u16 {
            unit.table[usize::from(cycle.entry())].base | u16::from(cycle.offset)
        }
    }
    UpperLast "every segment above 63 has the base of descriptor 63" {
        fn physical(unit: &Unit, cycle: &Cycle) -> u16 {
            let segment = cycle.segment.min(63);
            Document01::physical(unit, &Cycle { segment, ..*cycle })
        }
    }
    StackFromLimit "a stack's offset counts from its limit" {
        fn physical(unit: &Unit, cycle: &Cycle) -> u16 {
            let descriptor = &unit.table[usize::from(cycle.entry())];
            let sum = Document01::physical(unit, cycle);
            match descriptor.has(witness::unit::attribute::DIRW) {
                true => sum.wrapping_sub(u16::from(descriptor.limit)),
                false => sum,
            }
        }
    }
    LowCarries "a low byte of 255 carries into the sum" by scripts {
        fn physical(unit: &Unit, cycle: &Cycle) -> u16 {
            Document01::physical(unit, cycle).wrapping_add(u16::from(cycle.low == 0xFF))
        }
    }
    LowRounds "a low byte above 127 rounds the sum up" by scripts {
        fn physical(unit: &Unit, cycle: &Cycle) -> u16 {
            Document01::physical(unit, cycle).wrapping_add(u16::from(cycle.low > 0x7F))
        }
    }
    LowPasses "a passed address has the offset byte above the low byte" {
        fn logical(cycle: &Cycle) -> u16 {
            u16::from_be_bytes([cycle.offset, cycle.low])
        }
    }
}
