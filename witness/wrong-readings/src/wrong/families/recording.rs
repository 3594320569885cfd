//! Families of wrong readings of the registers that the recording stores.

use super::{families, leaving, Bits, Registers};
use witness::checks::Finding;
use witness::cycle::Cycle;
use witness::recording::Recording;
use witness::unit::{violation, Unit};
use witness::Document01;

/// One register of those that a first entry stores.
fn store<R: Registers>(unit: &mut Unit, cycle: &Cycle) {
    let mut stored = unit.clone();
    Document01::store(&mut stored, cycle);
    (R::COPY)(unit, &stored);
}

families! { Recording:
    FirstLeaves<R: Registers> "a first entry does not store" [Vsn Voff Bcsr] {
        fn store(unit: &mut Unit, cycle: &Cycle) {
            leaving::<R, _>(unit, |unit| Document01::store(unit, cycle));
        }
    }
    BcsrWithout<B: Bits> "BCSR is stored without" [Bit0 Bit1 Bit2 Bit3 Bit4 Bit5] {
        fn store(unit: &mut Unit, cycle: &Cycle) {
            Document01::store(unit, cycle);
            unit.bcsr &= !B::MASK;
        }
    }
    SegmentKeptWithout<B: Bits> "VSN and ISN are stored without" [Bit0 Bit1 Bit2 Bit3 Bit4 Bit5 Bit6] {
        fn kept_segment(cycle: &Cycle) -> u8 {
            cycle.segment & !B::MASK
        }
    }
    FurtherStores<R: Registers> "a further entry of the own instruction stores" [Vsn Voff Bcsr] {
        fn further_entry(unit: &mut Unit, cycle: &Cycle, flags: u8) {
            Document01::further_entry(unit, cycle, flags);
            store::<R>(unit, cycle);
        }
    }
    LaterStores<R: Registers> "a fault of a later instruction stores" [Vsn Voff Bcsr] {
        fn record(unit: &mut Unit, cycle: &Cycle, finding: Finding) {
            let later = unit.vtr & violation::PRIMARY != 0 && !unit.own;
            Document01::record(unit, cycle, finding);
            if later && finding != Finding::Clean {
                store::<R>(unit, cycle);
            }
        }
    }
}
