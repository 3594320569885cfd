//! A family of wrong readings of the passed address.

use super::{families, Bits};
use witness::cycle::Cycle;
use witness::Document01;

families! { Translation:
    PassesWithout<B: Bits> "a passed address is without segment" [Bit0 Bit1 Bit2 Bit3 Bit4 Bit5 Bit6] {
        fn logical(cycle: &Cycle) -> u16 {
            Document01::logical(&Cycle { segment: cycle.segment & !B::MASK, ..*cycle })
        }
    }
}
