//! Families of wrong readings of the checks: a right, the length or the warning
//! is not looked at in some cycles, or without a bit.

use super::{families, Bits, Cycles};
use witness::cycle::Cycle;
use witness::unit::Descriptor;
use witness::Document01;

/// The same without this bit of limit and offset byte.
fn without<B: Bits>(descriptor: &Descriptor, cycle: &Cycle) -> (Descriptor, Cycle) {
    let limit = descriptor.limit & !B::MASK;
    let offset = cycle.offset & !B::MASK;
    (
        Descriptor {
            limit,
            ..*descriptor
        },
        Cycle { offset, ..*cycle },
    )
}

families! { Checks:
    LengthBut<C: Cycles> "the length is not checked"
    [At8 At9 AtA AtB AtC AtD Reads Writes NormalMode SystemMode ForCpu ForDma] {
        fn outside(descriptor: &Descriptor, cycle: &Cycle) -> bool {
            !(C::HAS)(cycle) && Document01::outside(descriptor, cycle)
        }
    }
    LengthWithout<B: Bits> "offset byte and limit are compared without"
    [Bit0 Bit1 Bit2 Bit3 Bit4 Bit5 Bit6 Bit7] {
        fn outside(descriptor: &Descriptor, cycle: &Cycle) -> bool {
            let (descriptor, cycle) = without::<B>(descriptor, cycle);
            Document01::outside(&descriptor, &cycle)
        }
    }
    WarnsNot<C: Cycles> "a write at a stack's limit does not warn"
    [At8 At9 AtA AtB AtC AtD NormalMode SystemMode] {
        fn warns(descriptor: &Descriptor, cycle: &Cycle) -> bool {
            !(C::HAS)(cycle) && Document01::warns(descriptor, cycle)
        }
    }
    WarnsWithout<B: Bits> "the warning compares offset byte and limit without"
    [Bit0 Bit1 Bit2 Bit3 Bit4 Bit5 Bit6 Bit7] {
        fn warns(descriptor: &Descriptor, cycle: &Cycle) -> bool {
            let (descriptor, cycle) = without::<B>(descriptor, cycle);
            Document01::warns(&descriptor, &cycle)
        }
    }
    ReadOnlyBut<C: Cycles> "RD is not checked"
    [At8 At9 AtA AtB AtC AtD NormalMode SystemMode ForCpu ForDma] {
        fn read_only(descriptor: &Descriptor, cycle: &Cycle) -> bool {
            !(C::HAS)(cycle) && Document01::read_only(descriptor, cycle)
        }
    }
    SystemOnlyBut<C: Cycles> "SYS is not checked"
    [At8 At9 AtA AtB AtC AtD Reads Writes ForCpu ForDma Fetches] {
        fn system_only(descriptor: &Descriptor, cycle: &Cycle) -> bool {
            !(C::HAS)(cycle) && Document01::system_only(descriptor, cycle)
        }
    }
    ExecuteOnlyBut<C: Cycles> "EXC is not checked"
    [At8 At9 AtA AtB Reads Writes NormalMode SystemMode ForCpu ForDma] {
        fn execute_only(descriptor: &Descriptor, cycle: &Cycle) -> bool {
            !(C::HAS)(cycle) && Document01::execute_only(descriptor, cycle)
        }
    }
    CpuInhibitBut<C: Cycles> "CPUI is not checked"
    [At8 At9 AtA AtB AtC AtD Reads Writes NormalMode SystemMode Fetches] {
        fn cpu_inhibited(descriptor: &Descriptor, cycle: &Cycle) -> bool {
            !(C::HAS)(cycle) && Document01::cpu_inhibited(descriptor, cycle)
        }
    }
    DmaInhibitBut<C: Cycles> "DMAI is not checked"
    [At8 At9 AtA AtB AtC AtD Reads Writes NormalMode SystemMode] {
        fn dma_inhibited(descriptor: &Descriptor, cycle: &Cycle) -> bool {
            !(C::HAS)(cycle) && Document01::dma_inhibited(descriptor, cycle)
        }
    }
}
