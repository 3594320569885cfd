//! Families of wrong readings of which cycle is what, of reset and of acknowledge.

use super::{clear, families, leaving, Bits, Cycles, Registers};
use witness::cycle::Cycle;
use witness::step::{Class, Step};
use witness::unit::Unit;
use witness::Document01;

/// The right class, but such cycles of this one too, as if they had its status.
fn taken_as(wanted: Class, status: u8, cycle: &Cycle, taken: bool) -> Class {
    match Document01::class(&Cycle { status, ..*cycle }) {
        class if taken && class == wanted => class,
        _ => Document01::class(cycle),
    }
}

families! { Step:
    AcknowledgeToo<C: Cycles> "an acknowledge is also seen"
    [At0 At1 At2 At3 At5 At6 At7 At8 At9 AtA AtB AtC AtD AtE AtF] {
        fn class(cycle: &Cycle) -> Class {
            taken_as(Class::Acknowledge, 0x4, cycle, (C::HAS)(cycle))
        }
    }
    CommandToo<C: Cycles> "a command is also seen"
    [At0 At1 At2 At4 At5 At6 At7 At8 At9 AtA AtB AtC AtD AtE AtF] {
        fn class(cycle: &Cycle) -> Class {
            taken_as(Class::Command, 0x3, cycle, (C::HAS)(cycle))
        }
    }
    MemoryToo<C: Cycles> "a memory cycle is also seen"
    [At0 At1 At2 At3 At4 At5 At6 At7 AtE AtF] {
        fn class(cycle: &Cycle) -> Class {
            taken_as(Class::Memory, 0x8, cycle, (C::HAS)(cycle))
        }
    }
    MemoryNot<C: Cycles> "no memory cycle is seen" [At8 At9 AtA AtB AtC AtD ForDma] {
        fn class(cycle: &Cycle) -> Class {
            match Document01::class(cycle) {
                Class::Memory if (C::HAS)(cycle) => Class::Ignored,
                class => class,
            }
        }
    }
    ResetNot<C: Cycles> "the reset line is not seen"
    [Reads Writes NormalMode SystemMode ForCpu ForDma] {
        fn class(cycle: &Cycle) -> Class {
            let reset = cycle.reset && !(C::HAS)(cycle);
            Document01::class(&Cycle { reset, ..*cycle })
        }
    }
    ResetUnselected<C: Cycles> "a reset does not see select"
    [Reads Writes NormalMode SystemMode ForCpu ForDma] {
        fn reset(unit: &mut Unit, cycle: &Cycle) {
            let select = cycle.select && !(C::HAS)(cycle);
            Document01::reset(unit, &Cycle { select, ..*cycle });
        }
    }
    ResetClears<R: Registers> "a reset clears" [Sar Vsn Voff Bcsr Isn Ioff] {
        fn reset(unit: &mut Unit, cycle: &Cycle) {
            Document01::reset(unit, cycle);
            clear::<R>(unit);
        }
    }
    ResetLeaves<R: Registers> "a reset leaves" [Vtr Dscr Request Await Hold] {
        fn reset(unit: &mut Unit, cycle: &Cycle) {
            leaving::<R, _>(unit, |unit| Document01::reset(unit, cycle));
        }
    }
    AcknowledgeClears<R: Registers> "an acknowledge clears" [Sar Dscr Vtr Vsn Voff Bcsr Isn Ioff] {
        fn acknowledge(unit: &mut Unit, cycle: &Cycle) -> Option<u8> {
            clear::<R>(unit);
            Document01::acknowledge(unit, cycle)
        }
    }
    AcknowledgeLeaves<R: Registers> "an acknowledge leaves" [Request Await Own Hold] {
        fn acknowledge(unit: &mut Unit, cycle: &Cycle) -> Option<u8> {
            leaving::<R, _>(unit, |unit| Document01::acknowledge(unit, cycle))
        }
    }
    AcknowledgeWithout<B: Bits> "an acknowledge byte is without"
    [Bit0 Bit1 Bit2 Bit3 Bit4 Bit5 Bit6 Bit7] {
        fn acknowledge(unit: &mut Unit, cycle: &Cycle) -> Option<u8> {
            Document01::acknowledge(unit, cycle).map(|line| line & !B::MASK)
        }
    }
}
