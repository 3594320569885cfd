//! Families of wrong readings of the memory cycle: hold, the marks or the
//! instruction address are left out in some cycles, or a segment bit is not
//! looked at.

use super::{families, Bits, Cycles};
use witness::checks::Finding;
use witness::cycle::{Answer, Cycle};
use witness::memory::Memory;
use witness::unit::{attribute, Unit};
use witness::Document01;

/// The marks of a cycle, one of them left as it was in some cycles.
fn mark_but(unit: &mut Unit, cycle: &Cycle, flag: u8, left: bool) {
    let entry = usize::from(cycle.entry());
    let kept = unit.table[entry].attributes & flag;
    Document01::mark(unit, cycle);
    if left {
        let attributes = &mut unit.table[entry].attributes;
        *attributes = *attributes & !flag | kept;
    }
}

families! { Memory:
    HeldNot<C: Cycles> "hold does not suppress"
    [At8 At9 AtA AtB AtC AtD Reads Writes NormalMode SystemMode] {
        fn held(unit: &Unit, cycle: &Cycle) -> bool {
            !(C::HAS)(cycle) && Document01::held(unit, cycle)
        }
    }
    SegmentWithout<B: Bits> "the descriptor is chosen without segment" [Bit0 Bit1 Bit2 Bit3 Bit4 Bit5] {
        fn memory(unit: &mut Unit, cycle: &Cycle) -> Answer {
            let [entry, other] = [cycle.entry(), cycle.entry() & !B::MASK].map(usize::from);
            // The other one takes the entry's place for this cycle.
            unit.table.swap(entry, other);
            let answer = Document01::memory(unit, cycle);
            unit.table.swap(entry, other);
            answer
        }
    }
    ReferredNot<C: Cycles> "REF is not set" [Reads Writes NormalMode SystemMode ForCpu ForDma] {
        fn mark(unit: &mut Unit, cycle: &Cycle) {
            mark_but(unit, cycle, attribute::REF, (C::HAS)(cycle));
        }
    }
    ReferredNotByRead<C: Cycles> "REF is not set by a read" [At8 At9 AtA AtB AtC AtD] {
        fn mark(unit: &mut Unit, cycle: &Cycle) {
            mark_but(unit, cycle, attribute::REF, cycle.read && (C::HAS)(cycle));
        }
    }
    ReferredNotByWrite<C: Cycles> "REF is not set by a write" [At8 At9 AtA AtB AtC AtD] {
        fn mark(unit: &mut Unit, cycle: &Cycle) {
            mark_but(unit, cycle, attribute::REF, cycle.write() && (C::HAS)(cycle));
        }
    }
    ChangedNot<C: Cycles> "CHG is not set"
    [At8 At9 AtA AtB AtC AtD NormalMode SystemMode ForCpu ForDma] {
        fn mark(unit: &mut Unit, cycle: &Cycle) {
            mark_but(unit, cycle, attribute::CHG, (C::HAS)(cycle));
        }
    }
    InstructionNot<C: Cycles> "ISN and IOFF are not stored" [NormalMode SystemMode] {
        fn keeps_instruction(unit: &Unit, cycle: &Cycle, finding: Finding) -> bool {
            !(C::HAS)(cycle) && Document01::keeps_instruction(unit, cycle, finding)
        }
    }
}
