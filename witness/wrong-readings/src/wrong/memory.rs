//! Wrong readings of fetches, of SUP and hold, of the marks, of the instruction
//! address, and of which memory cycles carry a distance.

use super::{carried, distance, wrong};
use witness::checks::{Checks, Finding};
use witness::cycle::{Answer, Cycle, Kind};
use witness::generate::bus::finding;
use witness::memory::Memory;
use witness::recording::Recording;
use witness::translation::{Route, Translation};
use witness::unit::{attribute, mode, violation, Unit};
use witness::Document01;

fn translates(unit: &Unit, cycle: &Cycle) -> bool {
    matches!(Document01::route(unit, cycle), Route::Translated(_))
}

fn store_instruction(unit: &mut Unit, cycle: &Cycle) {
    unit.isn = Document01::kept_segment(cycle);
    unit.ioff = cycle.offset;
}

/// Of a cycle that has gone by: a fetch translated while the VTR is zero.
fn stored_instruction(unit: &Unit, cycle: &Cycle, answer: &Answer) -> bool {
    answer.kind == Kind::Translated && Document01::fetches(unit, cycle) && unit.vtr == 0
}

fn descriptor_attributes<'u>(unit: &'u mut Unit, cycle: &Cycle) -> &'u mut u8 {
    &mut unit.table[usize::from(cycle.entry())].attributes
}

wrong! { Memory:
    SupEndsAtOnce "SUP ends with the faulting cycle" {
        fn held(_unit: &Unit, _cycle: &Cycle) -> bool {
            false
        }
    }
    DmaHeld "a DMA cycle is held back by the CPU's fault" {
        fn held(unit: &Unit, _cycle: &Cycle) -> bool {
            unit.hold
        }
    }
    HoldTranslated "hold suppresses translated cycles only" {
        fn held(unit: &Unit, cycle: &Cycle) -> bool {
            Document01::held(unit, cycle) && translates(unit, cycle)
        }
    }
    HoldDriven "hold suppresses driven cycles only" {
        fn held(unit: &Unit, cycle: &Cycle) -> bool {
            Document01::held(unit, cycle) && Document01::route(unit, cycle) != Route::NotDriven
        }
    }
    HoldNeedsMsen "hold suppresses nothing while MSEN is clear" {
        fn held(unit: &Unit, cycle: &Cycle) -> bool {
            Document01::held(unit, cycle) && unit.mode(mode::MSEN)
        }
    }
    HoldWhileRequest "hold suppresses only while a request stands" {
        fn held(unit: &Unit, cycle: &Cycle) -> bool {
            Document01::held(unit, cycle) && unit.request
        }
    }
    HoldBeforeFetch "hold is looked at before a fetch clears it" {
        fn memory(unit: &mut Unit, cycle: &Cycle) -> Answer {
            let held = Document01::held(unit, cycle);
            let answer = Document01::memory(unit, cycle);
            let aborted = answer.kind == Kind::AbortedFetch;
            Answer { sup: answer.sup || held && !aborted, ..answer }
        }
    }
    HoldJudgedAfter "hold is looked at after the cycle's own violation has set it"
    same "that violation turns SUP on in this cycle by itself" {
        fn memory(unit: &mut Unit, cycle: &Cycle) -> Answer {
            let answer = Document01::memory(unit, cycle);
            let held = unit.hold && !cycle.dma;
            Answer { sup: answer.sup || held, ..answer }
        }
    }
    HeldUnchecked "a cycle suppressed by hold is not checked" {
        fn translated(unit: &mut Unit, cycle: &Cycle, address: u16, held: bool) -> Answer {
            if !held {
                return Document01::translated(unit, cycle, address, held);
            }
            Answer {
                address: Some(address),
                sup: true,
                distance: distance(unit, cycle),
                ..Answer::quiet(Kind::Translated, unit.request)
            }
        }
    }
    HeldMarks "a cycle suppressed by hold alone still sets REF and CHG" {
        fn translated(unit: &mut Unit, cycle: &Cycle, address: u16, held: bool) -> Answer {
            let finding = finding(unit, cycle);
            let answer = Document01::translated(unit, cycle, address, held);
            if !matches!(finding, Some(Finding::Violation(_))) {
                Document01::mark(unit, cycle);
            }
            answer
        }
    }
    WarningSuppresses "a warning turns SUP on" {
        fn translated(unit: &mut Unit, cycle: &Cycle, address: u16, held: bool) -> Answer {
            let warning = finding(unit, cycle) == Some(Finding::Warning);
            let answer = Document01::translated(unit, cycle, address, held);
            Answer { sup: answer.sup || warning, ..answer }
        }
    }
    ViolationNotDriven "a violation drives no address" {
        fn translated(unit: &mut Unit, cycle: &Cycle, address: u16, held: bool) -> Answer {
            let violation = matches!(finding(unit, cycle), Some(Finding::Violation(_)));
            let answer = Document01::translated(unit, cycle, address, held);
            Answer { address: answer.address.filter(|_| !violation), ..answer }
        }
    }
    DmaRecords "a DMA violation is recorded" {
        fn translated(unit: &mut Unit, cycle: &Cycle, address: u16, held: bool) -> Answer {
            let finding = finding(unit, cycle).unwrap_or(Finding::Clean);
            let answer = Document01::translated(unit, cycle, address, held);
            if cycle.dma {
                Document01::record(unit, cycle, finding);
            }
            Answer { trap: unit.request, ..answer }
        }
    }
    DmaHolds "a DMA violation sets hold" {
        fn translated(unit: &mut Unit, cycle: &Cycle, address: u16, held: bool) -> Answer {
            let answer = Document01::translated(unit, cycle, address, held);
            unit.hold |= answer.sup;
            answer
        }
    }
    DmaNotSuppressed "a DMA violation does not turn SUP on" {
        fn translated(unit: &mut Unit, cycle: &Cycle, address: u16, held: bool) -> Answer {
            let answer = Document01::translated(unit, cycle, address, held);
            Answer { sup: answer.sup && !cycle.dma, ..answer }
        }
    }
    AbortedStores "the aborted fetch overwrites ISN" {
        fn aborted_fetch(unit: &mut Unit, cycle: &Cycle) -> Answer {
            if translates(unit, cycle) {
                store_instruction(unit, cycle);
            }
            Document01::aborted_fetch(unit, cycle)
        }
    }
    AbortedStoresIfZero "the aborted fetch stores ISN if the VTR has been cleared" {
        fn aborted_fetch(unit: &mut Unit, cycle: &Cycle) -> Answer {
            if translates(unit, cycle) && unit.vtr == 0 {
                store_instruction(unit, cycle);
            }
            Document01::aborted_fetch(unit, cycle)
        }
    }
    AbortedForgives "the aborted fetch forgives a second fetch too" {
        fn aborted_fetch(unit: &mut Unit, cycle: &Cycle) -> Answer {
            let answer = Document01::aborted_fetch(unit, cycle);
            unit.awaits = true;
            answer
        }
    }
    AbortedChecked "the aborted fetch is checked, and suppressed if it violates" {
        fn aborted_fetch(unit: &mut Unit, cycle: &Cycle) -> Answer {
            let violation = matches!(finding(unit, cycle), Some(Finding::Violation(_)));
            Answer { sup: violation, ..Document01::aborted_fetch(unit, cycle) }
        }
    }
    AbortedRecords "the aborted fetch records a violation" {
        fn aborted_fetch(unit: &mut Unit, cycle: &Cycle) -> Answer {
            let finding = finding(unit, cycle).unwrap_or(Finding::Clean);
            let answer = Document01::aborted_fetch(unit, cycle);
            Document01::record(unit, cycle, finding);
            answer
        }
    }
    AbortedMarks "the aborted fetch sets REF" {
        fn aborted_fetch(unit: &mut Unit, cycle: &Cycle) -> Answer {
            if translates(unit, cycle) {
                Document01::mark(unit, cycle);
            }
            Document01::aborted_fetch(unit, cycle)
        }
    }
    AbortedNotDriven "the aborted fetch drives no address" {
        fn aborted_fetch(unit: &mut Unit, cycle: &Cycle) -> Answer {
            Answer { address: None, ..Document01::aborted_fetch(unit, cycle) }
        }
    }
    AbortedNotPassed "the aborted fetch drives no address with TRNS clear" {
        fn aborted_fetch(unit: &mut Unit, cycle: &Cycle) -> Answer {
            let driven = translates(unit, cycle);
            let answer = Document01::aborted_fetch(unit, cycle);
            Answer { address: answer.address.filter(|_| driven), ..answer }
        }
    }
    AbortedHeld "the aborted fetch is suppressed while hold stands" {
        fn aborted_fetch(unit: &mut Unit, cycle: &Cycle) -> Answer {
            let hold = unit.hold;
            Answer { sup: hold, ..Document01::aborted_fetch(unit, cycle) }
        }
    }
    AbortedLeavesOwn "the aborted fetch leaves own" {
        fn aborted_fetch(unit: &mut Unit, cycle: &Cycle) -> Answer {
            let own = unit.own;
            let answer = Document01::aborted_fetch(unit, cycle);
            unit.own = own;
            answer
        }
    }
    AbortedLeavesHold "the aborted fetch leaves hold" {
        fn aborted_fetch(unit: &mut Unit, cycle: &Cycle) -> Answer {
            let hold = unit.hold;
            let answer = Document01::aborted_fetch(unit, cycle);
            unit.hold = hold;
            answer
        }
    }
    AbortedTakesRequest "the aborted fetch takes the request back" {
        fn aborted_fetch(unit: &mut Unit, cycle: &Cycle) -> Answer {
            unit.request = false;
            Document01::aborted_fetch(unit, cycle)
        }
    }
    AbortedIsTranslated "a translated aborted fetch is shown as T, a passed one as P" {
        fn aborted_fetch(unit: &mut Unit, cycle: &Cycle) -> Answer {
            let kind = match Document01::route(unit, cycle) {
                Route::Translated(_) => Kind::Translated,
                Route::Passed(_) => Kind::Passed,
                Route::NotDriven => Kind::AbortedFetch,
            };
            Answer { kind, ..Document01::aborted_fetch(unit, cycle) }
        }
    }
    AbortedIsIgnored "an aborted fetch that is not driven is shown as I" {
        fn aborted_fetch(unit: &mut Unit, cycle: &Cycle) -> Answer {
            let answer = Document01::aborted_fetch(unit, cycle);
            match answer.address {
                Some(_) => answer,
                None => Answer { kind: Kind::Ignored, ..answer },
            }
        }
    }
    NeverAborts "no fetch is aborted" {
        fn aborted_fetch(unit: &mut Unit, cycle: &Cycle) -> Answer {
            unit.awaits = false;
            Document01::memory(unit, cycle)
        }
    }
    FetchDriven "only a driven fetch starts an instruction" {
        fn fetches(unit: &Unit, cycle: &Cycle) -> bool {
            Document01::fetches(unit, cycle) && Document01::route(unit, cycle) != Route::NotDriven
        }
    }
    FetchTranslated "only a translated fetch starts an instruction" {
        fn fetches(unit: &Unit, cycle: &Cycle) -> bool {
            Document01::fetches(unit, cycle) && translates(unit, cycle)
        }
    }
    FetchNeedsMsen "no fetch is seen while MSEN is clear" {
        fn fetches(unit: &Unit, cycle: &Cycle) -> bool {
            Document01::fetches(unit, cycle) && unit.mode(mode::MSEN)
        }
    }
    FetchWrites "a write at %D starts an instruction" {
        fn fetches(_unit: &Unit, cycle: &Cycle) -> bool {
            !cycle.dma && cycle.status == 0xD
        }
    }
    FetchDma "a DMA read at %D starts an instruction" {
        fn fetches(_unit: &Unit, cycle: &Cycle) -> bool {
            cycle.read && cycle.status == 0xD
        }
    }
    FetchLaterWords "a read at %C starts an instruction" {
        fn fetches(_unit: &Unit, cycle: &Cycle) -> bool {
            !cycle.dma && cycle.read && matches!(cycle.status, 0xC | 0xD)
        }
    }
    FetchLeavesOwn "a fetch leaves own" {
        fn start_instruction(unit: &mut Unit) {
            unit.hold = false;
        }
    }
    FetchLeavesHold "a fetch leaves hold" {
        fn start_instruction(unit: &mut Unit) {
            unit.own = false;
        }
    }
    FetchTakesRequest "a fetch that is not aborted takes the request back" {
        fn start_instruction(unit: &mut Unit) {
            Document01::start_instruction(unit);
            unit.request &= unit.awaits;
        }
    }
    MarksCpuOnly "REF and CHG are set by the CPU alone" {
        fn mark(unit: &mut Unit, cycle: &Cycle) {
            if !cycle.dma {
                Document01::mark(unit, cycle);
            }
        }
    }
    MarksChangedByReads "a read sets CHG too" {
        fn mark(unit: &mut Unit, cycle: &Cycle) {
            Document01::mark(unit, &Cycle { read: false, ..*cycle });
        }
    }
    MarksReadsOnly "REF is not set by fetches" {
        fn mark(unit: &mut Unit, cycle: &Cycle) {
            if cycle.status != 0xD {
                Document01::mark(unit, cycle);
            }
        }
    }
    MarksViolations "a violation sets REF" {
        fn translated(unit: &mut Unit, cycle: &Cycle, address: u16, held: bool) -> Answer {
            let answer = Document01::translated(unit, cycle, address, held);
            *descriptor_attributes(unit, cycle) |= attribute::REF;
            answer
        }
    }
    MarksNoWarnings "a warning sets neither REF nor CHG" {
        fn translated(unit: &mut Unit, cycle: &Cycle, address: u16, held: bool) -> Answer {
            let warning = finding(unit, cycle) == Some(Finding::Warning);
            let attributes = *descriptor_attributes(unit, cycle);
            let answer = Document01::translated(unit, cycle, address, held);
            if warning {
                *descriptor_attributes(unit, cycle) = attributes;
            }
            answer
        }
    }
    MarksNoThirdWarning "a warning with SWW standing does nothing, REF and CHG included" {
        fn translated(unit: &mut Unit, cycle: &Cycle, address: u16, held: bool) -> Answer {
            let third = finding(unit, cycle) == Some(Finding::Warning)
                && Document01::system_stack(cycle)
                && unit.vtr & violation::PRIMARY != 0
                && unit.vtr & violation::SWW != 0
                && !unit.own;
            let attributes = *descriptor_attributes(unit, cycle);
            let answer = Document01::translated(unit, cycle, address, held);
            if third {
                *descriptor_attributes(unit, cycle) = attributes;
            }
            answer
        }
    }
    InstructionNoPrimary "ISN is stored while no primary flag stands"
    same "an undamaged unit without a primary flag has VTR zero" {
        fn keeps_instruction(unit: &Unit, cycle: &Cycle, finding: Finding) -> bool {
            let vtr = unit.vtr & violation::PRIMARY;
            Document01::keeps_instruction(&Unit { vtr, ..unit.clone() }, cycle, finding)
        }
    }
    InstructionAlways "ISN is stored at every clean fetch" {
        fn keeps_instruction(unit: &Unit, cycle: &Cycle, finding: Finding) -> bool {
            Document01::keeps_instruction(&Unit { vtr: 0, ..unit.clone() }, cycle, finding)
        }
    }
    InstructionNoRequest "ISN is stored while no request stands" {
        fn keeps_instruction(unit: &Unit, cycle: &Cycle, finding: Finding) -> bool {
            let vtr = u8::from(unit.request);
            Document01::keeps_instruction(&Unit { vtr, ..unit.clone() }, cycle, finding)
        }
    }
    InstructionViolates "a fetch that violates stores ISN" {
        fn translated(unit: &mut Unit, cycle: &Cycle, address: u16, held: bool) -> Answer {
            if Document01::fetches(unit, cycle) && unit.vtr == 0 {
                store_instruction(unit, cycle);
            }
            Document01::translated(unit, cycle, address, held)
        }
    }
    InstructionLaterWords "a read at %C stores ISN too" {
        fn keeps_instruction(unit: &Unit, cycle: &Cycle, finding: Finding) -> bool {
            let status = if cycle.status == 0xC { 0xD } else { cycle.status };
            Document01::keeps_instruction(unit, &Cycle { status, ..*cycle }, finding)
        }
    }
    InstructionWrites "a write at %D stores ISN" {
        fn keeps_instruction(unit: &Unit, cycle: &Cycle, finding: Finding) -> bool {
            Document01::keeps_instruction(unit, &Cycle { read: true, ..*cycle }, finding)
        }
    }
    InstructionDma "a DMA read at %D stores ISN" {
        fn keeps_instruction(unit: &Unit, cycle: &Cycle, finding: Finding) -> bool {
            Document01::keeps_instruction(unit, &Cycle { dma: false, ..*cycle }, finding)
        }
    }
    InstructionPassed "a passed fetch stores ISN" {
        fn memory(unit: &mut Unit, cycle: &Cycle) -> Answer {
            let answer = Document01::memory(unit, cycle);
            let fetch = Document01::fetches(unit, cycle) && unit.vtr == 0;
            if answer.kind == Kind::Passed && fetch {
                store_instruction(unit, cycle);
            }
            answer
        }
    }
    InstructionSixBits "ISN keeps six bits" {
        fn memory(unit: &mut Unit, cycle: &Cycle) -> Answer {
            let answer = Document01::memory(unit, cycle);
            if stored_instruction(unit, cycle, &answer) {
                unit.isn = cycle.entry();
            }
            answer
        }
    }
    InstructionRangeStays "a fetch leaves bit 6 of ISN as it was" {
        fn memory(unit: &mut Unit, cycle: &Cycle) -> Answer {
            let range = unit.isn & 0x40;
            let answer = Document01::memory(unit, cycle);
            if stored_instruction(unit, cycle, &answer) {
                unit.isn = cycle.entry() | range;
            }
            answer
        }
    }
    InstructionRangeSticks "bit 6 of ISN, once set, stays set" {
        fn memory(unit: &mut Unit, cycle: &Cycle) -> Answer {
            let range = unit.isn & 0x40;
            let answer = Document01::memory(unit, cycle);
            unit.isn |= range;
            answer
        }
    }
    InstructionUnsuppressed "ISN is stored only with SUP off"
    same "a fetch has cleared hold, so without violation SUP is off" {
        fn translated(unit: &mut Unit, cycle: &Cycle, address: u16, held: bool) -> Answer {
            let (isn, ioff) = (unit.isn, unit.ioff);
            let answer = Document01::translated(unit, cycle, address, held);
            if answer.sup {
                (unit.isn, unit.ioff) = (isn, ioff);
            }
            answer
        }
    }
    InstructionJudgedBefore "ISN looks at the VTR as it stood before the cycle"
    same "a fetch without violation records nothing" {
        fn translated(unit: &mut Unit, cycle: &Cycle, address: u16, held: bool) -> Answer {
            let finding = Document01::check(&unit.table[usize::from(cycle.entry())], cycle);
            let stores = Document01::keeps_instruction(unit, cycle, finding);
            let (isn, ioff) = (unit.isn, unit.ioff);
            let answer = Document01::translated(unit, cycle, address, held);
            match stores {
                true => store_instruction(unit, cycle),
                false => (unit.isn, unit.ioff) = (isn, ioff),
            }
            answer
        }
    }
    LowOfTranslated "every translated cycle stores the low byte" by scripts {
        fn translated(unit: &mut Unit, cycle: &Cycle, address: u16, held: bool) -> Answer {
            unit.low = cycle.low;
            Document01::translated(unit, cycle, address, held)
        }
    }
    LowOfMemory "every memory cycle stores the low byte" by scripts {
        fn memory(unit: &mut Unit, cycle: &Cycle) -> Answer {
            unit.low = cycle.low;
            Document01::memory(unit, cycle)
        }
    }
    LowOfInstruction "a fetch that stores ISN and IOFF stores the low byte" by scripts {
        fn memory(unit: &mut Unit, cycle: &Cycle) -> Answer {
            let answer = Document01::memory(unit, cycle);
            if stored_instruction(unit, cycle, &answer) {
                unit.low = cycle.low;
            }
            answer
        }
    }
    LowOfAborted "the aborted fetch stores the low byte" by scripts {
        fn aborted_fetch(unit: &mut Unit, cycle: &Cycle) -> Answer {
            unit.low = cycle.low;
            Document01::aborted_fetch(unit, cycle)
        }
    }
    LowOfDma "a DMA violation stores the low byte" by scripts {
        fn translated(unit: &mut Unit, cycle: &Cycle, address: u16, held: bool) -> Answer {
            let answer = Document01::translated(unit, cycle, address, held);
            if cycle.dma && answer.sup {
                unit.low = cycle.low;
            }
            answer
        }
    }
    LowOfDmaFirst "a DMA violation stores the low byte while no primary flag stands" by scripts {
        fn translated(unit: &mut Unit, cycle: &Cycle, address: u16, held: bool) -> Answer {
            let answer = Document01::translated(unit, cycle, address, held);
            if cycle.dma && answer.sup && unit.vtr == 0 {
                unit.low = cycle.low;
            }
            answer
        }
    }
    LowEndsWithInstruction "the start of an instruction clears the low byte" by scripts {
        fn start_instruction(unit: &mut Unit) {
            Document01::start_instruction(unit);
            unit.low = 0;
        }
    }
    DistanceNotHeld "a cycle that hold suppresses carries 0" {
        fn translated(unit: &mut Unit, cycle: &Cycle, address: u16, held: bool) -> Answer {
            let answer = Document01::translated(unit, cycle, address, held);
            Answer { distance: if held { 0 } else { answer.distance }, ..answer }
        }
    }
    DistanceNotSuppressed "a suppressed cycle carries 0" {
        fn translated(unit: &mut Unit, cycle: &Cycle, address: u16, held: bool) -> Answer {
            let answer = Document01::translated(unit, cycle, address, held);
            Answer { distance: if answer.sup { 0 } else { answer.distance }, ..answer }
        }
    }
    DistanceNotOfFetch "no fetch carries a distance, aborted or not" {
        fn translated(unit: &mut Unit, cycle: &Cycle, address: u16, held: bool) -> Answer {
            let fetch = Document01::fetches(unit, cycle);
            let answer = Document01::translated(unit, cycle, address, held);
            Answer { distance: if fetch { 0 } else { answer.distance }, ..answer }
        }
    }
    DistanceOfPhysical "the distance is measured from the low byte of the address lines" {
        fn translated(unit: &mut Unit, cycle: &Cycle, address: u16, held: bool) -> Answer {
            let [_, offset] = address.to_be_bytes();
            let distance = distance(unit, &Cycle { offset, ..*cycle });
            Answer { distance, ..Document01::translated(unit, cycle, address, held) }
        }
    }
    DistanceAtSar "the distance is measured in the descriptor at SAR" {
        fn translated(unit: &mut Unit, cycle: &Cycle, address: u16, held: bool) -> Answer {
            let distance = distance(unit, &Cycle { segment: unit.sar, ..*cycle });
            Answer { distance, ..Document01::translated(unit, cycle, address, held) }
        }
    }
    DistanceAfterMarks "the distance is measured after the cycle's REF and CHG are set"
    same "it looks at limit and DIRW, which no memory cycle changes" {
        fn translated(unit: &mut Unit, cycle: &Cycle, address: u16, held: bool) -> Answer {
            let answer = Document01::translated(unit, cycle, address, held);
            Answer { distance: distance(unit, cycle), ..answer }
        }
    }
    DistanceOfAborted "a translated aborted fetch carries the distance" {
        fn aborted_fetch(unit: &mut Unit, cycle: &Cycle) -> Answer {
            let distance = if translates(unit, cycle) { distance(unit, cycle) } else { 0 };
            Answer { distance, ..Document01::aborted_fetch(unit, cycle) }
        }
    }
    DistanceOfAbortedUntranslated "an aborted fetch that is not translated carries a distance" {
        fn aborted_fetch(unit: &mut Unit, cycle: &Cycle) -> Answer {
            let distance = if translates(unit, cycle) { 0 } else { distance(unit, cycle) };
            Answer { distance, ..Document01::aborted_fetch(unit, cycle) }
        }
    }
    DistanceOfPassed "a passed cycle carries the distance by its descriptor" {
        fn memory(unit: &mut Unit, cycle: &Cycle) -> Answer {
            let distance = distance(unit, cycle);
            carried(distance, Document01::memory(unit, cycle), |kind| kind == Kind::Passed)
        }
    }
    DistanceOfPassedToTop "a passed cycle carries 255 less offset byte" {
        fn memory(unit: &mut Unit, cycle: &Cycle) -> Answer {
            let distance = 0xFF - cycle.offset;
            carried(distance, Document01::memory(unit, cycle), |kind| kind == Kind::Passed)
        }
    }
    DistanceOfNotDriven "a memory cycle that is not driven carries the distance by its descriptor" {
        fn memory(unit: &mut Unit, cycle: &Cycle) -> Answer {
            let distance = distance(unit, cycle);
            carried(distance, Document01::memory(unit, cycle), |kind| kind == Kind::Ignored)
        }
    }
}
