//! Wrong readings of the refusals, of which cycle is what, of reset and of
//! acknowledge, and of which cycles carry a distance.

use super::{carried, distance, wrong};
use witness::commands::{code, Commands};
use witness::cycle::{Answer, Cycle, Kind};
use witness::generate::bus::{violates, warns};
use witness::step::{Class, Step};
use witness::unit::{mode, violation, Descriptor, Unit};
use witness::Document01;

/// The right class, asked of a cycle changed by a wrong reading.
fn class(cycle: Cycle) -> Class {
    Document01::class(&cycle)
}

fn step_if_whole(unit: &mut Unit, cycle: &Cycle, number: u8) -> Answer {
    let answer = Document01::step(unit, cycle);
    match answer.kind {
        Kind::Refused(2) => Answer::quiet(Kind::Refused(number), unit.request),
        _ => answer,
    }
}

/// Steps a unit that a narrower bound lets pass, and keeps no more than it has
/// room for.
fn narrow_step<R: Step>(unit: &mut Unit, cycle: &Cycle, keep: fn(&mut Unit)) -> Answer {
    if R::damaged(unit) {
        return Answer::quiet(Kind::Refused(2), unit.request);
    }
    let answer = Document01::step(unit, cycle);
    keep(unit);
    answer
}

/// Refusals 3 and 4, whatever the unit and the cycle's numbers.
fn command_refusal(cycle: &Cycle) -> Option<u8> {
    let command = class(*cycle) == Class::Command;
    Document01::command_refusal(cycle).filter(|_| command)
}

fn writes(cycle: &Cycle, codes: &[u8]) -> bool {
    class(*cycle) == Class::Command && cycle.write() && codes.contains(&cycle.offset)
}

/// The right refusal, but for an orphan where its damage is overlooked.
fn refusal(unit: &Unit, cycle: &Cycle, overlooked: bool) -> Option<u8> {
    match overlooked {
        true => OrphanWhole::refusal(unit, cycle),
        false => Document01::refusal(unit, cycle),
    }
}

/// The right answer, but one of such a kind carries a distance.
fn carried_by(unit: &mut Unit, cycle: &Cycle, kinds: fn(Kind) -> bool) -> Answer {
    let distance = distance(unit, cycle);
    carried(distance, Document01::step(unit, cycle), kinds)
}

wrong! { Step:
    ResetMends "a reset cycle is accepted by a damaged unit" by scripts {
        fn refusal(unit: &Unit, cycle: &Cycle) -> Option<u8> {
            Document01::refusal(unit, cycle).filter(|&number| number != 2 || !cycle.reset)
        }
    }
    IgnoredByDamaged "a damaged unit ignores what it always ignores, without a refusal" by scripts {
        fn refusal(unit: &Unit, cycle: &Cycle) -> Option<u8> {
            let ignored = class(*cycle) == Class::Ignored && !Document01::out_of_range(cycle);
            Document01::refusal(unit, cycle).filter(|&number| number != 2 || !ignored)
        }
    }
    RangeFirst "refusal 1 is judged before 2" by scripts {
        fn refusal(unit: &Unit, cycle: &Cycle) -> Option<u8> {
            match Document01::out_of_range(cycle) {
                true => Some(1),
                false => Document01::refusal(unit, cycle),
            }
        }
    }
    CommandFirst "refusals 3 and 4 are judged before 2 and 1" by scripts {
        fn step(unit: &mut Unit, cycle: &Cycle) -> Answer {
            match command_refusal(cycle) {
                Some(number) => Answer::quiet(Kind::Refused(number), unit.request),
                None => Document01::step(unit, cycle),
            }
        }
    }
    DamageIsOne "a damaged unit is refused with 1" by scripts {
        fn step(unit: &mut Unit, cycle: &Cycle) -> Answer {
            step_if_whole(unit, cycle, 1)
        }
    }
    NarrowBoth "VSN and ISN above 63 are damage" {
        fn damaged(unit: &Unit) -> bool {
            unit.vsn > 63 || unit.isn > 63 || Document01::damaged(unit)
        }
    }
    NarrowVsn "VSN above 63 is damage" {
        fn damaged(unit: &Unit) -> bool {
            unit.vsn > 63 || Document01::damaged(unit)
        }
    }
    NarrowIsn "ISN above 63 is damage" {
        fn damaged(unit: &Unit) -> bool {
            unit.isn > 63 || Document01::damaged(unit)
        }
    }
    SixBoth "VSN and ISN keep six bits, and above 63 they are damage" {
        fn damaged(unit: &Unit) -> bool {
            NarrowBoth::damaged(unit)
        }
        fn step(unit: &mut Unit, cycle: &Cycle) -> Answer {
            narrow_step::<Self>(unit, cycle, |unit| {
                (unit.vsn, unit.isn) = (unit.vsn % 64, unit.isn % 64);
            })
        }
    }
    SixVsn "VSN keeps six bits, and above 63 it is damage" {
        fn damaged(unit: &Unit) -> bool {
            NarrowVsn::damaged(unit)
        }
        fn step(unit: &mut Unit, cycle: &Cycle) -> Answer {
            narrow_step::<Self>(unit, cycle, |unit| unit.vsn %= 64)
        }
    }
    SixIsn "ISN keeps six bits, and above 63 it is damage" {
        fn damaged(unit: &Unit) -> bool {
            NarrowIsn::damaged(unit)
        }
        fn step(unit: &mut Unit, cycle: &Cycle) -> Answer {
            narrow_step::<Self>(unit, cycle, |unit| unit.isn %= 64)
        }
    }
    WideVsn "VSN above 127 is no damage" by scripts {
        fn damaged(unit: &Unit) -> bool {
            Document01::damaged(&Unit { vsn: 0, ..unit.clone() })
        }
    }
    WideIsn "ISN above 127 is no damage" by scripts {
        fn damaged(unit: &Unit) -> bool {
            Document01::damaged(&Unit { isn: 0, ..unit.clone() })
        }
    }
    VsnOneMore "VSN 128 is no damage" by scripts {
        fn damaged(unit: &Unit) -> bool {
            let vsn = if unit.vsn == 128 { 0 } else { unit.vsn };
            Document01::damaged(&Unit { vsn, ..unit.clone() })
        }
    }
    IsnOneMore "ISN 128 is no damage" by scripts {
        fn damaged(unit: &Unit) -> bool {
            let isn = if unit.isn == 128 { 0 } else { unit.isn };
            Document01::damaged(&Unit { isn, ..unit.clone() })
        }
    }
    VsnOneLess "VSN 127 is damage" {
        fn damaged(unit: &Unit) -> bool {
            unit.vsn > 126 || Document01::damaged(unit)
        }
    }
    IsnOneLess "ISN 127 is damage" {
        fn damaged(unit: &Unit) -> bool {
            unit.isn > 126 || Document01::damaged(unit)
        }
    }
    VsnOwnRange "VSN of the range that URS does not name is damage" {
        fn damaged(unit: &Unit) -> bool {
            (unit.vsn > 63) != unit.mode(mode::URS) || Document01::damaged(unit)
        }
    }
    IsnOwnRange "ISN of the range that URS does not name is damage" {
        fn damaged(unit: &Unit) -> bool {
            (unit.isn > 63) != unit.mode(mode::URS) || Document01::damaged(unit)
        }
    }
    SevenSar "SAR up to 127 is no damage, and is cut to six bits" by scripts {
        fn damaged(unit: &Unit) -> bool {
            Document01::damaged(&Unit { sar: unit.sar & 0xBF, ..unit.clone() })
        }
        fn step(unit: &mut Unit, cycle: &Cycle) -> Answer {
            if let Some(number) = Self::refusal(unit, cycle) {
                return Answer::quiet(Kind::Refused(number), unit.request);
            }
            unit.sar %= 64;
            Document01::step(unit, cycle)
        }
    }
    SevenBcsr "BCSR up to 127 is no damage" by scripts {
        fn damaged(unit: &Unit) -> bool {
            Document01::damaged(&Unit { bcsr: unit.bcsr & 0xBF, ..unit.clone() })
        }
    }
    WideBcsr "BCSR above 63 is no damage" by scripts {
        fn damaged(unit: &Unit) -> bool {
            Document01::damaged(&Unit { bcsr: 0, ..unit.clone() })
        }
    }
    WideDscr "DSCR above 3 is no damage" by scripts {
        fn damaged(unit: &Unit) -> bool {
            Document01::damaged(&Unit { dscr: 0, ..unit.clone() })
        }
    }
    NarrowSar "SAR 63 is damage" {
        fn damaged(unit: &Unit) -> bool {
            unit.sar > 62 || Document01::damaged(unit)
        }
    }
    OrphanWhole "an orphan is no damage: the first row takes it" by scripts {
        fn orphan(_unit: &Unit) -> bool {
            false
        }
    }
    OrphanSilent "an orphan is no damage, and its first entry does not request while FATL stands" by scripts {
        fn step(unit: &mut Unit, cycle: &Cycle) -> Answer {
            let silent = Document01::orphan(unit) && unit.vtr & violation::FATL != 0;
            let (request, awaits) = (unit.request, unit.awaits);
            let answer = OrphanWhole::step(unit, cycle);
            if !silent || unit.vtr & violation::PRIMARY == 0 {
                return answer;
            }
            (unit.request, unit.awaits) = (request, awaits);
            Answer { trap: request, ..answer }
        }
    }
    OrphanOfFatl "only FATL alone makes an orphan" by scripts {
        fn orphan(unit: &Unit) -> bool {
            unit.vtr == violation::FATL
        }
    }
    OrphanOfSww "only SWW alone makes an orphan" by scripts {
        fn orphan(unit: &Unit) -> bool {
            unit.vtr == violation::SWW
        }
    }
    OrphanOfBoth "only SWW and FATL together make an orphan" by scripts {
        fn orphan(unit: &Unit) -> bool {
            unit.vtr == violation::SWW | violation::FATL
        }
    }
    OrphanOfEither "SWW or FATL makes an orphan, but not both" by scripts {
        fn orphan(unit: &Unit) -> bool {
            matches!(unit.vtr, violation::SWW | violation::FATL)
        }
    }
    OrphanBeside "SWW or FATL is damage beside a primary flag too" {
        fn orphan(unit: &Unit) -> bool {
            unit.vtr & !violation::PRIMARY != 0
        }
    }
    OrphanPww "SWW or FATL is damage beside PWW alone" {
        fn orphan(unit: &Unit) -> bool {
            Document01::orphan(&Unit { vtr: unit.vtr & !violation::PWW, ..unit.clone() })
        }
    }
    OrphanZero "every VTR without a primary flag is damage, zero too" {
        fn orphan(unit: &Unit) -> bool {
            unit.vtr & violation::PRIMARY == 0
        }
    }
    OrphanReset "the reset line mends an orphan" by scripts {
        fn refusal(unit: &Unit, cycle: &Cycle) -> Option<u8> {
            refusal(unit, cycle, cycle.reset)
        }
    }
    OrphanSoftwareReset "a software reset mends an orphan" by scripts {
        fn refusal(unit: &Unit, cycle: &Cycle) -> Option<u8> {
            refusal(unit, cycle, writes(cycle, &[code::RESET]))
        }
    }
    OrphanClearVtr "clear VTR mends an orphan" by scripts {
        fn refusal(unit: &Unit, cycle: &Cycle) -> Option<u8> {
            refusal(unit, cycle, writes(cycle, &[code::CLEAR_VTR]))
        }
    }
    OrphanClearFlag "clear SWW and clear FATL are obeyed by an orphan" by scripts {
        fn refusal(unit: &Unit, cycle: &Cycle) -> Option<u8> {
            refusal(unit, cycle, writes(cycle, &[code::CLEAR_SWW, code::CLEAR_FATL]))
        }
    }
    OrphanAcknowledges "an orphan acknowledges" by scripts {
        fn refusal(unit: &Unit, cycle: &Cycle) -> Option<u8> {
            refusal(unit, cycle, class(*cycle) == Class::Acknowledge)
        }
    }
    OrphanReads "an orphan's registers can be read" by scripts {
        fn refusal(unit: &Unit, cycle: &Cycle) -> Option<u8> {
            refusal(unit, cycle, class(*cycle) == Class::Command && cycle.read)
        }
    }
    OrphanDma "an orphan translates for DMA" by scripts {
        fn refusal(unit: &Unit, cycle: &Cycle) -> Option<u8> {
            refusal(unit, cycle, class(*cycle) == Class::Memory && cycle.dma)
        }
    }
    OrphanUnrecorded "an orphan is refused only where it would record" by scripts {
        fn refusal(unit: &Unit, cycle: &Cycle) -> Option<u8> {
            let memory = class(*cycle) == Class::Memory;
            let records = memory && (violates(unit, cycle) || warns(unit, cycle));
            refusal(unit, cycle, !records)
        }
    }
    OrphanRangeFirst "refusal 1 comes before an orphan's 2" by scripts {
        fn refusal(unit: &Unit, cycle: &Cycle) -> Option<u8> {
            refusal(unit, cycle, Document01::out_of_range(cycle))
        }
    }
    OrphanCommandFirst "refusals 3 and 4 come before an orphan's 2" by scripts {
        fn refusal(unit: &Unit, cycle: &Cycle) -> Option<u8> {
            refusal(unit, cycle, command_refusal(cycle).is_some())
        }
    }
    OrphanDropsTrap "an orphan's refusal shows the trap line off" by scripts {
        fn step(unit: &mut Unit, cycle: &Cycle) -> Answer {
            let answer = Document01::step(unit, cycle);
            Answer { trap: answer.trap && !Document01::orphan(unit), ..answer }
        }
    }
    OrphanCleared "an orphan's refusal clears the VTR" by scripts {
        fn step(unit: &mut Unit, cycle: &Cycle) -> Answer {
            let answer = Document01::step(unit, cycle);
            if Document01::orphan(unit) {
                unit.vtr = 0;
            }
            answer
        }
    }
    ResetAnyRange "a reset cycle is never refused 1" by scripts {
        fn out_of_range(cycle: &Cycle) -> bool {
            !cycle.reset && Document01::out_of_range(cycle)
        }
    }
    IgnoredAnyRange "segment above 127 is refused in memory cycles only" by scripts {
        fn out_of_range(cycle: &Cycle) -> bool {
            cycle.status > 15 || cycle.segment > 127 && class(*cycle) == Class::Memory
        }
    }
    StatusCut "status above 15 is cut to four bits" by scripts {
        fn step(unit: &mut Unit, cycle: &Cycle) -> Answer {
            Document01::step(unit, &Cycle { status: cycle.status % 16, ..*cycle })
        }
    }
    SegmentCut "segment above 127 is cut to seven bits" by scripts {
        fn step(unit: &mut Unit, cycle: &Cycle) -> Answer {
            Document01::step(unit, &Cycle { segment: cycle.segment % 128, ..*cycle })
        }
    }
    RefusalDropsTrap "a refusal shows the trap line off" {
        fn step(unit: &mut Unit, cycle: &Cycle) -> Answer {
            let answer = Document01::step(unit, cycle);
            let refused = matches!(answer.kind, Kind::Refused(_));
            Answer { trap: answer.trap && !refused, ..answer }
        }
    }
    RefusalClearsRequest "a refused command takes the request back" {
        fn step(unit: &mut Unit, cycle: &Cycle) -> Answer {
            let answer = Document01::step(unit, cycle);
            if matches!(answer.kind, Kind::Refused(3 | 4)) {
                unit.request = false;
            }
            answer
        }
    }
    RefusalHeld "a refused memory cycle is suppressed while hold stands" by scripts {
        fn step(unit: &mut Unit, cycle: &Cycle) -> Answer {
            let answer = Document01::step(unit, cycle);
            let memory = matches!(cycle.status, 0x8..=0xD) && !cycle.dma && !cycle.reset;
            let refused = matches!(answer.kind, Kind::Refused(_));
            Answer { sup: answer.sup || refused && memory && unit.hold, ..answer }
        }
    }
    DmaRefused "a bad command by DMA is refused 3 or 4" {
        fn refusal(unit: &Unit, cycle: &Cycle) -> Option<u8> {
            let dma = cycle.dma && cycle.status != 0x3;
            Document01::refusal(unit, &Cycle { dma, ..*cycle })
        }
    }
    ResetRefused "a reset cycle with a bad command is refused 3 or 4" {
        fn refusal(unit: &Unit, cycle: &Cycle) -> Option<u8> {
            Document01::refusal(unit, &Cycle { reset: false, ..*cycle })
        }
    }
    AcknowledgeBeforeReset "an acknowledge comes before the reset line" {
        fn class(cycle: &Cycle) -> Class {
            match class(Cycle { reset: false, ..*cycle }) {
                Class::Acknowledge => Class::Acknowledge,
                _ => class(*cycle),
            }
        }
    }
    DmaAcknowledges "a DMA cycle at status 4 acknowledges" {
        fn class(cycle: &Cycle) -> Class {
            class(Cycle { dma: cycle.dma && cycle.status != 0x4, ..*cycle })
        }
    }
    AcknowledgeSelected "an acknowledge needs select" {
        fn class(cycle: &Cycle) -> Class {
            match class(*cycle) {
                Class::Acknowledge if !cycle.select => Class::Ignored,
                class => class,
            }
        }
    }
    AcknowledgeReads "an acknowledge must be a read" {
        fn class(cycle: &Cycle) -> Class {
            match class(*cycle) {
                Class::Acknowledge if !cycle.read => Class::Ignored,
                class => class,
            }
        }
    }
    AcknowledgeInSystem "an acknowledge must be in system mode" {
        fn class(cycle: &Cycle) -> Class {
            match class(*cycle) {
                Class::Acknowledge if cycle.normal => Class::Ignored,
                class => class,
            }
        }
    }
    DmaCommands "a selected DMA cycle at status 3 is a command" {
        fn class(cycle: &Cycle) -> Class {
            class(Cycle { dma: cycle.dma && cycle.status != 0x3, ..*cycle })
        }
    }
    CommandInSystem "a command must be in system mode" {
        fn class(cycle: &Cycle) -> Class {
            match class(*cycle) {
                Class::Command if cycle.normal => Class::Ignored,
                class => class,
            }
        }
    }
    CommandUnselected "a command needs no select" {
        fn class(cycle: &Cycle) -> Class {
            class(Cycle { select: true, ..*cycle })
        }
    }
    ResetLeavesOrphan "a reset leaves SWW and FATL" {
        fn reset(unit: &mut Unit, cycle: &Cycle) {
            let kept = unit.vtr & !violation::PRIMARY;
            Document01::reset(unit, cycle);
            unit.vtr = kept;
        }
    }
    ResetLeavesRequest "a reset leaves a trap in flight: request and await" {
        fn reset(unit: &mut Unit, cycle: &Cycle) {
            let (request, awaits) = (unit.request, unit.awaits);
            Document01::reset(unit, cycle);
            (unit.request, unit.awaits) = (request, awaits);
        }
    }
    ResetLeavesHold "a reset leaves own and hold" {
        fn reset(unit: &mut Unit, cycle: &Cycle) {
            let (own, hold) = (unit.own, unit.hold);
            Document01::reset(unit, cycle);
            (unit.own, unit.hold) = (own, hold);
        }
    }
    ResetClearsViolation "a reset clears VSN, VOFF and BCSR" {
        fn reset(unit: &mut Unit, cycle: &Cycle) {
            Document01::reset(unit, cycle);
            (unit.vsn, unit.voff, unit.bcsr) = (0, 0, 0);
        }
    }
    ResetClearsInstruction "a reset clears ISN and IOFF" {
        fn reset(unit: &mut Unit, cycle: &Cycle) {
            Document01::reset(unit, cycle);
            (unit.isn, unit.ioff) = (0, 0);
        }
    }
    ResetClearsRange "a reset clears bit 6 of VSN and ISN, as it clears URS" {
        fn reset(unit: &mut Unit, cycle: &Cycle) {
            Document01::reset(unit, cycle);
            (unit.vsn, unit.isn) = (unit.vsn % 64, unit.isn % 64);
        }
    }
    ResetClearsTable "a reset clears the descriptors" {
        fn reset(unit: &mut Unit, cycle: &Cycle) {
            Document01::reset(unit, cycle);
            unit.table = [Descriptor::default(); 64];
        }
    }
    ResetAlwaysOn "a reset sets MR to %80 whatever select says" {
        fn reset(unit: &mut Unit, cycle: &Cycle) {
            Document01::reset(unit, cycle);
            unit.mr = 0x80;
        }
    }
    ResetAlwaysOff "a reset sets MR to 0 whatever select says" {
        fn reset(unit: &mut Unit, cycle: &Cycle) {
            Document01::reset(unit, cycle);
            unit.mr = 0;
        }
    }
    ResetTranslates "a selected reset sets TRNS too" {
        fn reset(unit: &mut Unit, cycle: &Cycle) {
            Document01::reset(unit, cycle);
            unit.mr |= if cycle.select { mode::TRNS } else { 0 };
        }
    }
    ResetKeepsId "a reset keeps the ID and range of MR" {
        fn reset(unit: &mut Unit, cycle: &Cycle) {
            let kept = unit.mr & (mode::ID | mode::URS);
            Document01::reset(unit, cycle);
            unit.mr |= kept;
        }
    }
    ResetShowsOldTrap "a reset cycle still shows the request that it clears" {
        fn step(unit: &mut Unit, cycle: &Cycle) -> Answer {
            let stood = unit.request;
            let answer = Document01::step(unit, cycle);
            match answer.kind {
                Kind::Reset => Answer { trap: stood, ..answer },
                _ => answer,
            }
        }
    }
    AcknowledgeShowsOldTrap "an acknowledge still shows the request that it clears" {
        fn step(unit: &mut Unit, cycle: &Cycle) -> Answer {
            let stood = unit.request;
            let answer = Document01::step(unit, cycle);
            match answer.kind {
                Kind::Acknowledge => Answer { trap: stood, ..answer },
                _ => answer,
            }
        }
    }
    AcknowledgeDrivesZero "an acknowledge with MSEN clear drives 00" {
        fn acknowledge(unit: &mut Unit, cycle: &Cycle) -> Option<u8> {
            Document01::acknowledge(unit, cycle).or(Some(0))
        }
    }
    AcknowledgeAlwaysDrives "an acknowledge drives its line with MSEN clear too" {
        fn acknowledge(unit: &mut Unit, cycle: &Cycle) -> Option<u8> {
            let mr = unit.mr;
            unit.mr |= mode::MSEN;
            let data = Document01::acknowledge(unit, cycle);
            unit.mr = mr;
            data
        }
    }
    AcknowledgeOffIgnored "an acknowledge with MSEN clear is shown as I" {
        fn step(unit: &mut Unit, cycle: &Cycle) -> Answer {
            let answer = Document01::step(unit, cycle);
            match answer.kind {
                Kind::Acknowledge if answer.data.is_none() => {
                    Answer { kind: Kind::Ignored, ..answer }
                }
                _ => answer,
            }
        }
    }
    AcknowledgeNeedsMsen "an acknowledge with MSEN clear leaves the notes" {
        fn acknowledge(unit: &mut Unit, cycle: &Cycle) -> Option<u8> {
            match unit.mode(mode::MSEN) {
                true => Document01::acknowledge(unit, cycle),
                false => None,
            }
        }
    }
    AcknowledgeLowNotDriven "an acknowledge without request drives nothing" {
        fn acknowledge(unit: &mut Unit, cycle: &Cycle) -> Option<u8> {
            Document01::acknowledge(unit, cycle).filter(|&data| data != 0)
        }
    }
    AcknowledgeIdNumber "the acknowledge byte is the ID itself" {
        fn acknowledge(unit: &mut Unit, cycle: &Cycle) -> Option<u8> {
            let id = unit.mr & mode::ID;
            let data = Document01::acknowledge(unit, cycle);
            data.map(|line| if line == 0 { 0 } else { id })
        }
    }
    AcknowledgeReversed "the acknowledge byte counts the lines from the top" {
        fn acknowledge(unit: &mut Unit, cycle: &Cycle) -> Option<u8> {
            Document01::acknowledge(unit, cycle).map(u8::reverse_bits)
        }
    }
    AcknowledgeClearsRange "an acknowledge clears bit 6 of VSN" {
        fn acknowledge(unit: &mut Unit, cycle: &Cycle) -> Option<u8> {
            unit.vsn %= 64;
            Document01::acknowledge(unit, cycle)
        }
    }
    HoldInCommands "a standing hold turns SUP on in commands and acknowledges" {
        fn step(unit: &mut Unit, cycle: &Cycle) -> Answer {
            let hold = unit.hold;
            let answer = Document01::step(unit, cycle);
            match answer.kind {
                Kind::Command | Kind::Acknowledge => Answer { sup: hold, ..answer },
                _ => answer,
            }
        }
    }
    HoldInIgnored "a standing hold turns SUP on in cycles that are no memory cycles" {
        fn step(unit: &mut Unit, cycle: &Cycle) -> Answer {
            let hold = unit.hold;
            let answer = Document01::step(unit, cycle);
            match class(*cycle) {
                Class::Ignored if answer.kind == Kind::Ignored => Answer { sup: hold, ..answer },
                _ => answer,
            }
        }
    }
    HoldInReset "a standing hold turns SUP on in the reset cycle that clears it" {
        fn step(unit: &mut Unit, cycle: &Cycle) -> Answer {
            let hold = unit.hold;
            let answer = Document01::step(unit, cycle);
            match answer.kind {
                Kind::Reset => Answer { sup: hold, ..answer },
                _ => answer,
            }
        }
    }
    TrapNeedsMsen "the trap line is off while MSEN is clear" {
        fn step(unit: &mut Unit, cycle: &Cycle) -> Answer {
            let answer = Document01::step(unit, cycle);
            Answer { trap: answer.trap && unit.mode(mode::MSEN), ..answer }
        }
    }
    NothingChanges "a step that changes nothing" {
        fn step(unit: &mut Unit, cycle: &Cycle) -> Answer {
            Document01::step(&mut unit.clone(), cycle)
        }
    }
    LowOutOfRange "a low byte above 127 is refused 1" by scripts {
        fn out_of_range(cycle: &Cycle) -> bool {
            cycle.low > 127 || Document01::out_of_range(cycle)
        }
    }
    LowDamaged "a kept low byte above 127 is damage" by scripts {
        fn damaged(unit: &Unit) -> bool {
            unit.low > 127 || Document01::damaged(unit)
        }
    }
    ResetClearsLow "a reset clears the low byte" by scripts {
        fn reset(unit: &mut Unit, cycle: &Cycle) {
            Document01::reset(unit, cycle);
            unit.low = 0;
        }
    }
    SelectedResetClearsLow "a selected reset clears the low byte" by scripts {
        fn reset(unit: &mut Unit, cycle: &Cycle) {
            Document01::reset(unit, cycle);
            if cycle.select {
                unit.low = 0;
            }
        }
    }
    AcknowledgeClearsLow "an acknowledge clears the low byte" by scripts {
        fn acknowledge(unit: &mut Unit, cycle: &Cycle) -> Option<u8> {
            unit.low = 0;
            Document01::acknowledge(unit, cycle)
        }
    }
    LowOfEveryCycle "every cycle stores the low byte" by scripts {
        fn step(unit: &mut Unit, cycle: &Cycle) -> Answer {
            unit.low = cycle.low;
            Document01::step(unit, cycle)
        }
    }
    LowOfRefused "a refused cycle stores the low byte" by scripts {
        fn step(unit: &mut Unit, cycle: &Cycle) -> Answer {
            let answer = Document01::step(unit, cycle);
            if matches!(answer.kind, Kind::Refused(_)) {
                unit.low = cycle.low;
            }
            answer
        }
    }
    LowWithSup "every cycle with SUP on stores the low byte" by scripts {
        fn step(unit: &mut Unit, cycle: &Cycle) -> Answer {
            let answer = Document01::step(unit, cycle);
            if answer.sup {
                unit.low = cycle.low;
            }
            answer
        }
    }
    LowWithTrapLine "the low byte is stored as the trap line rises, and else not" by scripts {
        fn step(unit: &mut Unit, cycle: &Cycle) -> Answer {
            let (request, low) = (unit.request, unit.low);
            let answer = Document01::step(unit, cycle);
            unit.low = if !request && unit.request { cycle.low } else { low };
            answer
        }
    }
    DistanceOfEveryCycle "every cycle carries a distance" {
        fn step(unit: &mut Unit, cycle: &Cycle) -> Answer {
            carried_by(unit, cycle, |_| true)
        }
    }
    DistanceOfCommand "a command carries a distance" {
        fn step(unit: &mut Unit, cycle: &Cycle) -> Answer {
            carried_by(unit, cycle, |kind| kind == Kind::Command)
        }
    }
    DistanceOfAcknowledge "an acknowledge carries a distance" {
        fn step(unit: &mut Unit, cycle: &Cycle) -> Answer {
            carried_by(unit, cycle, |kind| kind == Kind::Acknowledge)
        }
    }
    DistanceOfReset "a reset cycle carries a distance" {
        fn step(unit: &mut Unit, cycle: &Cycle) -> Answer {
            carried_by(unit, cycle, |kind| kind == Kind::Reset)
        }
    }
    DistanceOfIgnored "an ignored cycle that is no memory cycle carries a distance" {
        fn step(unit: &mut Unit, cycle: &Cycle) -> Answer {
            match Document01::class(cycle) {
                Class::Ignored => carried_by(unit, cycle, |kind| kind == Kind::Ignored),
                _ => Document01::step(unit, cycle),
            }
        }
    }
    DistanceOfRange "a cycle with a number out of range carries a distance" by scripts {
        fn step(unit: &mut Unit, cycle: &Cycle) -> Answer {
            carried_by(unit, cycle, |kind| kind == Kind::Refused(1))
        }
    }
    DistanceOfDamaged "a damaged unit's refusal carries a distance" by scripts {
        fn step(unit: &mut Unit, cycle: &Cycle) -> Answer {
            carried_by(unit, cycle, |kind| kind == Kind::Refused(2))
        }
    }
    DistanceOfBadCommand "a refused command carries a distance" {
        fn step(unit: &mut Unit, cycle: &Cycle) -> Answer {
            carried_by(unit, cycle, |kind| matches!(kind, Kind::Refused(3 | 4)))
        }
    }
}
