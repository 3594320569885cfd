//! Wrong readings of the recording rows.

use super::wrong;
use witness::checks::Finding;
use witness::cycle::Cycle;
use witness::recording::Recording;
use witness::unit::{violation, Unit};
use witness::Document01;

fn primary(unit: &Unit) -> bool {
    unit.vtr & violation::PRIMARY != 0
}

/// Neither an own entry nor a first one.
fn later(unit: &Unit) -> bool {
    primary(unit) && !unit.own
}

/// The row that sets SWW, or finds it standing.
fn second(unit: &Unit, cycle: &Cycle, finding: Finding) -> bool {
    later(unit) && finding == Finding::Warning && Document01::system_stack(cycle)
}

/// The low byte is stored in this row of the recording too, if the cycle is of
/// it.
fn store_low_too(unit: &mut Unit, cycle: &Cycle, finding: Finding, row: bool) {
    Document01::record(unit, cycle, finding);
    if row && finding != Finding::Clean {
        unit.low = cycle.low;
    }
}

/// A store that leaves the low byte, unless it is to be stored.
fn store_low_if(unit: &mut Unit, cycle: &Cycle, stored: bool) {
    let low = unit.low;
    Document01::store(unit, cycle);
    if !stored {
        unit.low = low;
    }
}

wrong! { Recording:
    FatalInOne "FATL is set by two violations of one instruction" {
        fn further_entry(unit: &mut Unit, _cycle: &Cycle, _flags: u8) {
            Document01::fatal(unit);
        }
    }
    OwnWarningLost "a warning of the own instruction adds nothing" {
        fn further_entry(unit: &mut Unit, _cycle: &Cycle, flags: u8) {
            unit.vtr |= flags & !violation::PWW;
        }
    }
    OwnSystemWarning "a system stack warning of the own instruction adds SWW" {
        fn further_entry(unit: &mut Unit, cycle: &Cycle, flags: u8) {
            let system = flags == violation::PWW && Document01::system_stack(cycle);
            unit.vtr |= if system { violation::SWW } else { flags };
        }
    }
    OwnRequests "a further entry of the own instruction requests" by scripts {
        fn further_entry(unit: &mut Unit, cycle: &Cycle, flags: u8) {
            Document01::further_entry(unit, cycle, flags);
            Document01::trap(unit);
        }
    }
    OwnStores "a further entry of the own instruction stores its address" {
        fn further_entry(unit: &mut Unit, cycle: &Cycle, flags: u8) {
            Document01::further_entry(unit, cycle, flags);
            Document01::store(unit, cycle);
        }
    }
    OwnFlagsLost "a further entry of the own instruction adds no flags" {
        fn further_entry(_unit: &mut Unit, _cycle: &Cycle, _flags: u8) {}
    }
    OwnReplacesPww "a violation of the own instruction takes the place of PWW" {
        fn further_entry(unit: &mut Unit, cycle: &Cycle, flags: u8) {
            if flags != violation::PWW {
                unit.vtr &= !violation::PWW;
            }
            Document01::further_entry(unit, cycle, flags);
        }
    }
    OwnSetsNoHold "a violation after the own instruction's first entry sets no hold" {
        fn record(unit: &mut Unit, cycle: &Cycle, finding: Finding) {
            let (own, hold) = (primary(unit) && unit.own, unit.hold);
            Document01::record(unit, cycle, finding);
            if own {
                unit.hold = hold;
            }
        }
    }
    FatalSetsNoHold "a violation that only sets FATL sets no hold" {
        fn record(unit: &mut Unit, cycle: &Cycle, finding: Finding) {
            let (later, hold) = (later(unit), unit.hold);
            Document01::record(unit, cycle, finding);
            if later {
                unit.hold = hold;
            }
        }
    }
    FatalOwns "a fatal violation sets own" {
        fn fatal(unit: &mut Unit) {
            Document01::fatal(unit);
            unit.own = true;
        }
    }
    SecondOwns "a second warning sets own" {
        fn second_warning(unit: &mut Unit) {
            Document01::second_warning(unit);
            unit.own = true;
        }
    }
    WarningOwnsNot "a first warning does not set own" {
        fn first_entry(unit: &mut Unit, cycle: &Cycle, flags: u8) {
            let own = unit.own;
            Document01::first_entry(unit, cycle, flags);
            if flags == violation::PWW {
                unit.own = own;
            }
        }
    }
    WarningHolds "a warning sets hold" {
        fn record(unit: &mut Unit, cycle: &Cycle, finding: Finding) {
            Document01::record(unit, cycle, finding);
            unit.hold |= finding == Finding::Warning;
        }
    }
    FatalWarningHolds "a warning that sets FATL sets hold, as a violation does" {
        fn record(unit: &mut Unit, cycle: &Cycle, finding: Finding) {
            let fatal = later(unit) && !Document01::system_stack(cycle);
            Document01::record(unit, cycle, finding);
            unit.hold |= fatal && finding == Finding::Warning;
        }
    }
    HeldNoWarning "a write suppressed by hold does not warn" {
        fn record(unit: &mut Unit, cycle: &Cycle, finding: Finding) {
            if !(finding == Finding::Warning && unit.hold) {
                Document01::record(unit, cycle, finding);
            }
        }
    }
    AwaitOnce "await is not set again while a request stands" {
        fn trap(unit: &mut Unit) {
            unit.awaits |= !unit.request;
            unit.request = true;
        }
    }
    NoAwait "a trap does not await an aborted fetch" {
        fn trap(unit: &mut Unit) {
            unit.request = true;
        }
    }
    WarningNoTrap "a first warning does not request" {
        fn first_entry(unit: &mut Unit, cycle: &Cycle, flags: u8) {
            let (request, awaits) = (unit.request, unit.awaits);
            Document01::first_entry(unit, cycle, flags);
            if flags == violation::PWW {
                (unit.request, unit.awaits) = (request, awaits);
            }
        }
    }
    WarningStoresNothing "a first warning stores no address" {
        fn first_entry(unit: &mut Unit, cycle: &Cycle, flags: u8) {
            let Unit { vsn, voff, low, bcsr, .. } = *unit;
            Document01::first_entry(unit, cycle, flags);
            if flags == violation::PWW {
                (unit.vsn, unit.voff, unit.low, unit.bcsr) = (vsn, voff, low, bcsr);
            }
        }
    }
    FirstReplaces "a first entry replaces SWW and FATL"
    same "in an undamaged unit neither stands without a primary flag" {
        fn first_entry(unit: &mut Unit, cycle: &Cycle, flags: u8) {
            Document01::first_entry(unit, cycle, flags);
            unit.vtr = flags;
        }
    }
    FirstFatal "a first entry sets FATL too" {
        fn first_entry(unit: &mut Unit, cycle: &Cycle, flags: u8) {
            Document01::first_entry(unit, cycle, flags);
            unit.vtr |= violation::FATL;
        }
    }
    FirstSecond "a system stack warning gives SWW as the first entry too" {
        fn first_entry(unit: &mut Unit, cycle: &Cycle, flags: u8) {
            let second = flags == violation::PWW && Document01::system_stack(cycle);
            Document01::first_entry(unit, cycle, if second { violation::SWW } else { flags });
        }
    }
    SystemStackB "a warning at %B in system mode is of the system stack too" {
        fn system_stack(cycle: &Cycle) -> bool {
            !cycle.normal && matches!(cycle.status, 0x9 | 0xB)
        }
    }
    SystemStackAny "every warning in system mode is of the system stack" {
        fn system_stack(cycle: &Cycle) -> bool {
            !cycle.normal
        }
    }
    SystemStackNormal "a warning at %9 in normal mode is of the system stack too" {
        fn system_stack(cycle: &Cycle) -> bool {
            cycle.status == 0x9
        }
    }
    SystemStackNever "a second warning always sets FATL" {
        fn system_stack(_cycle: &Cycle) -> bool {
            false
        }
    }
    ThirdFatal "a system stack warning with SWW standing sets FATL" {
        fn second_warning(unit: &mut Unit) {
            match unit.vtr & violation::SWW {
                0 => Document01::second_warning(unit),
                _ => Document01::fatal(unit),
            }
        }
    }
    ThirdRequests "a system stack warning with SWW standing requests again" {
        fn second_warning(unit: &mut Unit) {
            if unit.vtr & (violation::SWW | violation::FATL) == violation::SWW {
                Document01::trap(unit);
            }
            Document01::second_warning(unit);
        }
    }
    ThirdClears "a system stack warning with SWW standing takes the request back" {
        fn second_warning(unit: &mut Unit) {
            if unit.vtr & violation::SWW != 0 {
                unit.request = false;
            }
            Document01::second_warning(unit);
        }
    }
    SecondNotFatal "SWW is not set while FATL stands" {
        fn second_warning(unit: &mut Unit) {
            if unit.vtr & violation::FATL == 0 {
                Document01::second_warning(unit);
            }
        }
    }
    SecondAlways "SWW requests while FATL stands too" {
        fn second_warning(unit: &mut Unit) {
            if unit.vtr & violation::SWW == 0 {
                Document01::trap(unit);
            }
            Document01::second_warning(unit);
        }
    }
    SecondNever "SWW does not request" {
        fn second_warning(unit: &mut Unit) {
            unit.vtr |= violation::SWW;
        }
    }
    SecondNoAwait "SWW requests without an aborted fetch" {
        fn second_warning(unit: &mut Unit) {
            let awaits = unit.awaits;
            Document01::second_warning(unit);
            unit.awaits = awaits;
        }
    }
    SecondForPwwOnly "SWW is set only if PWW stands" {
        fn record(unit: &mut Unit, cycle: &Cycle, finding: Finding) {
            let system = finding == Finding::Warning && Document01::system_stack(cycle);
            if later(unit) && system && unit.vtr & violation::PWW == 0 {
                Document01::fatal(unit);
            } else {
                Document01::record(unit, cycle, finding);
            }
        }
    }
    FatalAgain "FATL requests again while it stands" {
        fn fatal(unit: &mut Unit) {
            unit.vtr |= violation::FATL;
            Document01::trap(unit);
        }
    }
    FatalSilent "FATL does not request" {
        fn fatal(unit: &mut Unit) {
            unit.vtr |= violation::FATL;
        }
    }
    FatalNoAwait "FATL requests without an aborted fetch" {
        fn fatal(unit: &mut Unit) {
            let awaits = unit.awaits;
            Document01::fatal(unit);
            unit.awaits = awaits;
        }
    }
    FatalNotByWarning "a warning never sets FATL" {
        fn record(unit: &mut Unit, cycle: &Cycle, finding: Finding) {
            let system = Document01::system_stack(cycle);
            if !(finding == Finding::Warning && later(unit) && !system) {
                Document01::record(unit, cycle, finding);
            }
        }
    }
    FatalNotAtStack "a violation at the system stack sets no FATL" {
        fn record(unit: &mut Unit, cycle: &Cycle, finding: Finding) {
            let stood = unit.clone();
            Document01::record(unit, cycle, finding);
            if later(&stood) && finding != Finding::Warning && Document01::system_stack(cycle) {
                unit.vtr = stood.vtr;
                (unit.request, unit.awaits) = (stood.request, stood.awaits);
            }
        }
    }
    FatalAddsFlags "a fatal violation adds its own flags" {
        fn record(unit: &mut Unit, cycle: &Cycle, finding: Finding) {
            let later = later(unit);
            Document01::record(unit, cycle, finding);
            if let (true, Finding::Violation(flags)) = (later, finding) {
                unit.vtr |= flags;
            }
        }
    }
    FatalStores "a fatal violation stores its address" {
        fn record(unit: &mut Unit, cycle: &Cycle, finding: Finding) {
            let later = later(unit);
            Document01::record(unit, cycle, finding);
            if later && finding != Finding::Clean {
                Document01::store(unit, cycle);
            }
        }
    }
    KeepsInverted "VSN and ISN keep bit 6 inverted" {
        fn kept_segment(cycle: &Cycle) -> u8 {
            cycle.segment ^ 0x40
        }
    }
    KeepsHigh "VSN and ISN keep the seven bits as bits 1 to 7" {
        fn kept_segment(cycle: &Cycle) -> u8 {
            cycle.segment << 1
        }
    }
    VsnSixBits "VSN keeps six bits" {
        fn first_entry(unit: &mut Unit, cycle: &Cycle, flags: u8) {
            Document01::first_entry(unit, cycle, flags);
            unit.vsn = cycle.entry();
        }
    }
    VsnSixOfWarning "VSN keeps six bits of a warning's segment" {
        fn first_entry(unit: &mut Unit, cycle: &Cycle, flags: u8) {
            Document01::first_entry(unit, cycle, flags);
            if flags == violation::PWW {
                unit.vsn = cycle.entry();
            }
        }
    }
    VsnRangeStays "a first entry leaves bit 6 of VSN as it was" {
        fn first_entry(unit: &mut Unit, cycle: &Cycle, flags: u8) {
            let range = unit.vsn & 0x40;
            Document01::first_entry(unit, cycle, flags);
            unit.vsn = cycle.entry() | range;
        }
    }
    VsnRangeSticks "bit 6 of VSN, once set, stays set" {
        fn first_entry(unit: &mut Unit, cycle: &Cycle, flags: u8) {
            let range = unit.vsn & 0x40;
            Document01::first_entry(unit, cycle, flags);
            unit.vsn |= range;
        }
    }
    BcsrWriteBit "BCSR bit 4 is set for a write" {
        fn first_entry(unit: &mut Unit, cycle: &Cycle, flags: u8) {
            Document01::first_entry(unit, cycle, flags);
            unit.bcsr ^= 0x10;
        }
    }
    BcsrSystemBit "BCSR bit 5 is set for system mode" {
        fn first_entry(unit: &mut Unit, cycle: &Cycle, flags: u8) {
            Document01::first_entry(unit, cycle, flags);
            unit.bcsr ^= 0x20;
        }
    }
    BcsrStatusOnly "BCSR keeps the status alone" {
        fn first_entry(unit: &mut Unit, cycle: &Cycle, flags: u8) {
            Document01::first_entry(unit, cycle, flags);
            unit.bcsr &= 0x0F;
        }
    }
    VoffPhysical "VOFF keeps the low byte of base plus offset" {
        fn first_entry(unit: &mut Unit, cycle: &Cycle, flags: u8) {
            Document01::first_entry(unit, cycle, flags);
            let base = unit.table[usize::from(cycle.entry())].base;
            unit.voff = cycle.offset.wrapping_add(base.to_be_bytes()[1]);
        }
    }
    LowSevenBits "seven bits of the low byte are kept" by scripts {
        fn kept_low(cycle: &Cycle) -> u8 {
            cycle.low & 0x7F
        }
    }
    LowOfWord "the low byte is kept as a word's, with bit 0 clear" by scripts {
        fn kept_low(cycle: &Cycle) -> u8 {
            cycle.low & 0xFE
        }
    }
    LowIsOffset "the offset byte is kept in the low byte's place" by scripts {
        fn kept_low(cycle: &Cycle) -> u8 {
            cycle.offset
        }
    }
    LowIsData "the data byte is kept in the low byte's place" by scripts {
        fn kept_low(cycle: &Cycle) -> u8 {
            cycle.data
        }
    }
    LowIsZero "every low byte is kept as 0, as a version 1 trace has it" by scripts {
        fn kept_low(_cycle: &Cycle) -> u8 {
            0
        }
    }
    LowNever "the low byte is never stored" by scripts {
        fn store(unit: &mut Unit, cycle: &Cycle) {
            store_low_if(unit, cycle, false);
        }
    }
    LowOnce "the low byte is stored only if 0 is kept" by scripts {
        fn store(unit: &mut Unit, cycle: &Cycle) {
            store_low_if(unit, cycle, unit.low == 0);
        }
    }
    LowNotZero "a low byte of 0 is not stored" by scripts {
        fn store(unit: &mut Unit, cycle: &Cycle) {
            store_low_if(unit, cycle, cycle.low != 0);
        }
    }
    LowJoins "the low byte's bits are added to those that are kept" by scripts {
        fn store(unit: &mut Unit, cycle: &Cycle) {
            let low = unit.low;
            Document01::store(unit, cycle);
            unit.low |= low;
        }
    }
    LowUntilAcknowledge "the low byte is not stored while a request stands" by scripts {
        fn store(unit: &mut Unit, cycle: &Cycle) {
            store_low_if(unit, cycle, !unit.request);
        }
    }
    LowOncePerInstruction "the low byte is not stored while own stands" by scripts {
        fn store(unit: &mut Unit, cycle: &Cycle) {
            store_low_if(unit, cycle, !unit.own);
        }
    }
    LowInVoff "the low byte is stored in VOFF" {
        fn store(unit: &mut Unit, cycle: &Cycle) {
            Document01::store(unit, cycle);
            unit.voff = cycle.low;
        }
    }
    LowSwapped "VOFF keeps the low byte, and the offset byte is kept beside it" {
        fn store(unit: &mut Unit, cycle: &Cycle) {
            let (offset, low) = (cycle.low, cycle.offset);
            Document01::store(unit, &Cycle { offset, low, ..*cycle });
        }
    }
    LowNotOfWarnings "a first warning leaves the low byte" by scripts {
        fn first_entry(unit: &mut Unit, cycle: &Cycle, flags: u8) {
            let low = unit.low;
            Document01::first_entry(unit, cycle, flags);
            if flags == violation::PWW {
                unit.low = low;
            }
        }
    }
    LowOfWarningsOnly "a first violation leaves the low byte" by scripts {
        fn first_entry(unit: &mut Unit, cycle: &Cycle, flags: u8) {
            let low = unit.low;
            Document01::first_entry(unit, cycle, flags);
            if flags != violation::PWW {
                unit.low = low;
            }
        }
    }
    LowOfLengthOnly "a first violation of rights alone leaves the low byte" by scripts {
        fn first_entry(unit: &mut Unit, cycle: &Cycle, flags: u8) {
            let low = unit.low;
            Document01::first_entry(unit, cycle, flags);
            if flags & (violation::SLV | violation::PWW) == 0 {
                unit.low = low;
            }
        }
    }
    LowOfOwn "a further entry of the own instruction stores the low byte" by scripts {
        fn further_entry(unit: &mut Unit, cycle: &Cycle, flags: u8) {
            Document01::further_entry(unit, cycle, flags);
            unit.low = cycle.low;
        }
    }
    LowOfEveryRow "every row of the recording stores the low byte" by scripts {
        fn record(unit: &mut Unit, cycle: &Cycle, finding: Finding) {
            store_low_too(unit, cycle, finding, true);
        }
    }
    LowOfFatal "FATL stores the low byte" by scripts {
        fn record(unit: &mut Unit, cycle: &Cycle, finding: Finding) {
            let row = later(unit) && !second(unit, cycle, finding);
            store_low_too(unit, cycle, finding, row);
        }
    }
    LowOfFirstFatal "FATL stores the low byte when it is set" by scripts {
        fn record(unit: &mut Unit, cycle: &Cycle, finding: Finding) {
            let clear = unit.vtr & violation::FATL == 0;
            let row = clear && later(unit) && !second(unit, cycle, finding);
            store_low_too(unit, cycle, finding, row);
        }
    }
    LowOfSecond "SWW stores the low byte" by scripts {
        fn record(unit: &mut Unit, cycle: &Cycle, finding: Finding) {
            let row = second(unit, cycle, finding);
            store_low_too(unit, cycle, finding, row);
        }
    }
    LowOfFirstSecond "SWW stores the low byte when it is set" by scripts {
        fn record(unit: &mut Unit, cycle: &Cycle, finding: Finding) {
            let clear = unit.vtr & violation::SWW == 0;
            let row = clear && second(unit, cycle, finding);
            store_low_too(unit, cycle, finding, row);
        }
    }
}
