//! Wrong readings of the commands.

use std::ops::Range;

use super::wrong;
use witness::commands::{code, Commands, Listing};
use witness::cycle::Cycle;
use witness::unit::{attribute, mode, violation, Descriptor, Unit};
use witness::Document01;

/// Clear VTR with something more; other writes as the paper has them.
fn clear_vtr_and(unit: &mut Unit, code: u8, data: u8, more: impl Fn(&mut Unit)) {
    Document01::write_register(unit, code, data);
    if code == code::CLEAR_VTR {
        more(unit);
    }
}

/// Clear VTR that leaves some flags.
fn clear_vtr_but(unit: &mut Unit, code: u8, data: u8, flags: u8) {
    let kept = unit.vtr & flags;
    clear_vtr_and(unit, code, data, |unit| unit.vtr = kept);
}

/// Sets a flag in some descriptors.
fn set_some(unit: &mut Unit, flag: u8, entries: Range<usize>) {
    for descriptor in &mut unit.table[entries] {
        descriptor.attributes |= flag;
    }
}

/// The listing with this code as one that can be read and not written.
fn listing_with(shown: u8, code: u8) -> Listing {
    Document01::listing(if code == shown { code::VOFF } else { code })
}

/// Reads the low byte with this code; others as the paper has them.
fn read_low(unit: &Unit, shown: u8, code: u8) -> u8 {
    match code == shown {
        true => unit.low,
        false => Document01::read_register(unit, code),
    }
}

/// The segment with URS, as it stands in MR, as bit 6.
fn in_range(unit: &Unit, segment: u8) -> u8 {
    let range = if unit.mode(mode::URS) { 64 } else { 0 };
    segment % 64 + range
}

wrong! { Commands:
    ListsTwelve "%12 is listed, as a clear command" {
        fn listing(code: u8) -> Listing {
            Document01::listing(if code == 0x12 { code::CLEAR_VTR } else { code })
        }
        fn write_register(unit: &mut Unit, code: u8, data: u8) {
            if code != 0x12 {
                Document01::write_register(unit, code, data);
            }
        }
    }
    UnlistedIgnored "a write with a code not listed is obeyed and changes nothing" {
        fn command_refusal(cycle: &Cycle) -> Option<u8> {
            Document01::command_refusal(cycle).filter(|&number| number != 3 || cycle.read)
        }
        fn write_register(unit: &mut Unit, code: u8, data: u8) {
            if Document01::listing(code) != Listing::NotListed {
                Document01::write_register(unit, code, data);
            }
        }
    }
    LowSixBits "only the low six bits of a code count" {
        fn command_refusal(cycle: &Cycle) -> Option<u8> {
            Document01::command_refusal(&Cycle { offset: cycle.offset & 0x3F, ..*cycle })
        }
        fn command(unit: &mut Unit, cycle: &Cycle) -> Option<u8> {
            Document01::command(unit, &Cycle { offset: cycle.offset & 0x3F, ..*cycle })
        }
    }
    UnlistedReads "a read with a code not listed is refused 4" {
        fn command_refusal(cycle: &Cycle) -> Option<u8> {
            let refusal = Document01::command_refusal(cycle);
            refusal.map(|number| if cycle.read { 4 } else { number })
        }
    }
    WrongWayIsThree "a command in the wrong direction is refused 3" {
        fn command_refusal(cycle: &Cycle) -> Option<u8> {
            Document01::command_refusal(cycle).and(Some(3))
        }
    }
    ReadOnlyIgnores "a write to a read-only register is obeyed and changes nothing" {
        fn command_refusal(cycle: &Cycle) -> Option<u8> {
            let read_only = matches!(cycle.offset, code::VTR..=code::IOFF);
            Document01::command_refusal(cycle).filter(|_| !read_only)
        }
        fn write_register(unit: &mut Unit, code: u8, data: u8) {
            if !matches!(code, code::VTR..=code::IOFF) {
                Document01::write_register(unit, code, data);
            }
        }
    }
    ResetReads "software reset may be read" {
        fn command_refusal(cycle: &Cycle) -> Option<u8> {
            Document01::command_refusal(cycle).filter(|_| cycle.offset != code::RESET)
        }
        fn read_register(unit: &Unit, code: u8) -> u8 {
            match code {
                code::RESET => 0,
                _ => Document01::read_register(unit, code),
            }
        }
    }
    SetReads "a read of a set or clear command works as its write does" {
        fn command_refusal(cycle: &Cycle) -> Option<u8> {
            let one_way = Document01::listing(cycle.offset) == Listing::WriteOnly;
            Document01::command_refusal(cycle).filter(|_| !one_way)
        }
        fn command(unit: &mut Unit, cycle: &Cycle) -> Option<u8> {
            let one_way = Document01::listing(cycle.offset) == Listing::WriteOnly;
            Document01::command(unit, &Cycle { read: cycle.read && !one_way, ..*cycle })
        }
    }
    DscrReadOnly "DSCR can only be read" {
        fn listing(code: u8) -> Listing {
            Document01::listing(if code == code::DSCR { code::VTR } else { code })
        }
    }
    SarKeepsSeven "SAR keeps seven bits" {
        fn write_register(unit: &mut Unit, code: u8, data: u8) {
            Document01::write_register(unit, code, data);
            if code == code::SAR {
                unit.sar = data & 0x7F;
            }
        }
    }
    SarClamps "SAR above 63 is written as 63" {
        fn write_register(unit: &mut Unit, code: u8, data: u8) {
            Document01::write_register(unit, code, data);
            if code == code::SAR {
                unit.sar = data.min(63);
            }
        }
    }
    SarClearsDscr "a write of SAR clears DSCR" {
        fn write_register(unit: &mut Unit, code: u8, data: u8) {
            Document01::write_register(unit, code, data);
            if code == code::SAR {
                unit.dscr = 0;
            }
        }
    }
    DscrKeepsEight "DSCR keeps all bits" {
        fn write_register(unit: &mut Unit, code: u8, data: u8) {
            Document01::write_register(unit, code, data);
            if code == code::DSCR {
                unit.dscr = data;
            }
        }
    }
    DscrKeepsOne "DSCR keeps one bit" {
        fn write_register(unit: &mut Unit, code: u8, data: u8) {
            Document01::write_register(unit, code, data);
            if code == code::DSCR {
                unit.dscr = data & 1;
            }
        }
    }
    SoftwareResetLikeHardware "software reset leaves MR %80, as a reset with select on" {
        fn software_reset(unit: &mut Unit) {
            Document01::software_reset(unit);
            unit.mr = mode::MSEN;
        }
    }
    SoftwareResetLeavesOrphan "software reset leaves SWW and FATL" {
        fn software_reset(unit: &mut Unit) {
            let kept = unit.vtr & !violation::PRIMARY;
            Document01::software_reset(unit);
            unit.vtr = kept;
        }
    }
    SoftwareResetLeavesRequest "software reset leaves request and await" {
        fn software_reset(unit: &mut Unit) {
            let (request, awaits) = (unit.request, unit.awaits);
            Document01::software_reset(unit);
            (unit.request, unit.awaits) = (request, awaits);
        }
    }
    SoftwareResetClearsRange "software reset clears bit 6 of VSN and ISN, as it clears URS" {
        fn software_reset(unit: &mut Unit) {
            Document01::software_reset(unit);
            (unit.vsn, unit.isn) = (unit.vsn % 64, unit.isn % 64);
        }
    }
    ClearVtrRange "clear VTR clears bit 6 of VSN" {
        fn write_register(unit: &mut Unit, code: u8, data: u8) {
            clear_vtr_and(unit, code, data, |unit| unit.vsn %= 64);
        }
    }
    ClearVtrOwn "clear VTR clears own" by scripts {
        fn write_register(unit: &mut Unit, code: u8, data: u8) {
            clear_vtr_and(unit, code, data, |unit| unit.own = false);
        }
    }
    ClearVtrPrimary "clear VTR leaves SWW and FATL" {
        fn write_register(unit: &mut Unit, code: u8, data: u8) {
            clear_vtr_but(unit, code, data, !violation::PRIMARY);
        }
    }
    ClearVtrLeavesSww "clear VTR leaves SWW" {
        fn write_register(unit: &mut Unit, code: u8, data: u8) {
            clear_vtr_but(unit, code, data, violation::SWW);
        }
    }
    ClearVtrLeavesFatl "clear VTR leaves FATL" {
        fn write_register(unit: &mut Unit, code: u8, data: u8) {
            clear_vtr_but(unit, code, data, violation::FATL);
        }
    }
    ClearSwwPww "clear SWW clears PWW too" {
        fn write_register(unit: &mut Unit, code: u8, data: u8) {
            Document01::write_register(unit, code, data);
            if code == code::CLEAR_SWW {
                unit.vtr &= !violation::PWW;
            }
        }
    }
    ClearFatlAll "clear FATL clears SWW too" {
        fn write_register(unit: &mut Unit, code: u8, data: u8) {
            Document01::write_register(unit, code, data);
            if code == code::CLEAR_FATL {
                unit.vtr &= !violation::SWW;
            }
        }
    }
    ClearsSwapped "the codes of clear SWW and clear FATL are swapped" {
        fn write_register(unit: &mut Unit, code: u8, data: u8) {
            let code = match code {
                code::CLEAR_SWW => code::CLEAR_FATL,
                code::CLEAR_FATL => code::CLEAR_SWW,
                code => code,
            };
            Document01::write_register(unit, code, data);
        }
    }
    SetAllAtSar "set all CPUI and set all DMAI set one, at SAR" {
        fn set_all(unit: &mut Unit, flag: u8) {
            unit.table[usize::from(unit.sar)].attributes |= flag;
        }
    }
    SetAllReplaces "set all CPUI and set all DMAI write the whole attribute byte" {
        fn set_all(unit: &mut Unit, flag: u8) {
            for descriptor in &mut unit.table {
                descriptor.attributes = flag;
            }
        }
    }
    SetAllFromOne "set all CPUI and set all DMAI skip descriptor 0" {
        fn set_all(unit: &mut Unit, flag: u8) {
            set_some(unit, flag, 1..64);
        }
    }
    SetAllToLast "set all CPUI and set all DMAI skip descriptor 63" {
        fn set_all(unit: &mut Unit, flag: u8) {
            set_some(unit, flag, 0..63);
        }
    }
    SetAllLower "set all CPUI and set all DMAI set descriptors 0 to 31" {
        fn set_all(unit: &mut Unit, flag: u8) {
            set_some(unit, flag, 0..32);
        }
    }
    SetAllUpper "set all CPUI and set all DMAI set descriptors 32 to 63" {
        fn set_all(unit: &mut Unit, flag: u8) {
            set_some(unit, flag, 32..64);
        }
    }
    SetAllUsed "set all CPUI and set all DMAI set used descriptors only" {
        fn set_all(unit: &mut Unit, flag: u8) {
            for descriptor in &mut unit.table {
                if descriptor.has(attribute::REF) {
                    descriptor.attributes |= flag;
                }
            }
        }
    }
    SetsSwapped "the codes of set all CPUI and set all DMAI are swapped" {
        fn set_all(unit: &mut Unit, flag: u8) {
            Document01::set_all(unit, flag ^ (attribute::CPUI | attribute::DMAI));
        }
    }
    SetTakesData "set and clear commands work only with a data byte other than 0" {
        fn write_register(unit: &mut Unit, code: u8, data: u8) {
            if data != 0 || Document01::listing(code) == Listing::Both {
                Document01::write_register(unit, code, data);
            }
        }
    }
    BaseLowFirst "the base moves low byte first" {
        fn byte_number(code: u8, dscr: u8) -> u8 {
            match Document01::byte_number(code, dscr) {
                0 => 1,
                1 => 0,
                number => number,
            }
        }
    }
    LimitLast "byte 2 is the attributes and byte 3 the limit" {
        fn byte_number(code: u8, dscr: u8) -> u8 {
            match Document01::byte_number(code, dscr) {
                2 => 3,
                3 => 2,
                number => number,
            }
        }
    }
    BaseStaysInBase "%08 and %0C with DSCR 2 or 3 move a byte of the base" {
        fn byte_number(code: u8, dscr: u8) -> u8 {
            match code % 4 {
                0 => dscr & 1,
                _ => Document01::byte_number(code, dscr),
            }
        }
    }
    BaseGoesOn "%08 and %0C move DSCR up modulo 4" {
        fn next_dscr(code: u8, dscr: u8) -> u8 {
            match code % 4 {
                0 => (dscr + 1) % 4,
                _ => Document01::next_dscr(code, dscr),
            }
        }
    }
    BaseAlternates "%08 and %0C turn bit 0 of DSCR round" {
        fn next_dscr(code: u8, dscr: u8) -> u8 {
            match code % 4 {
                0 => dscr ^ 1,
                _ => Document01::next_dscr(code, dscr),
            }
        }
    }
    SingleLeavesDscr "%09, %0A, %0D and %0E leave DSCR as it was" {
        fn next_dscr(code: u8, dscr: u8) -> u8 {
            match code % 4 {
                1 | 2 => dscr,
                _ => Document01::next_dscr(code, dscr),
            }
        }
    }
    SingleStepsFromZero "%0D and %0E step SAR only if DSCR was 0" {
        fn advance(unit: &mut Unit, cycle: &Cycle) {
            let stays = matches!(cycle.offset, 0x0D | 0x0E) && unit.dscr != 0;
            let sar = unit.sar;
            Document01::advance(unit, cycle);
            if stays {
                unit.sar = sar;
            }
        }
    }
    SingleByDscr "%09, %0A, %0D and %0E use byte DSCR" {
        fn byte_number(_code: u8, dscr: u8) -> u8 {
            dscr
        }
    }
    WholeStops "%0B and %0F stop at byte 3" {
        fn next_dscr(code: u8, dscr: u8) -> u8 {
            match code % 4 {
                3 => (dscr + 1).min(3),
                _ => Document01::next_dscr(code, dscr),
            }
        }
    }
    WholeTurnsEarly "%0B and %0F move DSCR up modulo 2" {
        fn next_dscr(code: u8, dscr: u8) -> u8 {
            match code % 4 {
                3 => (dscr + 1) % 2,
                _ => Document01::next_dscr(code, dscr),
            }
        }
    }
    ReadsStay "reads of a descriptor move neither DSCR nor SAR" {
        fn advance(unit: &mut Unit, cycle: &Cycle) {
            if !cycle.read {
                Document01::advance(unit, cycle);
            }
        }
    }
    ReadsDoNotStep "reads of a descriptor do not step SAR" {
        fn advance(unit: &mut Unit, cycle: &Cycle) {
            let sar = unit.sar;
            Document01::advance(unit, cycle);
            if cycle.read {
                unit.sar = sar;
            }
        }
    }
    StepsEachByte "the stepping forms step SAR at every byte" {
        fn advance(unit: &mut Unit, cycle: &Cycle) {
            unit.dscr = Document01::next_dscr(cycle.offset, unit.dscr);
            if cycle.offset >= code::STEPPING {
                unit.sar = (unit.sar + 1) % 64;
            }
        }
    }
    StepsBeyond "SAR steps from 63 to 64" {
        fn advance(unit: &mut Unit, cycle: &Cycle) {
            let last = unit.sar == 63;
            Document01::advance(unit, cycle);
            if last && unit.sar == 0 {
                unit.sar = 64;
            }
        }
    }
    NeverSteps "the stepping forms do not step" {
        fn advance(unit: &mut Unit, cycle: &Cycle) {
            unit.dscr = Document01::next_dscr(cycle.offset, unit.dscr);
        }
    }
    ReadsAfterStep "a stepping read drives the byte found after stepping" {
        fn descriptor_command(unit: &mut Unit, cycle: &Cycle) -> Option<u8> {
            let driven = Document01::descriptor_command(unit, cycle);
            let number = Document01::byte_number(cycle.offset, unit.dscr);
            let byte = Document01::read_byte(&unit.table[usize::from(unit.sar)], number);
            driven.and(Some(byte))
        }
    }
    AtSegment "descriptor commands work on the cycle's segment" {
        fn descriptor_command(unit: &mut Unit, cycle: &Cycle) -> Option<u8> {
            let sar = std::mem::replace(&mut unit.sar, cycle.entry());
            let driven = Document01::descriptor_command(unit, cycle);
            let stepped = unit.sar != cycle.entry();
            unit.sar = if stepped { (sar + 1) % 64 } else { sar };
            driven
        }
    }
    WritesDrive "a write drives its data byte" {
        fn command(unit: &mut Unit, cycle: &Cycle) -> Option<u8> {
            Document01::command(unit, cycle).or(Some(cycle.data))
        }
    }
    AttributesKeepMarks "a write of attributes leaves REF and CHG" {
        fn write_byte(descriptor: &mut Descriptor, number: u8, data: u8) {
            let marks = descriptor.attributes & (attribute::REF | attribute::CHG);
            Document01::write_byte(descriptor, number, data);
            if number == 3 {
                descriptor.attributes = data & 0x3F | marks;
            }
        }
    }
    AttributesClearMarks "a write of attributes clears REF and CHG" {
        fn write_byte(descriptor: &mut Descriptor, number: u8, data: u8) {
            Document01::write_byte(descriptor, number, data);
            if number == 3 {
                descriptor.attributes = data & 0x3F;
            }
        }
    }
    ReadClearsVtr "a read of the VTR clears it" {
        fn command(unit: &mut Unit, cycle: &Cycle) -> Option<u8> {
            let driven = Document01::command(unit, cycle);
            if cycle.offset == code::VTR {
                unit.vtr = 0;
            }
            driven
        }
    }
    VsnReadsSix "a read of VSN shows six bits" {
        fn read_register(unit: &Unit, code: u8) -> u8 {
            match code {
                code::VSN => unit.vsn % 64,
                _ => Document01::read_register(unit, code),
            }
        }
    }
    IsnReadsSix "a read of ISN shows six bits" {
        fn read_register(unit: &Unit, code: u8) -> u8 {
            match code {
                code::ISN => unit.isn % 64,
                _ => Document01::read_register(unit, code),
            }
        }
    }
    VsnReadsRange "a read of VSN shows URS as it stands in MR as bit 6" {
        fn read_register(unit: &Unit, code: u8) -> u8 {
            match code {
                code::VSN => in_range(unit, unit.vsn),
                _ => Document01::read_register(unit, code),
            }
        }
    }
    IsnReadsRange "a read of ISN shows URS as it stands in MR as bit 6" {
        fn read_register(unit: &Unit, code: u8) -> u8 {
            match code {
                code::ISN => in_range(unit, unit.isn),
                _ => Document01::read_register(unit, code),
            }
        }
    }
    RegistersSwapped "%03 is VOFF and %04 is VSN" {
        fn read_register(unit: &Unit, code: u8) -> u8 {
            match code {
                code::VSN => unit.voff,
                code::VOFF => unit.vsn,
                _ => Document01::read_register(unit, code),
            }
        }
    }
    ModeRenewsRange "a write of MR puts its URS into bit 6 of VSN and ISN" {
        fn write_register(unit: &mut Unit, code: u8, data: u8) {
            Document01::write_register(unit, code, data);
            if code == code::MR {
                (unit.vsn, unit.isn) = (in_range(unit, unit.vsn), in_range(unit, unit.isn));
            }
        }
    }
    ModeClearsNotes "a write of MR clears hold" {
        fn write_register(unit: &mut Unit, code: u8, data: u8) {
            Document01::write_register(unit, code, data);
            if code == code::MR {
                unit.hold = false;
            }
        }
    }
    CommandEndsHold "any command ends the hold" {
        fn command(unit: &mut Unit, cycle: &Cycle) -> Option<u8> {
            unit.hold = false;
            Document01::command(unit, cycle)
        }
    }
    CommandsNeedMsen "with MSEN clear only MR can be written" {
        fn command(unit: &mut Unit, cycle: &Cycle) -> Option<u8> {
            match cycle.read || cycle.offset == code::MR || unit.mode(mode::MSEN) {
                true => Document01::command(unit, cycle),
                false => None,
            }
        }
    }
    VoffReadsLow "a read of VOFF shows the low byte" {
        fn read_register(unit: &Unit, code: u8) -> u8 {
            read_low(unit, code::VOFF, code)
        }
    }
    BcsrReadsLow "a read with the code after VOFF's, %05, shows the low byte" {
        fn read_register(unit: &Unit, code: u8) -> u8 {
            read_low(unit, code::BCSR, code)
        }
    }
    VoffReadsByDscr "a read of VOFF shows the low byte while DSCR is not 0" {
        fn read_register(unit: &Unit, code: u8) -> u8 {
            match unit.dscr {
                0 => Document01::read_register(unit, code),
                _ => read_low(unit, code::VOFF, code),
            }
        }
    }
    TwelveReadsLow "%12 is listed, and a read shows the low byte" {
        fn listing(code: u8) -> Listing {
            listing_with(0x12, code)
        }
        fn read_register(unit: &Unit, code: u8) -> u8 {
            read_low(unit, 0x12, code)
        }
    }
    SeventeenReadsLow "%17 is listed, and a read shows the low byte" {
        fn listing(code: u8) -> Listing {
            listing_with(0x17, code)
        }
        fn read_register(unit: &Unit, code: u8) -> u8 {
            read_low(unit, 0x17, code)
        }
    }
    VoffWritesLow "a write with VOFF's code sets the low byte" {
        fn command_refusal(cycle: &Cycle) -> Option<u8> {
            Document01::command_refusal(cycle).filter(|_| cycle.offset != code::VOFF)
        }
        fn write_register(unit: &mut Unit, code: u8, data: u8) {
            match code {
                code::VOFF => unit.low = data,
                _ => Document01::write_register(unit, code, data),
            }
        }
    }
    VoffReadClearsLow "a read of VOFF clears the low byte" by scripts {
        fn command(unit: &mut Unit, cycle: &Cycle) -> Option<u8> {
            if cycle.offset == code::VOFF {
                unit.low = 0;
            }
            Document01::command(unit, cycle)
        }
    }
    ClearVtrLow "clear VTR clears the low byte" by scripts {
        fn write_register(unit: &mut Unit, code: u8, data: u8) {
            clear_vtr_and(unit, code, data, |unit| unit.low = 0);
        }
    }
    ClearFlagLow "clear SWW and clear FATL clear the low byte" by scripts {
        fn write_register(unit: &mut Unit, code: u8, data: u8) {
            Document01::write_register(unit, code, data);
            if matches!(code, code::CLEAR_SWW | code::CLEAR_FATL) {
                unit.low = 0;
            }
        }
    }
    ModeClearsLow "a write of MR clears the low byte" by scripts {
        fn write_register(unit: &mut Unit, code: u8, data: u8) {
            Document01::write_register(unit, code, data);
            if code == code::MR {
                unit.low = 0;
            }
        }
    }
    SoftwareResetClearsLow "software reset clears the low byte" by scripts {
        fn software_reset(unit: &mut Unit) {
            Document01::software_reset(unit);
            unit.low = 0;
        }
    }
}
