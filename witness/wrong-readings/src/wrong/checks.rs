//! Wrong readings of the checks, of the warning and of the distance.

use super::wrong;
use witness::checks::{Checks, Finding};
use witness::cycle::Cycle;
use witness::unit::{attribute, violation, Descriptor};
use witness::Document01;

/// In the last block that is permitted upward.
fn at_limit(descriptor: &Descriptor, cycle: &Cycle) -> bool {
    !descriptor.has(attribute::DIRW) && cycle.offset == descriptor.limit
}

fn violates(descriptor: &Descriptor, cycle: &Cycle) -> bool {
    matches!(Document01::check(descriptor, cycle), Finding::Violation(_))
}

/// The right distance where a wrong reading has one, else 0.
fn distance_if(carried: bool, descriptor: &Descriptor, cycle: &Cycle) -> u8 {
    match carried {
        true => Document01::distance(descriptor, cycle),
        false => 0,
    }
}

/// Another distance, but 0 in a length violation.
fn inside(distance: u8, descriptor: &Descriptor, cycle: &Cycle) -> u8 {
    match Document01::outside(descriptor, cycle) {
        true => 0,
        false => distance,
    }
}

/// The same in one direction, and the right distance in the other.
fn inside_if(dirw: bool, distance: u8, descriptor: &Descriptor, cycle: &Cycle) -> u8 {
    match descriptor.has(attribute::DIRW) == dirw {
        true => inside(distance, descriptor, cycle),
        false => Document01::distance(descriptor, cycle),
    }
}

/// Another distance in a length violation of one direction.
fn beyond_if(dirw: bool, distance: u8, descriptor: &Descriptor, cycle: &Cycle) -> u8 {
    let beyond = Document01::outside(descriptor, cycle);
    match beyond && descriptor.has(attribute::DIRW) == dirw {
        true => distance,
        false => Document01::distance(descriptor, cycle),
    }
}

wrong! { Checks:
    LimitExcluded "the block at the limit is outside, upward" {
        fn outside(descriptor: &Descriptor, cycle: &Cycle) -> bool {
            Document01::outside(descriptor, cycle) || at_limit(descriptor, cycle)
        }
    }
    StackLimitExcluded "the block at the limit is outside, downward" {
        fn outside(descriptor: &Descriptor, cycle: &Cycle) -> bool {
            let down = descriptor.has(attribute::DIRW);
            Document01::outside(descriptor, cycle) || down && cycle.offset == descriptor.limit
        }
    }
    StackEdgeTooLow "the block below the limit is inside, downward" {
        fn outside(descriptor: &Descriptor, cycle: &Cycle) -> bool {
            let below = descriptor.has(attribute::DIRW) && cycle.offset.checked_add(1) == Some(descriptor.limit);
            Document01::outside(descriptor, cycle) && !below
        }
    }
    LimitEdgeTooHigh "the block above the limit is inside, upward" {
        fn outside(descriptor: &Descriptor, cycle: &Cycle) -> bool {
            let above = !descriptor.has(attribute::DIRW) && descriptor.limit.checked_add(1) == Some(cycle.offset);
            Document01::outside(descriptor, cycle) && !above
        }
    }
    StackOfLimitBlocks "a DIRW range is measured as limit + 1 blocks from the top" {
        fn outside(descriptor: &Descriptor, cycle: &Cycle) -> bool {
            match descriptor.has(attribute::DIRW) {
                true => cycle.offset < 0xFF - descriptor.limit,
                false => Document01::outside(descriptor, cycle),
            }
        }
    }
    StackUpward "the length check does not look at DIRW" {
        fn outside(descriptor: &Descriptor, cycle: &Cycle) -> bool {
            cycle.offset > descriptor.limit
        }
    }
    LimitZeroOpen "a limit of 0 is no limit" {
        fn outside(descriptor: &Descriptor, cycle: &Cycle) -> bool {
            descriptor.limit != 0 && Document01::outside(descriptor, cycle)
        }
    }
    LimitTopOpen "a limit of %FF is no limit, downward too" {
        fn outside(descriptor: &Descriptor, cycle: &Cycle) -> bool {
            descriptor.limit != 0xFF && Document01::outside(descriptor, cycle)
        }
    }
    WarnsAtTop "the warning block of a stack is at the top" {
        fn warns(descriptor: &Descriptor, cycle: &Cycle) -> bool {
            let limit = 0xFF;
            Document01::warns(&Descriptor { limit, ..*descriptor }, cycle)
        }
    }
    WarnsAbove "the warning block is the one above the limit" {
        fn warns(descriptor: &Descriptor, cycle: &Cycle) -> bool {
            let limit = descriptor.limit.wrapping_add(1);
            Document01::warns(&Descriptor { limit, ..*descriptor }, cycle)
        }
    }
    WarnsReads "a read at a stack's limit warns" {
        fn warns(descriptor: &Descriptor, cycle: &Cycle) -> bool {
            Document01::warns(descriptor, &Cycle { read: false, ..*cycle })
        }
    }
    WarnsUpward "a write at the limit warns without DIRW too" {
        fn warns(descriptor: &Descriptor, cycle: &Cycle) -> bool {
            let attributes = descriptor.attributes | attribute::DIRW;
            Document01::warns(&Descriptor { attributes, ..*descriptor }, cycle)
        }
    }
    WarnsAtStackStatus "only status %9 and %B warn" {
        fn warns(descriptor: &Descriptor, cycle: &Cycle) -> bool {
            matches!(cycle.status, 0x9 | 0xB) && Document01::warns(descriptor, cycle)
        }
    }
    WarnsNotInCode "writes at %C and %D do not warn" {
        fn warns(descriptor: &Descriptor, cycle: &Cycle) -> bool {
            !matches!(cycle.status, 0xC | 0xD) && Document01::warns(descriptor, cycle)
        }
    }
    WarnsDma "a DMA write at a stack's limit is a warning"
    same "DMA records nothing, and a warning alone changes nothing else" {
        fn warns(descriptor: &Descriptor, cycle: &Cycle) -> bool {
            Document01::warns(descriptor, &Cycle { dma: false, ..*cycle })
        }
    }
    WarnsWithViolation "a violation at a stack's limit adds PWW" {
        fn check(descriptor: &Descriptor, cycle: &Cycle) -> Finding {
            match Document01::check(descriptor, cycle) {
                Finding::Violation(flags) if Document01::warns(descriptor, cycle) => {
                    Finding::Violation(flags | violation::PWW)
                }
                finding => finding,
            }
        }
    }
    OneFlag "only the lowest flag of a violation counts" {
        fn violation_flags(descriptor: &Descriptor, cycle: &Cycle) -> u8 {
            let flags = Document01::violation_flags(descriptor, cycle);
            flags & flags.wrapping_neg()
        }
    }
    FlagsAsAttributes "the VTR has CPUIV and EXCV at the bits of CPUI and EXC, SLV above" {
        fn violation_flags(descriptor: &Descriptor, cycle: &Cycle) -> u8 {
            let flags = Document01::violation_flags(descriptor, cycle);
            let length = if flags & violation::SLV != 0 { 0x10 } else { 0 };
            flags & 0x03 | (flags & 0x18) >> 1 | length
        }
    }
    ReadOnlyReads "RD forbids reads" {
        fn read_only(descriptor: &Descriptor, cycle: &Cycle) -> bool {
            Document01::read_only(descriptor, &Cycle { read: !cycle.read, ..*cycle })
        }
    }
    SystemReversed "SYS forbids system mode" {
        fn system_only(descriptor: &Descriptor, cycle: &Cycle) -> bool {
            Document01::system_only(descriptor, &Cycle { normal: !cycle.normal, ..*cycle })
        }
    }
    ExecuteFirstWord "EXC allows status %D alone" {
        fn execute_only(descriptor: &Descriptor, cycle: &Cycle) -> bool {
            descriptor.has(attribute::EXC) && cycle.status != 0xD
        }
    }
    ExecuteLaterWords "EXC allows status %C alone" {
        fn execute_only(descriptor: &Descriptor, cycle: &Cycle) -> bool {
            descriptor.has(attribute::EXC) && cycle.status != 0xC
        }
    }
    ExecuteNotWrites "EXC forbids writes at %C and %D" {
        fn execute_only(descriptor: &Descriptor, cycle: &Cycle) -> bool {
            let writes = descriptor.has(attribute::EXC) && cycle.write();
            writes || Document01::execute_only(descriptor, cycle)
        }
    }
    ExecuteReversed "EXC forbids execution" {
        fn execute_only(descriptor: &Descriptor, cycle: &Cycle) -> bool {
            descriptor.has(attribute::EXC) && matches!(cycle.status, 0xC | 0xD)
        }
    }
    CpuInhibitsAll "CPUI stops DMA as well" {
        fn cpu_inhibited(descriptor: &Descriptor, _cycle: &Cycle) -> bool {
            descriptor.has(attribute::CPUI)
        }
    }
    DmaInhibitsAll "DMAI stops the CPU as well" {
        fn dma_inhibited(descriptor: &Descriptor, _cycle: &Cycle) -> bool {
            descriptor.has(attribute::DMAI)
        }
    }
    InhibitsSwapped "CPUI stops DMA and DMAI the CPU" {
        fn cpu_inhibited(descriptor: &Descriptor, cycle: &Cycle) -> bool {
            descriptor.has(attribute::DMAI) && !cycle.dma
        }
        fn dma_inhibited(descriptor: &Descriptor, cycle: &Cycle) -> bool {
            descriptor.has(attribute::CPUI) && cycle.dma
        }
    }
    LowEndsBlock "the last byte of the block at the limit is outside, upward" by scripts {
        fn outside(descriptor: &Descriptor, cycle: &Cycle) -> bool {
            let end = at_limit(descriptor, cycle) && cycle.low == 0xFF;
            Document01::outside(descriptor, cycle) || end
        }
    }
    LowInLimit "in the block at the limit only a low byte of 0 is inside, upward" by scripts {
        fn outside(descriptor: &Descriptor, cycle: &Cycle) -> bool {
            let beyond = at_limit(descriptor, cycle) && cycle.low != 0;
            Document01::outside(descriptor, cycle) || beyond
        }
    }
    WarnsAtLowZero "only a write with a low byte of 0 warns" by scripts {
        fn warns(descriptor: &Descriptor, cycle: &Cycle) -> bool {
            cycle.low == 0 && Document01::warns(descriptor, cycle)
        }
    }
    WarnsInLowHalf "only a write in the lower half of the block at the limit warns" by scripts {
        fn warns(descriptor: &Descriptor, cycle: &Cycle) -> bool {
            cycle.low < 0x80 && Document01::warns(descriptor, cycle)
        }
    }
    DistanceNotInViolation "in any violation the distance is 0" {
        fn distance(descriptor: &Descriptor, cycle: &Cycle) -> u8 {
            distance_if(!violates(descriptor, cycle), descriptor, cycle)
        }
    }
    DistanceNotInDmaViolation "in a DMA violation the distance is 0" {
        fn distance(descriptor: &Descriptor, cycle: &Cycle) -> u8 {
            distance_if(!cycle.dma || !violates(descriptor, cycle), descriptor, cycle)
        }
    }
    DistanceNotInhibited "CPUI for the CPU and DMAI for DMA permit no block: the distance is 0" {
        fn distance(descriptor: &Descriptor, cycle: &Cycle) -> u8 {
            let inhibited = Document01::cpu_inhibited(descriptor, cycle)
                || Document01::dma_inhibited(descriptor, cycle);
            distance_if(!inhibited, descriptor, cycle)
        }
    }
    DistanceNotOfWarning "in a warning the distance is 0"
    same "a warning is at the limit, where it is 0" {
        fn distance(descriptor: &Descriptor, cycle: &Cycle) -> u8 {
            let warning = Document01::check(descriptor, cycle) == Finding::Warning;
            distance_if(!warning, descriptor, cycle)
        }
    }
    DistanceNotForDma "for DMA the distance is 0" {
        fn distance(descriptor: &Descriptor, cycle: &Cycle) -> u8 {
            distance_if(!cycle.dma, descriptor, cycle)
        }
    }
    DistanceOfStacks "only a segment with DIRW has a distance" {
        fn distance(descriptor: &Descriptor, cycle: &Cycle) -> u8 {
            distance_if(descriptor.has(attribute::DIRW), descriptor, cycle)
        }
    }
    DistanceAtStackStatus "only status %9 and %B have a distance" {
        fn distance(descriptor: &Descriptor, cycle: &Cycle) -> u8 {
            distance_if(matches!(cycle.status, 0x9 | 0xB), descriptor, cycle)
        }
    }
    DistanceNotOfProgram "status %C and %D have no distance" {
        fn distance(descriptor: &Descriptor, cycle: &Cycle) -> u8 {
            distance_if(!matches!(cycle.status, 0xC | 0xD), descriptor, cycle)
        }
    }
    DistanceOfWrites "only writes have a distance" {
        fn distance(descriptor: &Descriptor, cycle: &Cycle) -> u8 {
            distance_if(cycle.write(), descriptor, cycle)
        }
    }
    DistanceOfReads "only reads have a distance" {
        fn distance(descriptor: &Descriptor, cycle: &Cycle) -> u8 {
            distance_if(cycle.read, descriptor, cycle)
        }
    }
    DistanceWithAccessed "the accessed block counts, upward: limit + 1 less offset byte" {
        fn distance(descriptor: &Descriptor, cycle: &Cycle) -> u8 {
            let more = Document01::distance(descriptor, cycle).saturating_add(1);
            inside_if(false, more, descriptor, cycle)
        }
    }
    DistanceWithAccessedStack "the accessed block counts, downward: offset byte + 1 less limit" {
        fn distance(descriptor: &Descriptor, cycle: &Cycle) -> u8 {
            let more = Document01::distance(descriptor, cycle).saturating_add(1);
            inside_if(true, more, descriptor, cycle)
        }
    }
    DistanceWithoutLast "the last permitted block does not count, upward" {
        fn distance(descriptor: &Descriptor, cycle: &Cycle) -> u8 {
            let less = Document01::distance(descriptor, cycle).saturating_sub(1);
            inside_if(false, less, descriptor, cycle)
        }
    }
    DistanceWithoutLastStack "the last permitted block, where a write warns, does not count, downward" {
        fn distance(descriptor: &Descriptor, cycle: &Cycle) -> u8 {
            let less = Document01::distance(descriptor, cycle).saturating_sub(1);
            inside_if(true, less, descriptor, cycle)
        }
    }
    DistanceUpward "the distance does not look at DIRW" {
        fn distance(descriptor: &Descriptor, cycle: &Cycle) -> u8 {
            descriptor.limit.saturating_sub(cycle.offset)
        }
    }
    DistanceReversed "limit less offset byte with DIRW, offset byte less limit without" {
        fn distance(descriptor: &Descriptor, cycle: &Cycle) -> u8 {
            let attributes = descriptor.attributes ^ attribute::DIRW;
            Document01::distance(&Descriptor { attributes, ..*descriptor }, cycle)
        }
    }
    DistanceBack "in a length violation the distance is that back to the limit" {
        fn distance(descriptor: &Descriptor, cycle: &Cycle) -> u8 {
            cycle.offset.abs_diff(descriptor.limit)
        }
    }
    DistanceWraps "in a length violation upward the distance is the difference modulo 256" {
        fn distance(descriptor: &Descriptor, cycle: &Cycle) -> u8 {
            let difference = descriptor.limit.wrapping_sub(cycle.offset);
            beyond_if(false, difference, descriptor, cycle)
        }
    }
    DistanceWrapsStack "in a length violation downward the distance is the difference modulo 256" {
        fn distance(descriptor: &Descriptor, cycle: &Cycle) -> u8 {
            let difference = cycle.offset.wrapping_sub(descriptor.limit);
            beyond_if(true, difference, descriptor, cycle)
        }
    }
    DistanceAllOnes "in a length violation the distance is 255" {
        fn distance(descriptor: &Descriptor, cycle: &Cycle) -> u8 {
            match Document01::outside(descriptor, cycle) {
                true => 0xFF,
                false => Document01::distance(descriptor, cycle),
            }
        }
    }
    DistanceFromZero "upward the distance is measured from block 0: it is the offset byte" {
        fn distance(descriptor: &Descriptor, cycle: &Cycle) -> u8 {
            inside_if(false, cycle.offset, descriptor, cycle)
        }
    }
    DistanceFromTop "downward the distance is measured from the top: 255 less offset byte" {
        fn distance(descriptor: &Descriptor, cycle: &Cycle) -> u8 {
            inside_if(true, 0xFF - cycle.offset, descriptor, cycle)
        }
    }
    DistanceToTop "upward the distance is measured to block 255, whatever the limit" {
        fn distance(descriptor: &Descriptor, cycle: &Cycle) -> u8 {
            inside_if(false, 0xFF - cycle.offset, descriptor, cycle)
        }
    }
    DistanceToZero "downward the distance is measured to block 0, whatever the limit" {
        fn distance(descriptor: &Descriptor, cycle: &Cycle) -> u8 {
            inside_if(true, cycle.offset, descriptor, cycle)
        }
    }
    DistanceOfLimitBlocks "downward the distance is that of limit + 1 blocks from the top" {
        fn distance(descriptor: &Descriptor, cycle: &Cycle) -> u8 {
            let lowest = 0xFF - descriptor.limit;
            inside_if(true, cycle.offset.saturating_sub(lowest), descriptor, cycle)
        }
    }
    DistanceIsLimit "downward the distance is the limit" {
        fn distance(descriptor: &Descriptor, cycle: &Cycle) -> u8 {
            inside_if(true, descriptor.limit, descriptor, cycle)
        }
    }
    DistanceSevenBits "the distance has seven bits: above 127 it is 127" {
        fn distance(descriptor: &Descriptor, cycle: &Cycle) -> u8 {
            Document01::distance(descriptor, cycle).min(0x7F)
        }
    }
    DistanceOfLow "a low byte other than 0 leaves one whole block less" by scripts {
        fn distance(descriptor: &Descriptor, cycle: &Cycle) -> u8 {
            let part = u8::from(cycle.low != 0);
            Document01::distance(descriptor, cycle).saturating_sub(part)
        }
    }
}
