//! Wrong readings of the trace: its header and its records.

use super::wrong;
use witness::cycle::Cycle;
use witness::Document01;

/// The trace with its header changed as a wrong reading would see it.
fn seen(trace: &[u8], change: impl Fn(&mut [u8])) -> Vec<u8> {
    let mut seen = trace.to_vec();
    if seen.len() >= 7 {
        change(&mut seen);
    }
    seen
}

wrong! { Layout:
    MarkTwoBytes "only the first two bytes of the mark count" {
        fn count(trace: &[u8]) -> Result<usize, u8> {
            Document01::count(&seen(trace, |trace| trace[2] = b'T'))
        }
    }
    MarkAnyCase "small letters in the mark are good" {
        fn count(trace: &[u8]) -> Result<usize, u8> {
            Document01::count(&seen(trace, |trace| trace[..3].make_ascii_uppercase()))
        }
    }
    ShortIsLength "a trace shorter than 7 bytes with a good mark is refused 8" {
        fn count(trace: &[u8]) -> Result<usize, u8> {
            match trace.len() < 7 && trace.starts_with(b"MBT") {
                true => Err(8),
                false => Document01::count(trace),
            }
        }
    }
    SevenIsShort "a trace of 7 bytes is too short" {
        fn count(trace: &[u8]) -> Result<usize, u8> {
            match trace.len() == 7 {
                true => Err(5),
                false => Document01::count(trace),
            }
        }
    }
    VersionAny "the version is not looked at" {
        fn count(trace: &[u8]) -> Result<usize, u8> {
            Document01::count(&seen(trace, |trace| trace[3..5].copy_from_slice(&[0, 1])))
        }
    }
    VersionLowByte "only the low byte of the version counts" {
        fn count(trace: &[u8]) -> Result<usize, u8> {
            Document01::count(&seen(trace, |trace| trace[3] = 0))
        }
    }
    VersionLowFirst "the version has its low byte first" {
        fn count(trace: &[u8]) -> Result<usize, u8> {
            Document01::count(&seen(trace, |trace| trace[3..5].reverse()))
        }
    }
    CountLowFirst "the count has its low byte first" {
        fn count(trace: &[u8]) -> Result<usize, u8> {
            Document01::count(&seen(trace, |trace| trace[5..7].reverse()))
        }
    }
    CountFromMost "a count of 16,000 is refused" {
        fn count(trace: &[u8]) -> Result<usize, u8> {
            let count = Document01::count(trace)?;
            if count < 16_000 { Ok(count) } else { Err(7) }
        }
    }
    CountAny "a count above 16,000 is judged by its length" {
        fn count(trace: &[u8]) -> Result<usize, u8> {
            match Document01::count(trace) {
                Err(7) => Err(8),
                count => count,
            }
        }
    }
    TrailingBytes "bytes past the last record are let be" {
        fn count(trace: &[u8]) -> Result<usize, u8> {
            let longer = trace.len() >= 7;
            let stated = |trace: &[u8]| 256 * usize::from(trace[5]) + usize::from(trace[6]);
            match Document01::count(trace) {
                Err(8) if longer && trace.len() > 7 + 4 * stated(trace) => Ok(stated(trace)),
                count => count,
            }
        }
    }
    LengthBeforeCount "the length is judged before the count" {
        fn count(trace: &[u8]) -> Result<usize, u8> {
            let stated = |trace: &[u8]| 256 * usize::from(trace[5]) + usize::from(trace[6]);
            match Document01::count(trace) {
                Err(7) if trace.len() != 7 + 4 * stated(trace) => Err(8),
                count => count,
            }
        }
    }
    CountBeforeVersion "the count is judged before the version" {
        fn count(trace: &[u8]) -> Result<usize, u8> {
            match Document01::count(trace) {
                Err(6) if trace[5..7] > 16_000u16.to_be_bytes()[..] => Err(7),
                count => count,
            }
        }
    }
    VersionBeforeMark "the version is judged before the mark" {
        fn count(trace: &[u8]) -> Result<usize, u8> {
            match Document01::count(trace) {
                Err(5) if trace.len() >= 7 && trace[3..5] != [0, 1] => Err(6),
                count => count,
            }
        }
    }
    FlagsSwapped "byte 0 has select at bit 6 and DMA at bit 7" {
        fn decode(record: [u8; 4]) -> Cycle {
            let cycle = Document01::decode(record);
            Cycle { select: cycle.dma, dma: cycle.select, ..cycle }
        }
    }
    WriteBit "byte 0 bit 4 is set for a write" {
        fn decode(record: [u8; 4]) -> Cycle {
            let cycle = Document01::decode(record);
            Cycle { read: !cycle.read, ..cycle }
        }
    }
    SystemBit "byte 0 bit 5 is set for system mode" {
        fn decode(record: [u8; 4]) -> Cycle {
            let cycle = Document01::decode(record);
            Cycle { normal: !cycle.normal, ..cycle }
        }
    }
    SegmentByte "byte 1 is the segment, all eight bits" {
        fn decode(record: [u8; 4]) -> Cycle {
            Cycle { segment: record[1], ..Document01::decode(record) }
        }
    }
    SegmentSixBits "byte 1 has six bits of the segment" {
        fn decode(record: [u8; 4]) -> Cycle {
            let cycle = Document01::decode(record);
            Cycle { segment: cycle.segment % 64, ..cycle }
        }
    }
    NoResetLine "byte 1 bit 7 is not looked at" {
        fn decode(record: [u8; 4]) -> Cycle {
            Cycle { reset: false, ..Document01::decode(record) }
        }
    }
    BytesSwapped "byte 2 is the data and byte 3 the address-phase byte" {
        fn decode(record: [u8; 4]) -> Cycle {
            let [bus, segment, offset, data] = record;
            Document01::decode([bus, segment, data, offset])
        }
    }
}
