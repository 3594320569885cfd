//! The trace: its header, refusals 5 to 8, and the record decoder.

use crate::cycle::Cycle;

pub const MARK: [u8; 3] = *b"MBT";
pub const VERSION: u16 = 1;
/// The bytes of mark, version and count.
pub const HEAD: usize = 7;
/// The bytes of a record.
pub const RECORD: usize = 4;
/// The most records of a trace.
pub const MOST: usize = 16_000;
/// The bytes of the longest trace.
pub const LONGEST: usize = HEAD + RECORD * MOST;

pub trait Layout {
    /// The record count of a good trace, or the earliest of 5, 6, 7, 8.
    fn count(trace: &[u8]) -> Result<usize, u8> {
        if trace.len() < HEAD || trace[..3] != MARK {
            return Err(5);
        }
        if u16::from_be_bytes([trace[3], trace[4]]) != VERSION {
            return Err(6);
        }
        let count = usize::from(u16::from_be_bytes([trace[5], trace[6]]));
        if count > MOST {
            return Err(7);
        }
        if trace.len() != HEAD + RECORD * count {
            return Err(8);
        }
        Ok(count)
    }

    /// A record of version 1 has no low byte: its cycle's is 0 (ticket 8).
    fn decode(record: [u8; RECORD]) -> Cycle {
        let [bus, segment, offset, data] = record;
        Cycle {
            status: bus & 0x0F,
            read: bus & 0x10 != 0,
            normal: bus & 0x20 != 0,
            dma: bus & 0x40 != 0,
            select: bus & 0x80 != 0,
            segment: segment & 0x7F,
            reset: segment & 0x80 != 0,
            offset,
            low: 0,
            data,
        }
    }

    /// The cycles of a good trace, in their order.
    fn cycles(trace: &[u8]) -> impl Iterator<Item = Cycle> {
        let records = trace[HEAD..].chunks_exact(RECORD);
        records.map(|record| Self::decode([record[0], record[1], record[2], record[3]]))
    }
}
