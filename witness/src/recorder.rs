//! The recorder of ticket 1: a writer that fills a lent buffer with a trace, one
//! cycle after the other, and its refusals 1, 7 and 10.

use crate::cycle::Cycle;
use crate::step::Step;
use crate::trace::{HEAD, MARK, MOST, RECORD, VERSION};
use crate::Document01;

/// What a call is lent and given, as the last one left it or as the caller wants
/// it: the trace is the first 7 + 4 x count bytes of the buffer. The count has 64
/// bits, so a caller can give one that no trace has.
#[derive(Clone, Debug, Default, PartialEq, Eq)]
pub struct Lent {
    pub buffer: Vec<u8>,
    pub count: u64,
}

/// Both calls give 0 or the number that says no, and leave the count after them.
pub trait Recorder {
    /// A trace of no records. The count is 0 after it, beside refusal 10 too.
    fn record_start(lent: &mut Lent) -> u8 {
        lent.count = 0;
        if Self::too_short(lent.buffer.len(), 0) {
            return 10;
        }
        Self::put_header(&mut lent.buffer, 0);
        0
    }

    /// One record more behind those that the count given says, whatever the
    /// header in the buffer has. After a refusal all is as it was.
    fn record_cycle(lent: &mut Lent, cycle: &Cycle) -> u8 {
        if let Some(number) = Self::record_refusal(lent, cycle) {
            return number;
        }
        put(
            &mut lent.buffer,
            Self::record_place(lent.count),
            &Self::encode(cycle),
        );
        lent.count += 1;
        Self::put_header(&mut lent.buffer, lent.count);
        0
    }

    /// The earliest of 1, 7, 10; for a reset cycle too.
    fn record_refusal(lent: &Lent, cycle: &Cycle) -> Option<u8> {
        let with_this = u128::from(lent.count) + 1;
        if Self::out_of_numbers(cycle) {
            Some(1)
        } else if Self::too_many(with_this) {
            Some(7)
        } else if Self::too_short(lent.buffer.len(), with_this) {
            Some(10)
        } else {
            None
        }
    }

    /// As for a unit.
    fn out_of_numbers(cycle: &Cycle) -> bool {
        Document01::out_of_range(cycle)
    }

    fn too_many(count: u128) -> bool {
        count > MOST as u128
    }

    /// No room for so many records, this cycle's among them; 0 at the start.
    fn too_short(length: usize, count: u128) -> bool {
        (length as u128) < HEAD as u128 + RECORD as u128 * count
    }

    /// Where the record of this number begins.
    fn record_place(number: u64) -> usize {
        let number = usize::try_from(number).expect("a record of a trace has its place");
        HEAD + RECORD * number
    }

    /// A reset cycle keeps all its other fields. The low byte of ticket 8 is
    /// dropped.
    fn encode(cycle: &Cycle) -> [u8; RECORD] {
        [
            cycle.bus_status() | u8::from(cycle.dma) << 6 | u8::from(cycle.select) << 7,
            cycle.segment & 0x7F | u8::from(cycle.reset) << 7,
            cycle.offset,
            cycle.data,
        ]
    }

    fn header(count: u64) -> [u8; HEAD] {
        let count = u16::try_from(count).expect("the count of a trace has 16 bits");
        let mut header = [0; HEAD];
        header[..3].copy_from_slice(&MARK);
        header[3..5].copy_from_slice(&VERSION.to_be_bytes());
        header[5..].copy_from_slice(&count.to_be_bytes());
        header
    }

    /// All seven bytes, at the start and after every cycle.
    fn put_header(buffer: &mut [u8], count: u64) {
        put(buffer, 0, &Self::header(count));
    }
}

/// Bytes past the buffer's end have no place.
pub fn put(buffer: &mut [u8], place: usize, bytes: &[u8]) {
    for (byte, new) in buffer.iter_mut().skip(place).zip(bytes) {
        *byte = *new;
    }
}
