//! Families of wrong readings of what the recorder refuses and writes.

use super::{
    families, BitPairs, Bits, Byte0, Byte1, Byte2, Byte3, BytePairs, Bytes, Cycles, Fields, Numbers,
};
use witness::cycle::Cycle;
use witness::recorder::{put, Lent, Recorder};
use witness::trace::{HEAD, RECORD};
use witness::Document01;

/// The right cycle, and then a change of what refusal N leaves.
fn refused<N: Numbers>(lent: &mut Lent, cycle: &Cycle, change: impl Fn(&mut Lent)) -> u8 {
    let number = Document01::record_cycle(lent, cycle);
    if number == N::NUMBER {
        change(lent);
    }
    number
}

/// The right record with a byte of it changed.
fn with_byte<P: Bytes>(cycle: &Cycle, change: impl Fn(u8) -> u8) -> [u8; RECORD] {
    let mut record = Document01::encode(cycle);
    record[P::PLACE] = change(record[P::PLACE]);
    record
}

/// A byte of the right header, and the one that the buffer has instead.
fn but_for<P: Bytes>(buffer: &mut [u8], count: u64) {
    let stays = buffer[P::PLACE];
    Document01::put_header(buffer, count);
    buffer[P::PLACE] = stays;
}

fn exchanged(byte: u8, (first, second): (u8, u8)) -> u8 {
    let rest = byte & !(first | second);
    let bit = |from: u8, to: u8| if byte & from != 0 { to } else { 0 };
    rest | bit(first, second) | bit(second, first)
}

families! { Recorder:
    OneNot<C: Cycles> "1 is not judged"
    [Reads Writes NormalMode SystemMode ForCpu ForDma Selected Unselected] {
        fn out_of_numbers(cycle: &Cycle) -> bool {
            !(C::HAS)(cycle) && Document01::out_of_numbers(cycle)
        }
    }
    NotStored<C: Cycles> "a cycle is not stored"
    [At0 At1 At2 At3 At4 At5 At6 At7 At8 At9 AtA AtB AtC AtD AtE AtF
     Reads Writes NormalMode SystemMode ForCpu ForDma Selected Unselected] {
        fn record_cycle(lent: &mut Lent, cycle: &Cycle) -> u8 {
            match (C::HAS)(cycle) {
                true => Document01::record_cycle(&mut lent.clone(), cycle),
                false => Document01::record_cycle(lent, cycle),
            }
        }
    }
    RefusedCounted<N: Numbers> "a cycle is counted beside refusal" [One Seven Ten] {
        fn record_cycle(lent: &mut Lent, cycle: &Cycle) -> u8 {
            refused::<N>(lent, cycle, |lent| lent.count = lent.count.wrapping_add(1))
        }
    }
    RefusedForgets<N: Numbers> "the count becomes 0 beside refusal" [One Seven Ten] {
        fn record_cycle(lent: &mut Lent, cycle: &Cycle) -> u8 {
            refused::<N>(lent, cycle, |lent| lent.count = 0)
        }
    }
    RefusedStored<N: Numbers> "a cycle is stored, as far as there is room, beside refusal" [One Seven Ten] {
        fn record_cycle(lent: &mut Lent, cycle: &Cycle) -> u8 {
            refused::<N>(lent, cycle, |lent| {
                // Past the longest buffer there is no room.
                let place = Document01::record_place(lent.count.min(0xFFFF));
                put(&mut lent.buffer, place, &Document01::encode(cycle));
            })
        }
    }
    RefusedHeaded<N: Numbers> "the header is written beside refusal" [One Seven Ten] {
        fn record_cycle(lent: &mut Lent, cycle: &Cycle) -> u8 {
            refused::<N>(lent, cycle, |lent| Document01::put_header(&mut lent.buffer, lent.count & 0xFFFF))
        }
    }
    RefusedClears<N: Numbers> "the buffer is cleared beside refusal" [One Seven Ten] {
        fn record_cycle(lent: &mut Lent, cycle: &Cycle) -> u8 {
            refused::<N>(lent, cycle, |lent| lent.buffer.fill(0))
        }
    }
    Byte0Without<B: Bits> "byte 0 is stored without" [Bit0 Bit1 Bit2 Bit3 Bit4 Bit5 Bit6 Bit7] {
        fn encode(cycle: &Cycle) -> [u8; RECORD] {
            with_byte::<Byte0>(cycle, |byte| byte & !B::MASK)
        }
    }
    Byte1Without<B: Bits> "byte 1 is stored without" [Bit0 Bit1 Bit2 Bit3 Bit4 Bit5 Bit6 Bit7] {
        fn encode(cycle: &Cycle) -> [u8; RECORD] {
            with_byte::<Byte1>(cycle, |byte| byte & !B::MASK)
        }
    }
    Byte2Without<B: Bits> "byte 2 is stored without" [Bit0 Bit1 Bit2 Bit3 Bit4 Bit5 Bit6 Bit7] {
        fn encode(cycle: &Cycle) -> [u8; RECORD] {
            with_byte::<Byte2>(cycle, |byte| byte & !B::MASK)
        }
    }
    Byte3Without<B: Bits> "byte 3 is stored without" [Bit0 Bit1 Bit2 Bit3 Bit4 Bit5 Bit6 Bit7] {
        fn encode(cycle: &Cycle) -> [u8; RECORD] {
            with_byte::<Byte3>(cycle, |byte| byte & !B::MASK)
        }
    }
    Byte0With<B: Bits> "byte 0 is always stored with" [Bit0 Bit1 Bit2 Bit3 Bit4 Bit5 Bit6 Bit7] {
        fn encode(cycle: &Cycle) -> [u8; RECORD] {
            with_byte::<Byte0>(cycle, |byte| byte | B::MASK)
        }
    }
    Byte1With<B: Bits> "byte 1 is always stored with" [Bit0 Bit1 Bit2 Bit3 Bit4 Bit5 Bit6 Bit7] {
        fn encode(cycle: &Cycle) -> [u8; RECORD] {
            with_byte::<Byte1>(cycle, |byte| byte | B::MASK)
        }
    }
    Byte0Inverted<B: Bits> "byte 0 is stored with inverted" [Bit4 Bit5 Bit6 Bit7] {
        fn encode(cycle: &Cycle) -> [u8; RECORD] {
            with_byte::<Byte0>(cycle, |byte| byte ^ B::MASK)
        }
    }
    Byte1Inverted<B: Bits> "byte 1 is stored with inverted" [Bit7] {
        fn encode(cycle: &Cycle) -> [u8; RECORD] {
            with_byte::<Byte1>(cycle, |byte| byte ^ B::MASK)
        }
    }
    BitsExchanged<B: BitPairs> "byte 0 is stored with exchanged"
    [Bits01 Bits02 Bits03 Bits04 Bits05 Bits06 Bits07 Bits12 Bits13 Bits14 Bits15 Bits16 Bits17 Bits23
     Bits24 Bits25 Bits26 Bits27 Bits34 Bits35 Bits36 Bits37 Bits45 Bits46 Bits47 Bits56 Bits57 Bits67] {
        fn encode(cycle: &Cycle) -> [u8; RECORD] {
            with_byte::<Byte0>(cycle, |byte| exchanged(byte, B::MASKS))
        }
    }
    BytesExchanged<B: BytePairs> "a record is stored with exchanged"
    [Bytes01 Bytes02 Bytes03 Bytes12 Bytes13 Bytes23] {
        fn encode(cycle: &Cycle) -> [u8; RECORD] {
            let mut record = Document01::encode(cycle);
            record.swap(B::PLACES.0, B::PLACES.1);
            record
        }
    }
    ResetWithout<F: Fields> "a reset cycle is stored without its"
    [Status Read Normal Dma Select Segment Offset Data] {
        fn encode(cycle: &Cycle) -> [u8; RECORD] {
            let mut stored = *cycle;
            if cycle.reset {
                (F::CLEAR)(&mut stored);
            }
            Document01::encode(&stored)
        }
    }
    HighWithout<B: Bits> "the count's high byte is written without" [Bit0 Bit1 Bit2 Bit3 Bit4 Bit5] {
        fn header(count: u64) -> [u8; HEAD] {
            let mut header = Document01::header(count);
            header[5] &= !B::MASK;
            header
        }
    }
    LowWithout<B: Bits> "the count's low byte is written without" [Bit0 Bit1 Bit2 Bit3 Bit4 Bit5 Bit6 Bit7] {
        fn header(count: u64) -> [u8; HEAD] {
            let mut header = Document01::header(count);
            header[6] &= !B::MASK;
            header
        }
    }
    StartLeaves<P: Bytes> "the start does not write the header's" [Byte0 Byte1 Byte2 Byte3 Byte4 Byte5 Byte6] {
        fn put_header(buffer: &mut [u8], count: u64) {
            match count {
                0 => but_for::<P>(buffer, count),
                _ => Document01::put_header(buffer, count),
            }
        }
    }
    CycleLeaves<P: Bytes> "a cycle does not rewrite the header's" [Byte0 Byte1 Byte2 Byte3 Byte4 Byte5 Byte6] {
        fn put_header(buffer: &mut [u8], count: u64) {
            match count {
                0 => Document01::put_header(buffer, count),
                _ => but_for::<P>(buffer, count),
            }
        }
    }
}
