//! Wrong readings of the recorder's start, and of when it refuses a cycle.

use super::wrong;
use witness::commands::Commands;
use witness::cycle::Cycle;
use witness::recorder::{put, Lent, Recorder};
use witness::step::{Class, Step};
use witness::trace::{HEAD, LONGEST, MARK, MOST, RECORD};
use witness::Document01;

/// A refusal's own condition, whatever the others say.
fn meets(number: u8, lent: &Lent, cycle: &Cycle) -> bool {
    let with_this = u128::from(lent.count) + 1;
    match number {
        1 => Document01::out_of_numbers(cycle),
        7 => Document01::too_many(with_this),
        _ => Document01::too_short(lent.buffer.len(), with_this),
    }
}

/// The earliest in this order.
fn earliest(order: [u8; 3], lent: &Lent, cycle: &Cycle) -> Option<u8> {
    order.into_iter().find(|&number| meets(number, lent, cycle))
}

/// The right refusal under another number.
fn renamed(right: u8, wrong: u8, lent: &Lent, cycle: &Cycle) -> Option<u8> {
    match Document01::record_refusal(lent, cycle) {
        Some(number) if number == right => Some(wrong),
        number => number,
    }
}

/// A refusal more, behind the three that are.
fn refused_too(wrong: Option<u8>, lent: &Lent, cycle: &Cycle) -> Option<u8> {
    Document01::record_refusal(lent, cycle).or(wrong)
}

/// The bytes that so many records need.
fn needed(count: u128) -> u128 {
    HEAD as u128 + RECORD as u128 * count
}

/// The count in the header, of a buffer that has one.
pub fn header_count(buffer: &[u8]) -> Option<u64> {
    let header = buffer.get(..HEAD)?;
    Some(u64::from(u16::from_be_bytes([header[5], header[6]])))
}

fn short(lent: &Lent) -> bool {
    Document01::too_short(lent.buffer.len(), 0)
}

/// The right start, and then a change of what it leaves, if it was taken or if it
/// was refused.
fn started(lent: &mut Lent, refused: bool, change: impl Fn(&mut Lent, &Lent)) -> u8 {
    let before = lent.clone();
    let number = Document01::record_start(lent);
    if refused == (number != 0) {
        change(lent, &before);
    }
    number
}

/// The start is refused, and gives the count 0.
fn start_refused(lent: &mut Lent, number: u8) -> u8 {
    lent.count = 0;
    number
}

wrong! { Recorder:
    StartNothing "the start writes no header" {
        fn record_start(lent: &mut Lent) -> u8 {
            started(lent, false, |lent, before| lent.buffer = before.buffer.clone())
        }
    }
    StartClears "the start clears the rest of the buffer" {
        fn record_start(lent: &mut Lent) -> u8 {
            started(lent, false, |lent, _| lent.buffer[HEAD..].fill(0))
        }
    }
    StartClearsRecord "the start clears the place of the first record" {
        fn record_start(lent: &mut Lent) -> u8 {
            started(lent, false, |lent, _| put(&mut lent.buffer, HEAD, &[0; RECORD]))
        }
    }
    StartEnds "the start puts a 0 behind the header" {
        fn record_start(lent: &mut Lent) -> u8 {
            started(lent, false, |lent, _| put(&mut lent.buffer, HEAD, &[0]))
        }
    }
    StartKeepsCount "the start gives the count as it was" {
        fn record_start(lent: &mut Lent) -> u8 {
            started(lent, false, |lent, before| lent.count = before.count)
        }
    }
    StartRefusedKeepsCount "a refused start gives the count as it was" {
        fn record_start(lent: &mut Lent) -> u8 {
            started(lent, true, |lent, before| lent.count = before.count)
        }
    }
    StartGoesOn "the start goes on with the trace that it finds" {
        fn record_start(lent: &mut Lent) -> u8 {
            started(lent, false, |lent, before| {
                let found = header_count(&before.buffer).unwrap_or(0);
                let room = !Document01::too_short(before.buffer.len(), u128::from(found));
                if before.buffer.starts_with(&MARK) && room {
                    *lent = Lent { count: found, ..before.clone() };
                }
            })
        }
    }
    StartLeavesMarked "the start leaves a header with the mark" {
        fn record_start(lent: &mut Lent) -> u8 {
            started(lent, false, |lent, before| {
                if before.buffer.starts_with(&MARK) {
                    lent.buffer = before.buffer.clone();
                }
            })
        }
    }
    StartWithRecord "the start is refused 10 below 11 bytes" {
        fn record_start(lent: &mut Lent) -> u8 {
            match Document01::too_short(lent.buffer.len(), 1) {
                true => start_refused(lent, 10),
                false => Document01::record_start(lent),
            }
        }
    }
    StartBeyondHeader "the start is refused 10 in a buffer of 7 bytes" {
        fn record_start(lent: &mut Lent) -> u8 {
            match lent.buffer.len() <= HEAD {
                true => start_refused(lent, 10),
                false => Document01::record_start(lent),
            }
        }
    }
    StartByCount "the start is refused 10 where the buffer is too short for the count that stands" {
        fn record_start(lent: &mut Lent) -> u8 {
            match Document01::too_short(lent.buffer.len(), u128::from(lent.count)) {
                true => start_refused(lent, 10),
                false => Document01::record_start(lent),
            }
        }
    }
    StartSeven "the start is refused 7 beside a count above 16,000" {
        fn record_start(lent: &mut Lent) -> u8 {
            match Document01::too_many(u128::from(lent.count)) {
                true => start_refused(lent, 7),
                false => Document01::record_start(lent),
            }
        }
    }
    StartAnywhere "the start is never refused, and writes what has room" {
        fn record_start(lent: &mut Lent) -> u8 {
            lent.count = 0;
            Document01::put_header(&mut lent.buffer, 0);
            0
        }
    }
    StartShortLeft "the start of a short buffer gives 0 and leaves it" {
        fn record_start(lent: &mut Lent) -> u8 {
            Document01::record_start(lent);
            0
        }
    }
    StartFive "a buffer too short for the header is refused 5" {
        fn record_start(lent: &mut Lent) -> u8 {
            match short(lent) {
                true => start_refused(lent, 5),
                false => Document01::record_start(lent),
            }
        }
    }
    StartEight "a buffer too short for the header is refused 8" {
        fn record_start(lent: &mut Lent) -> u8 {
            match short(lent) {
                true => start_refused(lent, 8),
                false => Document01::record_start(lent),
            }
        }
    }
    StartRefusedClears "a refused start clears the buffer" {
        fn record_start(lent: &mut Lent) -> u8 {
            started(lent, true, |lent, _| lent.buffer.fill(0))
        }
    }
    StartRefusedWrites "a refused start writes what has room" {
        fn record_start(lent: &mut Lent) -> u8 {
            started(lent, true, |lent, _| Document01::put_header(&mut lent.buffer, 0))
        }
    }
    TenBeforeSeven "10 is judged before 7" {
        fn record_refusal(lent: &Lent, cycle: &Cycle) -> Option<u8> {
            earliest([1, 10, 7], lent, cycle)
        }
    }
    SevenBeforeOne "7 is judged before 1" {
        fn record_refusal(lent: &Lent, cycle: &Cycle) -> Option<u8> {
            earliest([7, 1, 10], lent, cycle)
        }
    }
    OneLast "1 is judged last" {
        fn record_refusal(lent: &Lent, cycle: &Cycle) -> Option<u8> {
            earliest([7, 10, 1], lent, cycle)
        }
    }
    TenFirst "10 is judged first" {
        fn record_refusal(lent: &Lent, cycle: &Cycle) -> Option<u8> {
            earliest([10, 1, 7], lent, cycle)
        }
    }
    Backwards "the refusals are judged from 10 down" {
        fn record_refusal(lent: &Lent, cycle: &Cycle) -> Option<u8> {
            earliest([10, 7, 1], lent, cycle)
        }
    }
    TenBeforeOne "10 is judged before 1, but behind 7" {
        fn record_refusal(lent: &Lent, cycle: &Cycle) -> Option<u8> {
            match meets(10, lent, cycle) && !meets(7, lent, cycle) {
                true => Some(10),
                false => Document01::record_refusal(lent, cycle),
            }
        }
    }
    SevenIsTen "too many records are refused 10" {
        fn record_refusal(lent: &Lent, cycle: &Cycle) -> Option<u8> {
            renamed(7, 10, lent, cycle)
        }
    }
    SevenIsNine "too many records are refused 9" {
        fn record_refusal(lent: &Lent, cycle: &Cycle) -> Option<u8> {
            renamed(7, 9, lent, cycle)
        }
    }
    TenIsSeven "a buffer too short for a record is refused 7" {
        fn record_refusal(lent: &Lent, cycle: &Cycle) -> Option<u8> {
            renamed(10, 7, lent, cycle)
        }
    }
    TenIsEight "a buffer too short for a record is refused 8" {
        fn record_refusal(lent: &Lent, cycle: &Cycle) -> Option<u8> {
            renamed(10, 8, lent, cycle)
        }
    }
    CommandsToo "a command that a unit refuses 3 or 4 is refused" {
        fn record_refusal(lent: &Lent, cycle: &Cycle) -> Option<u8> {
            let own = match Document01::class(cycle) {
                Class::Command => Document01::command_refusal(cycle),
                _ => None,
            };
            refused_too(own, lent, cycle)
        }
    }
    MarkToo "a cycle is refused 5 where the buffer has not the mark" {
        fn record_refusal(lent: &Lent, cycle: &Cycle) -> Option<u8> {
            refused_too((!lent.buffer.starts_with(&MARK)).then_some(5), lent, cycle)
        }
    }
    VersionToo "a cycle is refused 6 where the header has another version" {
        fn record_refusal(lent: &Lent, cycle: &Cycle) -> Option<u8> {
            let other = lent.buffer.get(3..5).is_some_and(|version| version != [0, 1]);
            refused_too(other.then_some(6), lent, cycle)
        }
    }
    CountToo "a cycle is refused 8 where the header has another count than is given" {
        fn record_refusal(lent: &Lent, cycle: &Cycle) -> Option<u8> {
            let other = header_count(&lent.buffer).is_some_and(|count| count != lent.count);
            refused_too(other.then_some(8), lent, cycle)
        }
    }
    StoredCut "a cycle out of its numbers is cut to its bits and stored" {
        fn out_of_numbers(_cycle: &Cycle) -> bool {
            false
        }
    }
    StatusAny "the status is not looked at for 1" {
        fn out_of_numbers(cycle: &Cycle) -> bool {
            Document01::out_of_numbers(&Cycle { status: 0, ..*cycle })
        }
    }
    SegmentAny "the segment is not looked at for 1" {
        fn out_of_numbers(cycle: &Cycle) -> bool {
            Document01::out_of_numbers(&Cycle { segment: 0, ..*cycle })
        }
    }
    BothOut "1 is given only where status and segment are both out of their numbers" {
        fn out_of_numbers(cycle: &Cycle) -> bool {
            cycle.status > 15 && cycle.segment > 127
        }
    }
    StatusEarly "status 15 is refused 1" {
        fn out_of_numbers(cycle: &Cycle) -> bool {
            cycle.status == 15 || Document01::out_of_numbers(cycle)
        }
    }
    StatusLate "status 16 is stored as 0" {
        fn out_of_numbers(cycle: &Cycle) -> bool {
            cycle.status > 16 || cycle.segment > 127
        }
    }
    SegmentEarly "segment 127 is refused 1" {
        fn out_of_numbers(cycle: &Cycle) -> bool {
            cycle.segment == 127 || Document01::out_of_numbers(cycle)
        }
    }
    SegmentLate "segment 128 is stored as 0" {
        fn out_of_numbers(cycle: &Cycle) -> bool {
            cycle.status > 15 || cycle.segment > 128
        }
    }
    SegmentSixBits "a segment above 63 is refused 1" {
        fn out_of_numbers(cycle: &Cycle) -> bool {
            cycle.segment > 63 || Document01::out_of_numbers(cycle)
        }
    }
    StatusSigned "a status above 127 is below 0, and stored" {
        fn out_of_numbers(cycle: &Cycle) -> bool {
            (16..128).contains(&cycle.status) || cycle.segment > 127
        }
    }
    StatusesOfBus "statuses that start no cycle for the unit are refused 1" {
        fn out_of_numbers(cycle: &Cycle) -> bool {
            Document01::class(cycle) == Class::Ignored || Document01::out_of_numbers(cycle)
        }
    }
    SegmentOfMemory "the segment is looked at in memory cycles alone" {
        fn out_of_numbers(cycle: &Cycle) -> bool {
            let memory = matches!(cycle.status, 0x8..=0xD);
            cycle.status > 15 || memory && cycle.segment > 127
        }
    }
    ResetAny "a reset cycle out of its numbers is stored" {
        fn out_of_numbers(cycle: &Cycle) -> bool {
            !cycle.reset && Document01::out_of_numbers(cycle)
        }
    }
    ResetStatusAny "the status of a reset cycle is not looked at for 1" {
        fn out_of_numbers(cycle: &Cycle) -> bool {
            let status = if cycle.reset { 0 } else { cycle.status };
            Document01::out_of_numbers(&Cycle { status, ..*cycle })
        }
    }
    ResetSegmentAny "the segment of a reset cycle is not looked at for 1" {
        fn out_of_numbers(cycle: &Cycle) -> bool {
            let segment = if cycle.reset { 0 } else { cycle.segment };
            Document01::out_of_numbers(&Cycle { segment, ..*cycle })
        }
    }
    ManyEarly "7 is given with the 16,000th record" {
        fn too_many(count: u128) -> bool {
            count >= MOST as u128
        }
    }
    ManyLate "7 is judged by the count without this cycle" {
        fn too_many(count: u128) -> bool {
            Document01::too_many(count - 1)
        }
    }
    ManyNever "7 is never given" {
        fn too_many(_count: u128) -> bool {
            false
        }
    }
    ManyOnce "7 is given with the 16,001st record alone" {
        fn too_many(count: u128) -> bool {
            count == MOST as u128 + 1
        }
    }
    ManyFourteen "7 is given above 16,384 records" {
        fn too_many(count: u128) -> bool {
            count > 1 << 14
        }
    }
    ManySixteen "7 is given where the count has more than 16 bits" {
        fn too_many(count: u128) -> bool {
            count > 0xFFFF
        }
    }
    ManyOther "7 is given above 9,000 records" {
        fn too_many(count: u128) -> bool {
            count > 9_000
        }
    }
    ManyCut16 "the count is cut to 16 bits for 7" {
        fn too_many(count: u128) -> bool {
            Document01::too_many(u128::from(count as u16))
        }
    }
    ManyCut32 "the count is cut to 32 bits for 7" {
        fn too_many(count: u128) -> bool {
            Document01::too_many(u128::from(count as u32))
        }
    }
    ManySigned "the count is signed for 7" {
        fn too_many(count: u128) -> bool {
            count as i64 > MOST as i64
        }
    }
    ManyWraps "the count with this cycle has 64 bits" {
        fn too_many(count: u128) -> bool {
            Document01::too_many(u128::from(count as u64))
        }
    }
    ShortEarly "10 is given where the trace would end with the buffer" {
        fn too_short(length: usize, count: u128) -> bool {
            length as u128 <= needed(count)
        }
    }
    ShortLate "10 is given a byte late" {
        fn too_short(length: usize, count: u128) -> bool {
            Document01::too_short(length + 1, count)
        }
    }
    ShortWithout "10 is judged by the count without this cycle" {
        fn too_short(length: usize, count: u128) -> bool {
            Document01::too_short(length, count.saturating_sub(1))
        }
    }
    ShortOneMore "10 is given where there is no room for a record more" {
        fn too_short(length: usize, count: u128) -> bool {
            Document01::too_short(length, if count > 0 { count + 1 } else { 0 })
        }
    }
    ShortNever "10 is given at the start alone" {
        fn too_short(length: usize, count: u128) -> bool {
            count == 0 && Document01::too_short(length, count)
        }
    }
    ShortHeader "10 looks at the header's room alone" {
        fn too_short(length: usize, _count: u128) -> bool {
            Document01::too_short(length, 0)
        }
    }
    ShortNoHeader "10 is judged by 4 x count" {
        fn too_short(length: usize, count: u128) -> bool {
            (length as u128) < RECORD as u128 * count
        }
    }
    ShortSeven "10 is judged by 7 + 7 x count" {
        fn too_short(length: usize, count: u128) -> bool {
            (length as u128) < HEAD as u128 + 7 * count
        }
    }
    ShortOther "10 is given unless the trace ends with the buffer" {
        fn too_short(length: usize, count: u128) -> bool {
            length as u128 != needed(count)
        }
    }
    ShortRagged "10 is given unless the buffer has the length of a trace" {
        fn too_short(length: usize, count: u128) -> bool {
            Document01::too_short(length, count) || (length - HEAD) % RECORD != 0
        }
    }
    ShortLong "10 is given in a buffer longer than any trace" {
        fn too_short(length: usize, count: u128) -> bool {
            Document01::too_short(length, count) || length > LONGEST
        }
    }
    ShortSigned "10 is given in a buffer of 32,768 bytes or more" {
        fn too_short(length: usize, count: u128) -> bool {
            Document01::too_short(length, count) || length > 0x7FFF
        }
    }
    ShortCut "the bytes that 10 asks for have 16 bits"
    same "7 comes first, and what 16,000 records need has 16 bits" {
        fn too_short(length: usize, count: u128) -> bool {
            length < usize::from(needed(count) as u16)
        }
    }
}
