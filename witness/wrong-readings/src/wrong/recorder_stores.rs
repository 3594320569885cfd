//! Wrong readings of what the recorder writes, and of what a cycle leaves.

use super::recorder_refusals::header_count;
use super::wrong;
use witness::cycle::Cycle;
use witness::recorder::{put, Lent, Recorder};
use witness::step::{Class, Step};
use witness::trace::{HEAD, MARK, MOST, RECORD};
use witness::Document01;

/// The right cycle from another count; a refusal leaves the one given.
fn counted(lent: &mut Lent, cycle: &Cycle, count: Option<u64>) -> u8 {
    let given = lent.count;
    lent.count = count.unwrap_or(given);
    let number = Document01::record_cycle(lent, cycle);
    if number != 0 {
        lent.count = given;
    }
    number
}

/// The right cycle, and then a change of what it leaves if it was taken.
fn taken(lent: &mut Lent, cycle: &Cycle, change: impl Fn(&mut Lent, &Lent)) -> u8 {
    let before = lent.clone();
    let number = Document01::record_cycle(lent, cycle);
    if number == 0 {
        change(lent, &before);
    }
    number
}

/// The bytes behind the trace.
fn behind(lent: &mut Lent) -> &mut [u8] {
    let end = Document01::record_place(lent.count);
    &mut lent.buffer[end..]
}

/// Bytes of a record as they would be of another cycle.
fn as_if(cycle: &Cycle, change: impl Fn(&mut Cycle)) -> [u8; RECORD] {
    let mut other = *cycle;
    change(&mut other);
    Document01::encode(&other)
}

fn memory(cycle: &Cycle) -> bool {
    Document01::class(cycle) == Class::Memory
}

/// The right header, changed.
fn headed(count: u64, change: impl Fn(&mut [u8; HEAD])) -> [u8; HEAD] {
    let mut header = Document01::header(count);
    change(&mut header);
    header
}

/// Only a part of the header is written by a cycle; the start writes all.
fn partly(buffer: &mut [u8], count: u64, part: std::ops::Range<usize>) {
    let part = if count == 0 { 0..HEAD } else { part };
    put(buffer, part.start, &Document01::header(count)[part]);
}

wrong! { Recorder:
    HeaderTrusted "the count in the header rules, and not the one given" {
        fn record_cycle(lent: &mut Lent, cycle: &Cycle) -> u8 {
            let found = header_count(&lent.buffer);
            counted(lent, cycle, found)
        }
    }
    MarkedTrusted "the count in a header with the mark rules" {
        fn record_cycle(lent: &mut Lent, cycle: &Cycle) -> u8 {
            let marked = lent.buffer.starts_with(&MARK);
            let found = header_count(&lent.buffer).filter(|_| marked);
            counted(lent, cycle, found)
        }
    }
    GreaterCount "the greater of the count given and the header's rules" {
        fn record_cycle(lent: &mut Lent, cycle: &Cycle) -> u8 {
            let found = header_count(&lent.buffer).map(|count| count.max(lent.count));
            counted(lent, cycle, found)
        }
    }
    LesserCount "the lesser of the count given and the header's rules" {
        fn record_cycle(lent: &mut Lent, cycle: &Cycle) -> u8 {
            let found = header_count(&lent.buffer).map(|count| count.min(lent.count));
            counted(lent, cycle, found)
        }
    }
    CountCut "the count given is cut to 16 bits" {
        fn record_cycle(lent: &mut Lent, cycle: &Cycle) -> u8 {
            let cut = lent.count & 0xFFFF;
            counted(lent, cycle, Some(cut))
        }
    }
    CountClamped "a count above 16,000 is taken as 16,000, and stays so" {
        fn record_cycle(lent: &mut Lent, cycle: &Cycle) -> u8 {
            lent.count = lent.count.min(MOST as u64);
            Document01::record_cycle(lent, cycle)
        }
    }
    CountStays "a cycle that is taken gives the count as it was" {
        fn record_cycle(lent: &mut Lent, cycle: &Cycle) -> u8 {
            taken(lent, cycle, |lent, before| lent.count = before.count)
        }
    }
    CountOfBytes "the count goes up by the bytes of a record" {
        fn record_cycle(lent: &mut Lent, cycle: &Cycle) -> u8 {
            taken(lent, cycle, |lent, before| lent.count = before.count + RECORD as u64)
        }
    }
    NotStored "a cycle is counted and not stored" {
        fn record_cycle(lent: &mut Lent, cycle: &Cycle) -> u8 {
            taken(lent, cycle, |lent, before| lent.buffer[HEAD..].copy_from_slice(&before.buffer[HEAD..]))
        }
    }
    FirstRepeated "every record repeats the first" {
        fn record_cycle(lent: &mut Lent, cycle: &Cycle) -> u8 {
            taken(lent, cycle, |lent, before| {
                let place = Document01::record_place(before.count);
                lent.buffer.copy_within(HEAD..HEAD + RECORD, place);
            })
        }
    }
    NothingChanges "a cycle changes nothing" {
        fn record_cycle(lent: &mut Lent, cycle: &Cycle) -> u8 {
            Document01::record_cycle(&mut lent.clone(), cycle)
        }
    }
    ResetNotStored "a reset cycle is not stored" {
        fn record_cycle(lent: &mut Lent, cycle: &Cycle) -> u8 {
            taken(lent, cycle, |lent, before| if cycle.reset { *lent = before.clone() })
        }
    }
    ResetStarts "a reset cycle begins the trace anew" {
        fn record_cycle(lent: &mut Lent, cycle: &Cycle) -> u8 {
            counted(lent, cycle, cycle.reset.then_some(0))
        }
    }
    IgnoredNotStored "a cycle that the unit ignores is not stored" {
        fn record_cycle(lent: &mut Lent, cycle: &Cycle) -> u8 {
            let ignored = Document01::class(cycle) == Class::Ignored;
            taken(lent, cycle, |lent, before| if ignored { *lent = before.clone() })
        }
    }
    RepeatedNotStored "a cycle whose record the last one has is not stored again" {
        fn record_cycle(lent: &mut Lent, cycle: &Cycle) -> u8 {
            taken(lent, cycle, |lent, before| {
                let place = Document01::record_place(before.count);
                if before.count > 0 && before.buffer[place - RECORD..place] == Document01::encode(cycle) {
                    *lent = before.clone();
                }
            })
        }
    }
    ClearsBehind "a cycle clears the bytes past the trace's end" {
        fn record_cycle(lent: &mut Lent, cycle: &Cycle) -> u8 {
            taken(lent, cycle, |lent, _| behind(lent).fill(0))
        }
    }
    ClearsNext "a cycle clears the place of the next record" {
        fn record_cycle(lent: &mut Lent, cycle: &Cycle) -> u8 {
            taken(lent, cycle, |lent, _| put(behind(lent), 0, &[0; RECORD]))
        }
    }
    EndsTrace "a cycle puts a 0 behind the trace" {
        fn record_cycle(lent: &mut Lent, cycle: &Cycle) -> u8 {
            taken(lent, cycle, |lent, _| put(behind(lent), 0, &[0]))
        }
    }
    PlaceNext "a record begins at 7 + 4 x the new count" {
        fn record_place(number: u64) -> usize {
            Document01::record_place(number + 1)
        }
    }
    PlaceNoHeader "a record begins at 4 x the count" {
        fn record_place(number: u64) -> usize {
            Document01::record_place(number) - HEAD
        }
    }
    PlaceEight "a record begins at 8 + 4 x the count" {
        fn record_place(number: u64) -> usize {
            Document01::record_place(number) + 1
        }
    }
    PlaceSix "a record begins at 6 + 4 x the count" {
        fn record_place(number: u64) -> usize {
            Document01::record_place(number) - 1
        }
    }
    PlaceSame "every record begins at 7" {
        fn record_place(_number: u64) -> usize {
            HEAD
        }
    }
    PlaceByCount "a record begins at 7 + the count" {
        fn record_place(number: u64) -> usize {
            HEAD + number as usize
        }
    }
    PlaceLowByte "a record's place looks at the low byte of the count" {
        fn record_place(number: u64) -> usize {
            Document01::record_place(number & 0xFF)
        }
    }
    PlaceFifteen "a record's place has 15 bits" {
        fn record_place(number: u64) -> usize {
            Document01::record_place(number) & 0x7FFF
        }
    }
    LowInData "byte 3 is the low byte" {
        fn encode(cycle: &Cycle) -> [u8; RECORD] {
            as_if(cycle, |cycle| cycle.data = cycle.low)
        }
    }
    LowInOffset "byte 2 is the low byte" {
        fn encode(cycle: &Cycle) -> [u8; RECORD] {
            as_if(cycle, |cycle| cycle.offset = cycle.low)
        }
    }
    LowOfReads "byte 3 of a read is the low byte" {
        fn encode(cycle: &Cycle) -> [u8; RECORD] {
            as_if(cycle, |cycle| if cycle.read { cycle.data = cycle.low })
        }
    }
    LowForZero "byte 3 is the low byte where the data byte is 0" {
        fn encode(cycle: &Cycle) -> [u8; RECORD] {
            as_if(cycle, |cycle| if cycle.data == 0 { cycle.data = cycle.low })
        }
    }
    ResetAsSelect "the reset line is bit 7 of byte 0" {
        fn encode(cycle: &Cycle) -> [u8; RECORD] {
            as_if(cycle, |cycle| (cycle.select, cycle.reset) = (cycle.select || cycle.reset, false))
        }
    }
    ResetAsDma "the reset line is bit 6 of byte 0" {
        fn encode(cycle: &Cycle) -> [u8; RECORD] {
            as_if(cycle, |cycle| (cycle.dma, cycle.reset) = (cycle.dma || cycle.reset, false))
        }
    }
    ResetForSelect "select is bit 7 of byte 1, and the reset line of byte 0" {
        fn encode(cycle: &Cycle) -> [u8; RECORD] {
            as_if(cycle, |cycle| (cycle.select, cycle.reset) = (cycle.reset, cycle.select))
        }
    }
    ResetBare "a reset cycle is stored with its other fields 0" {
        fn encode(cycle: &Cycle) -> [u8; RECORD] {
            as_if(cycle, |cycle| if cycle.reset { *cycle = Cycle { reset: true, ..Cycle::default() } })
        }
    }
    ResetWithSelect "a reset cycle is stored with select alone beside it" {
        fn encode(cycle: &Cycle) -> [u8; RECORD] {
            as_if(cycle, |cycle| if cycle.reset {
                *cycle = Cycle { reset: true, select: cycle.select, ..Cycle::default() }
            })
        }
    }
    ReadsBare "a read is stored with data byte 0" {
        fn encode(cycle: &Cycle) -> [u8; RECORD] {
            as_if(cycle, |cycle| if cycle.read { cycle.data = 0 })
        }
    }
    SelectOfCommands "select is stored at status 3 and in resets alone" {
        fn encode(cycle: &Cycle) -> [u8; RECORD] {
            as_if(cycle, |cycle| cycle.select &= cycle.status == 0x3 || cycle.reset)
        }
    }
    SegmentOfMemory "the segment is stored in memory cycles alone" {
        fn encode(cycle: &Cycle) -> [u8; RECORD] {
            as_if(cycle, |cycle| if !memory(cycle) { cycle.segment = 0 })
        }
    }
    OffsetOfUnit "the address-phase byte is stored in memory cycles and commands alone" {
        fn encode(cycle: &Cycle) -> [u8; RECORD] {
            let looked_at = memory(cycle) || Document01::class(cycle) == Class::Command;
            as_if(cycle, |cycle| if !looked_at { cycle.offset = 0 })
        }
    }
    DataOfCommands "the data byte is stored in commands alone" {
        fn encode(cycle: &Cycle) -> [u8; RECORD] {
            let command = Document01::class(cycle) == Class::Command;
            as_if(cycle, |cycle| if !command { cycle.data = 0 })
        }
    }
    IgnoredBare "a cycle that the unit ignores is stored as four bytes 0" {
        fn encode(cycle: &Cycle) -> [u8; RECORD] {
            match Document01::class(cycle) {
                Class::Ignored => [0; RECORD],
                _ => Document01::encode(cycle),
            }
        }
    }
    VersionZero "the version is written as 0" {
        fn header(count: u64) -> [u8; HEAD] {
            headed(count, |header| header[4] = 0)
        }
    }
    VersionTwo "the version is written as 2" {
        fn header(count: u64) -> [u8; HEAD] {
            headed(count, |header| header[4] = 2)
        }
    }
    VersionLowFirst "the version is written low byte first" {
        fn header(count: u64) -> [u8; HEAD] {
            headed(count, |header| header[3..5].reverse())
        }
    }
    VersionBoth "the version is written as 1 in both bytes" {
        fn header(count: u64) -> [u8; HEAD] {
            headed(count, |header| header[3] = 1)
        }
    }
    MarkSmall "the mark is written in small letters" {
        fn header(count: u64) -> [u8; HEAD] {
            headed(count, |header| header[..3].make_ascii_lowercase())
        }
    }
    MarkReversed "the mark is written from its end" {
        fn header(count: u64) -> [u8; HEAD] {
            headed(count, |header| header[..3].reverse())
        }
    }
    CountLowFirst "the count is written low byte first" {
        fn header(count: u64) -> [u8; HEAD] {
            headed(count, |header| header[5..].reverse())
        }
    }
    CountByte "the count is written in its low byte alone" {
        fn header(count: u64) -> [u8; HEAD] {
            headed(count, |header| header[5] = 0)
        }
    }
    CountBehind "the header has the count without this cycle" {
        fn header(count: u64) -> [u8; HEAD] {
            Document01::header(count.saturating_sub(1))
        }
    }
    CountAhead "the header has a record more than there are" {
        fn header(count: u64) -> [u8; HEAD] {
            Document01::header(count + 1)
        }
    }
    CountBytes "the header has the bytes of the records" {
        fn header(count: u64) -> [u8; HEAD] {
            Document01::header((RECORD as u64 * count) & 0xFFFF)
        }
    }
    CountLength "the header has the length of the trace" {
        fn header(count: u64) -> [u8; HEAD] {
            Document01::header((HEAD as u64 + RECORD as u64 * count) & 0xFFFF)
        }
    }
    CountZero "the header has the count 0 after every cycle" {
        fn header(_count: u64) -> [u8; HEAD] {
            Document01::header(0)
        }
    }
    CountMost "the header has the count 16,000 from the start" {
        fn header(_count: u64) -> [u8; HEAD] {
            Document01::header(MOST as u64)
        }
    }
    HeaderLast "the header is left to a last call" {
        fn put_header(_buffer: &mut [u8], _count: u64) {}
    }
    HeaderAtStart "the header is written at the start alone" {
        fn put_header(buffer: &mut [u8], count: u64) {
            partly(buffer, count, 0..0);
        }
    }
    HeaderByFirst "the header is written at the start and by the first cycle" {
        fn put_header(buffer: &mut [u8], count: u64) {
            if count < 2 {
                Document01::put_header(buffer, count);
            }
        }
    }
    HeaderBySecond "the header is brought up to date by every second cycle" {
        fn put_header(buffer: &mut [u8], count: u64) {
            if count % 2 == 0 {
                Document01::put_header(buffer, count);
            }
        }
    }
    CountRewritten "a cycle rewrites the count of the header alone" {
        fn put_header(buffer: &mut [u8], count: u64) {
            partly(buffer, count, 5..HEAD);
        }
    }
    LowRewritten "a cycle rewrites the low byte of the count alone" {
        fn put_header(buffer: &mut [u8], count: u64) {
            partly(buffer, count, 6..HEAD);
        }
    }
    CountNotRewritten "a cycle rewrites mark and version alone" {
        fn put_header(buffer: &mut [u8], count: u64) {
            partly(buffer, count, 0..5);
        }
    }
    MarkNotRewritten "a cycle rewrites version and count alone" {
        fn put_header(buffer: &mut [u8], count: u64) {
            partly(buffer, count, 3..HEAD);
        }
    }
    MarkedRewritten "a cycle rewrites a header with the mark alone" {
        fn put_header(buffer: &mut [u8], count: u64) {
            if count == 0 || buffer.starts_with(&MARK) {
                Document01::put_header(buffer, count);
            }
        }
    }
    CountNotDown "the count in the header never goes down" {
        fn put_header(buffer: &mut [u8], count: u64) {
            let found = header_count(buffer).filter(|found| count > 0 && *found > count);
            Document01::put_header(buffer, found.unwrap_or(count));
        }
    }
    CountAdded "a cycle adds 1 to the count in the header" {
        fn put_header(buffer: &mut [u8], count: u64) {
            let found = header_count(buffer).filter(|_| count > 0);
            Document01::put_header(buffer, found.map_or(0, |found| (found + 1) & 0xFFFF));
        }
    }
}
