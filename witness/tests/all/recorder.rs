//! The recorder: ticket 1's sentences worked out by hand, and its round trip.

use witness::cycle::{Cycle, LAST_SEGMENT};
use witness::generate::file;
use witness::generate::random::Random;
use witness::generate::recorders::desk::{any, beyond, length};
use witness::recorder::{Lent, Recorder};
use witness::recorder_script::trace;
use witness::step::Step;
use witness::trace::{Layout, HEAD, LONGEST, MOST, RECORD};
use witness::Document01;

/// A buffer of so many bytes, each of them this one.
fn lent(length: usize, byte: u8) -> Lent {
    let buffer = vec![byte; length];
    Lent { buffer, count: 0 }
}

/// A buffer of so many bytes of any kind.
fn any_lent(random: &mut Random, length: usize) -> Lent {
    let buffer = (0..length).map(|_| random.byte()).collect();
    Lent { buffer, count: 0 }
}

/// Each of the cycles, one after the other from the start on, and those that
/// were taken.
fn recorded(lent: &mut Lent, cycles: &[Cycle]) -> Vec<Cycle> {
    assert_eq!(Document01::record_start(lent), 0);
    let mut taken = Vec::new();
    for cycle in cycles {
        if Document01::record_cycle(lent, cycle) == 0 {
            taken.push(*cycle);
        }
    }
    taken
}

/// What the reader gives back of it.
fn read(lent: &Lent) -> Vec<Cycle> {
    let trace = trace(lent);
    assert_eq!(Document01::count(trace), Ok(lent.count as usize));
    Document01::cycles(trace).collect()
}

/// As a record has it: the low byte of ticket 8 is dropped.
fn without_low(cycles: &[Cycle]) -> Vec<Cycle> {
    let dropped = cycles.iter().map(|cycle| Cycle { low: 0, ..*cycle });
    dropped.collect()
}

/// The call is refused, and both are as they were.
fn refused(number: u8, lent: &Lent, cycle: &Cycle) {
    let mut after = lent.clone();
    assert_eq!(Document01::record_cycle(&mut after, cycle), number);
    assert_eq!(after, *lent, "{cycle:?}");
}

#[test]
fn the_start_writes_a_header_of_no_records() {
    let mut lent = lent(9, 0xAA);
    lent.count = 5;
    assert_eq!(Document01::record_start(&mut lent), 0);
    assert_eq!(lent.count, 0);
    assert_eq!(lent.buffer, *b"MBT\x00\x01\x00\x00\xAA\xAA");
}

#[test]
fn the_start_is_refused_10_below_seven_bytes_and_gives_0() {
    for length in 0..HEAD {
        let mut lent = lent(length, 0xAA);
        lent.count = 5;
        assert_eq!(Document01::record_start(&mut lent), 10);
        assert_eq!((lent.count, lent.buffer), (0, vec![0xAA; length]));
    }
}

#[test]
fn a_cycle_is_one_record_and_the_header_follows() {
    let mut lent = lent(12, 0xAA);
    let read = Cycle {
        status: 0xD,
        read: true,
        normal: true,
        segment: 5,
        offset: 0x15,
        low: 0x99,
        ..Cycle::default()
    };
    assert_eq!(recorded(&mut lent, &[read]), [read]);
    assert_eq!(lent.count, 1);
    let bytes = b"MBT\x00\x01\x00\x01\x3D\x05\x15\x00\xAA";
    assert_eq!(lent.buffer, bytes);
}

#[test]
fn a_reset_cycle_keeps_all_its_other_fields() {
    let cycle = Cycle {
        status: 0xF,
        read: true,
        normal: true,
        dma: true,
        select: true,
        segment: LAST_SEGMENT,
        offset: 0x5A,
        low: 0,
        data: 0xA5,
        reset: true,
    };
    let mut lent = lent(11, 0);
    recorded(&mut lent, &[cycle]);
    assert_eq!(lent.buffer[HEAD..], [0xFF, 0xFF, 0x5A, 0xA5]);
    assert_eq!(read(&lent), [cycle]);
}

/// The count passed in rules, and every accepted call rewrites all seven bytes.
#[test]
fn the_count_in_the_header_is_not_looked_at() {
    let mut random = Random::new(5, 0);
    for count in 0..8 {
        let mut lent = any_lent(&mut random, length(8));
        lent.count = count;
        let before = lent.buffer.clone();
        let cycle = any(&mut random);
        assert_eq!(Document01::record_cycle(&mut lent, &cycle), 0);
        assert_eq!(lent.count, count + 1);
        assert_eq!(lent.buffer[..HEAD], Document01::header(count + 1));
        let place = HEAD + RECORD * count as usize;
        assert_eq!(lent.buffer[HEAD..place], before[HEAD..place]);
        let end = place + RECORD;
        assert_eq!(lent.buffer[place..end], Document01::encode(&cycle));
        assert_eq!(lent.buffer[end..], before[end..]);
    }
}

/// 1, then 7, then 10, each exactly under its condition and for resets too.
#[test]
fn refusals_come_in_their_order() {
    let counts = [0, 1, 15_998, 15_999, 16_000, 16_001, 65_535, 65_536];
    let far = [1 << 32, (1 << 62) - 1, 1 << 62, 1 << 63, u64::MAX];
    let lengths = (0..16).chain([64_002, 64_003, 64_006, 64_007, 64_008, 65_535]);
    let mut random = Random::new(6, 0);
    for length in lengths {
        for &count in counts.iter().chain(&far) {
            let given = Lent {
                count,
                ..any_lent(&mut random, length)
            };
            let room = length >= HEAD && (length - HEAD) as u64 / RECORD as u64 > count;
            let cycle = any(&mut random);
            refused(1, &given, &beyond(&mut random));
            match (count > 15_999, room) {
                (true, _) => refused(7, &given, &cycle),
                (false, false) => refused(10, &given, &cycle),
                (false, true) => {
                    assert_eq!(Document01::record_cycle(&mut given.clone(), &cycle), 0)
                }
            }
        }
    }
}

#[test]
fn exactly_the_cycles_that_a_unit_refuses_1_are_refused_1() {
    for (status, segment) in (0..=0xFF).flat_map(|status| (0..=0xFF).map(move |s| (status, s))) {
        for reset in [false, true] {
            let cycle = Cycle {
                status,
                segment,
                reset,
                ..Cycle::default()
            };
            let number = Document01::record_cycle(&mut lent(11, 0), &cycle);
            let beyond = status > 15 || segment > 127;
            assert_eq!(number, u8::from(beyond));
            assert_eq!(beyond, Document01::out_of_range(&cycle));
        }
    }
}

/// Lists of cycles, some out of their numbers, in buffers of any length and any
/// bytes: the reader gives back those that were taken, and bytes past the end
/// stay.
#[test]
fn the_reader_gives_back_what_was_recorded() {
    let mut random = Random::new(1, 0);
    let (mut short, mut beyond_met) = (0, 0);
    for _ in 0..3_000 {
        let cycles: Vec<Cycle> = (0..random.below(24))
            .map(|_| match random.once_in(5) {
                true => beyond(&mut random),
                false => any(&mut random),
            })
            .collect();
        let length = HEAD + random.below(100);
        let mut lent = any_lent(&mut random, length);
        let before = lent.buffer.clone();
        let taken = recorded(&mut lent, &cycles);
        let good = |cycle: &&Cycle| !Document01::out_of_range(cycle);
        let good: Vec<Cycle> = cycles.iter().filter(good).copied().collect();
        let room = (length - HEAD) / RECORD;
        assert_eq!(taken, good[..good.len().min(room)]);
        assert_eq!(read(&lent), without_low(&taken));
        let end = trace(&lent).len();
        assert_eq!(lent.buffer[end..], before[end..]);
        short += u32::from(good.len() > room);
        beyond_met += u32::from(good.len() < cycles.len());
    }
    assert!(short > 300 && beyond_met > 300, "{short}, {beyond_met}");
}

/// The trace is good after every call, refused ones among them.
#[test]
fn the_header_is_up_to_date_after_every_cycle() {
    let mut random = Random::new(2, 0);
    let mut lent = any_lent(&mut random, length(40) + 3);
    let mut taken = recorded(&mut lent, &[]);
    for _ in 0..80 {
        let make = random.pick(&[any, any, beyond]);
        let cycle = make(&mut random);
        if Document01::record_cycle(&mut lent, &cycle) == 0 {
            taken.push(cycle);
        }
        assert_eq!(read(&lent), without_low(&taken));
    }
    assert_eq!(taken.len(), 40);
}

#[test]
fn the_same_cycles_give_the_same_bytes_whatever_stood_there() {
    let mut random = Random::new(3, 0);
    for _ in 0..300 {
        let cycles: Vec<Cycle> = (0..random.below(20)).map(|_| any(&mut random)).collect();
        let needed = length(cycles.len());
        let mut first = any_lent(&mut random, needed);
        let longer = needed + random.below(9);
        let mut second = any_lent(&mut random, longer);
        // The low byte is dropped, so it makes no difference either.
        let others: Vec<Cycle> = cycles
            .iter()
            .map(|cycle| Cycle {
                low: random.byte(),
                ..*cycle
            })
            .collect();
        recorded(&mut first, &cycles);
        recorded(&mut second, &others);
        assert_eq!(trace(&first), trace(&second));
    }
}

/// A good trace, read and recorded again.
#[test]
fn a_good_trace_recorded_again_gives_its_bytes() {
    let mut good = 0;
    for trace in (0..150).map(|number| file(7, number)) {
        if Document01::count(&trace).is_ok() {
            let cycles: Vec<Cycle> = Document01::cycles(&trace).collect();
            let mut lent = lent(trace.len(), 0xAA);
            recorded(&mut lent, &cycles);
            assert_eq!(lent.buffer, trace);
            good += 1;
        }
    }
    assert_eq!(good, 100);
}

/// Every record that there is: all that its four bytes can be, one byte at a time
/// and two beside each other.
#[test]
fn every_record_is_a_cycle_and_the_same_record_again() {
    for (high, low) in (0..=0xFF).flat_map(|high| (0..=0xFF).map(move |low| (high, low))) {
        for record in [[high, low, low, high], [low, high, high, low]] {
            assert_eq!(Document01::encode(&Document01::decode(record)), record);
        }
    }
}

#[test]
fn a_trace_has_16000_records_and_the_next_is_refused_7() {
    let mut random = Random::new(4, 0);
    for length in [LONGEST, LONGEST + 1, LONGEST + RECORD, 0xFFFF] {
        let cycles: Vec<Cycle> = (0..MOST).map(|_| any(&mut random)).collect();
        let mut lent = any_lent(&mut random, length);
        assert_eq!(recorded(&mut lent, &cycles).len(), MOST);
        assert_eq!(read(&lent), without_low(&cycles));
        refused(7, &lent, &any(&mut random));
    }
    let cycles: Vec<Cycle> = (0..MOST).map(|_| any(&mut random)).collect();
    let mut lent = any_lent(&mut random, LONGEST - 1);
    assert_eq!(recorded(&mut lent, &cycles).len(), MOST - 1);
    refused(10, &lent, &any(&mut random));
    assert_eq!(read(&lent), without_low(&cycles[..MOST - 1]));
}
