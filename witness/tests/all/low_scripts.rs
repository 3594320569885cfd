//! Low bytes in the generated scripts: no capture has one, so these alone tell
//! a wrong reading of ticket 8, and must meet each case often enough.

use std::collections::BTreeSet;

use witness::coverage::event::Event;
use witness::coverage::Row;
use witness::cycle::{Cycle, Kind};
use witness::unit::{attribute, violation};

use crate::scripted::{each_cycle, meet_often, ENOUGH, SEEDS};

type Case = (&'static str, fn(&Event) -> bool);

fn faults(e: &Event) -> bool {
    e.cpu_violation() || e.warning()
}

/// Another byte than the kept one is stored.
fn stores(e: &Event) -> bool {
    faults(e) && e.before.vtr == 0 && e.cycle.low != e.before.low
}

/// The kept byte would be seen to change if it were stored or cleared.
fn would_show(e: &Event) -> bool {
    e.before.low != 0 && e.before.low != e.cycle.low
}

fn further(e: &Event) -> bool {
    would_show(e) && e.primary() && e.own
}

fn later(e: &Event) -> bool {
    would_show(e) && e.primary() && !e.own
}

fn obeys(e: &Event, code: u8, read: bool) -> bool {
    would_show(e) && e.is(Kind::Command) && e.cycle.offset == code && e.cycle.read == read
}

fn refused(e: &Event, number: u8) -> bool {
    would_show(e) && e.is(Kind::Refused(number))
}

/// The last block that is permitted upward, where a low byte would count first.
fn last_block(e: &Event) -> bool {
    let edge = e.cycle.offset == e.descriptor().limit && !e.descriptor().has(attribute::DIRW);
    e.clean() && !e.cycle.dma && edge
}

const STORED: &[Case] = &[
    ("first violation", |e| stores(e) && e.cpu_violation()),
    ("first warning", |e| stores(e) && e.warning()),
    ("first length violation", |e| {
        stores(e) && e.found(violation::SLV)
    }),
    ("first violation of another flag", |e| {
        stores(e) && e.cpu_violation() && !e.found(violation::SLV)
    }),
    ("0 stored", |e| stores(e) && e.cycle.low == 0),
    ("127 stored", |e| stores(e) && e.cycle.low == 0x7F),
    ("128 stored", |e| stores(e) && e.cycle.low == 0x80),
    ("255 stored", |e| stores(e) && e.cycle.low == 0xFF),
    ("bit 7 set by a store", |e| {
        stores(e) && e.cycle.low >= 0x80 && e.before.low < 0x80
    }),
    ("bit 7 cleared by a store", |e| {
        stores(e) && e.cycle.low < 0x80 && e.before.low >= 0x80
    }),
    ("stored, unlike offset and data byte", |e| {
        stores(e) && e.cycle.low != e.cycle.offset && e.cycle.low != e.cycle.data
    }),
    ("stored while a request stands", |e| {
        stores(e) && e.before.request
    }),
    ("stored while own stands", |e| stores(e) && e.own),
];

const LEFT: &[Case] = &[
    ("further violation", |e| further(e) && e.cpu_violation()),
    ("further warning", |e| further(e) && e.warning()),
    ("FATL set", |e| later(e) && e.cpu_violation() && !e.fatal()),
    ("FATL stands", |e| {
        later(e) && e.cpu_violation() && e.fatal()
    }),
    ("FATL by a warning", |e| {
        later(e) && e.warning() && !e.system_stack()
    }),
    ("SWW set", |e| later(e) && e.system_stack() && !e.second()),
    ("SWW stands", |e| later(e) && e.system_stack() && e.second()),
    ("DMA violation, VTR zero", |e| {
        would_show(e) && e.violation() && e.cycle.dma && e.before.vtr == 0
    }),
    ("DMA violation, a primary flag", |e| {
        would_show(e) && e.violation() && e.cycle.dma && e.primary()
    }),
    ("ISN and IOFF stored", |e| {
        would_show(e) && e.fetch && e.clean() && e.before.vtr == 0
    }),
    ("aborted fetch", |e| {
        would_show(e) && e.is(Kind::AbortedFetch)
    }),
    ("clean cycle", |e| would_show(e) && e.clean() && !e.fetch),
    ("passed", |e| would_show(e) && e.is(Kind::Passed)),
    ("ignored", |e| would_show(e) && e.is(Kind::Ignored)),
    ("suppressed by hold alone", |e| {
        would_show(e) && e.held && !e.violation()
    }),
    ("reset, select off", |e| {
        would_show(e) && e.is(Kind::Reset) && !e.cycle.select
    }),
    ("reset, select on", |e| {
        would_show(e) && e.is(Kind::Reset) && e.cycle.select
    }),
    ("acknowledge of a request", |e| {
        would_show(e) && e.is(Kind::Acknowledge) && e.before.request
    }),
    ("refusal 1", |e| refused(e, 1)),
    ("refusal 2", |e| refused(e, 2)),
    ("refusal 3", |e| refused(e, 3)),
    ("refusal 4", |e| refused(e, 4)),
];

const COMMANDS: &[Case] = &[
    ("MR read", |e| obeys(e, 0x00, true)),
    ("SAR read", |e| obeys(e, 0x01, true)),
    ("VTR read", |e| obeys(e, 0x02, true)),
    ("VSN read", |e| obeys(e, 0x03, true)),
    ("VOFF read", |e| obeys(e, 0x04, true)),
    ("BCSR read", |e| obeys(e, 0x05, true)),
    ("ISN read", |e| obeys(e, 0x06, true)),
    ("IOFF read", |e| obeys(e, 0x07, true)),
    ("DSCR read", |e| obeys(e, 0x20, true)),
    ("a descriptor's byte read", |e| {
        (0x08..=0x0F).any(|code| obeys(e, code, true))
    }),
    ("MR written", |e| obeys(e, 0x00, false)),
    ("SAR written", |e| obeys(e, 0x01, false)),
    ("DSCR written", |e| obeys(e, 0x20, false)),
    ("a descriptor's byte written", |e| {
        (0x08..=0x0F).any(|code| obeys(e, code, false))
    }),
    ("software reset", |e| obeys(e, 0x10, false)),
    ("clear VTR", |e| obeys(e, 0x11, false)),
    ("clear SWW", |e| obeys(e, 0x13, false)),
    ("clear FATL", |e| obeys(e, 0x14, false)),
];

const UNREAD: &[Case] = &[
    ("last block, low byte above 127", |e| {
        last_block(e) && e.cycle.low > 0x7F
    }),
    ("last block, low byte 255", |e| {
        last_block(e) && e.cycle.low == 0xFF
    }),
    ("warning, low byte not 0", |e| {
        e.warning() && e.cycle.low != 0
    }),
    ("translated, low byte 255", |e| {
        e.is(Kind::Translated) && e.cycle.low == 0xFF
    }),
    ("passed, low byte not 0", |e| {
        e.is(Kind::Passed) && e.cycle.low != 0
    }),
];

#[test]
fn every_case_is_met_often() {
    let cases = [STORED, LEFT, COMMANDS, UNREAD].concat();
    meet_often(|| {
        let rows = cases.iter().map(|&(name, meets)| Row::record(name, meets));
        rows.collect()
    });
}

#[test]
fn many_cycles_are_alike_but_for_the_low_byte() {
    for seed in SEEDS {
        let mut alike = 0;
        each_cycle(seed, |event, last| {
            let (low, cycle) = (event.cycle.low, event.cycle);
            let twin = last.is_some_and(|last| last.low != low && Cycle { low, ..last } == cycle);
            alike += u64::from(twin && event.is(Kind::Translated));
        });
        assert!(alike >= ENOUGH, "seed {seed}: only {alike}");
    }
}

/// Every byte is one that a cycle has; nearly every one is kept in some unit,
/// and many are stored.
#[test]
fn the_whole_range_of_bytes_comes() {
    for seed in SEEDS {
        let [mut given, mut stored, mut kept] = [0; 3].map(|_| BTreeSet::new());
        each_cycle(seed, |event, _| {
            given.insert(event.cycle.low);
            kept.insert(event.before.low);
            if stores(event) {
                stored.insert(event.cycle.low);
            }
        });
        assert_eq!(given.len(), 256);
        assert!(kept.len() > 240, "seed {seed}: {}", kept.len());
        assert!(stored.len() > 100, "seed {seed}: {}", stored.len());
    }
}
