//! A desk: a lent buffer that is recorded into while its script is written, so
//! that the next line can be aimed at where the trace ends. And cycles to record.

use std::fmt::Write;

use crate::cycle::{Cycle, LAST_SEGMENT};
use crate::recorder::{put, Lent, Recorder};
use crate::script::cycle_of;
use crate::trace::{HEAD, RECORD};
use crate::Document01;

use super::super::low::low;
use super::super::random::Random;
use super::super::steps::cycle_fields;

pub struct Desk {
    pub random: Random,
    pub lent: Lent,
    pub text: String,
}

/// The bytes of a trace of so many records.
pub fn length(records: usize) -> usize {
    HEAD + RECORD * records
}

impl Desk {
    pub fn new(random: Random) -> Desk {
        Desk {
            random,
            lent: Lent::default(),
            text: String::new(),
        }
    }

    fn line(&mut self, line: &str) {
        writeln!(self.text, "{line}").expect("a string takes every line");
    }

    pub fn lend(&mut self, length: usize, byte: u8) {
        self.line(&format!("B {length:04X} {byte:02X}"));
        let buffer = vec![byte; length];
        self.lent = Lent { buffer, count: 0 };
    }

    /// The same with one of the bytes that tell most.
    pub fn lend_any(&mut self, length: usize) {
        let any = self.random.byte();
        let byte = self.random.pick(&[0xAA, 0x00, 0xFF, any]);
        self.lend(length, byte);
    }

    pub fn put(&mut self, at: usize, byte: u8) {
        self.line(&format!("P {at:04X} {byte:02X}"));
        put(&mut self.lent.buffer, at, &[byte]);
    }

    pub fn count(&mut self, count: u64) {
        self.line(&format!("N {count:016X}"));
        self.lent.count = count;
    }

    pub fn start(&mut self) {
        self.line("S");
        Document01::record_start(&mut self.lent);
    }

    pub fn cycle(&mut self, cycle: Cycle) {
        self.line(&format!("C {}", cycle_fields(&cycle)));
        Document01::record_cycle(&mut self.lent, &cycle);
    }

    pub fn any(&mut self) {
        let cycle = any(&mut self.random);
        self.cycle(cycle);
    }

    pub fn several(&mut self, times: usize) {
        for _ in 0..times {
            self.any();
        }
    }

    pub fn beyond(&mut self) {
        let cycle = beyond(&mut self.random);
        self.cycle(cycle);
    }

    pub fn text(&mut self) {
        self.line("T");
    }
}

/// Any cycle within its numbers, often at their edges, and often a reset.
pub fn any(random: &mut Random) -> Cycle {
    let segment = random.byte() & LAST_SEGMENT;
    let [read, normal, dma, select] = [0; 4].map(|_| random.coin());
    Cycle {
        status: random.byte() % 16,
        read,
        normal,
        dma,
        select,
        segment: random.pick(&[segment, segment, segment, 0, 63, 64, LAST_SEGMENT]),
        offset: random.byte(),
        low: low(random),
        data: random.byte(),
        reset: random.once_in(4),
    }
}

/// The same with its status or segment or both out of its numbers, often by one.
pub fn beyond(random: &mut Random) -> Cycle {
    let cycle = any(random);
    let far = cycle.status | random.byte() << 4 | 0x10;
    let status = random.pick(&[16, 16, 17, 0x80, 0xFF, far, far]);
    let far = cycle.segment | 0x80;
    let segment = random.pick(&[128, 128, 129, 0xFF, far, far]);
    match random.below(5) {
        0 | 1 => Cycle { status, ..cycle },
        2 | 3 => Cycle { segment, ..cycle },
        _ => Cycle {
            status,
            segment,
            ..cycle
        },
    }
}

/// The bits of a script's six bytes that a cycle within its numbers has.
const BITS: [u8; 6] = [0x0F, 0x1F, LAST_SEGMENT, 0xFF, 0xFF, 0xFF];

/// A cycle for each bit, with this one alone or with all but this one.
pub fn bit_by_bit(alone: bool) -> Vec<Cycle> {
    let mut cycles = Vec::new();
    for (place, bits) in BITS.into_iter().enumerate() {
        for bit in (0..8).map(|bit| 1 << bit).filter(|bit| bits & bit != 0) {
            let mut bytes = if alone { [0; 6] } else { BITS };
            bytes[place] ^= bit;
            cycles.push(cycle_of(bytes));
        }
    }
    cycles
}
