//! Input of 16,000 records for the board's benchmark, in the mixes of a unit's.
//! But for noise the board is first programmed as a real one: units go in pairs,
//! one for each range of segments, the first pair for system mode, another for
//! normal mode, and those of other users are off. So one unit drives.

use super::mixes::{self, NAMES};
use super::random::Random;
use crate::packed_board::{RECORD, RECORDS};
use crate::unit::mode;

const ACKNOWLEDGE: [u8; 4] = [0x14, 0, 0, 0];
const RESET: [u8; 4] = [0x00, 0x80, 0, 0];

const CLEAR_VTR: u8 = 0x11;
const CLEAR_FATL: u8 = 0x14;

/// The input of a mix, by its place in `NAMES`, on so many units.
pub fn input(mix: usize, units: usize, seed: u64) -> Vec<u8> {
    let mut mixer = Mixer {
        random: Random::new(seed, (NAMES.len() * units + mix) as u64),
        units,
        user: 1,
        records: Vec::new(),
    };
    if mix < 4 {
        mixer.program(mix == 0);
    }
    while mixer.records.len() < RECORDS {
        mixer.next(mix);
    }
    mixer.records.truncate(RECORDS);
    let mut input = vec![units as u8];
    input.extend(mixer.records.concat());
    input
}

struct Mixer {
    random: Random,
    units: usize,
    /// The pair of units that is on for normal mode.
    user: usize,
    records: Vec<[u8; RECORD]>,
}

impl Mixer {
    fn push(&mut self, record: [u8; 4], selects: u16) {
        let [bus, segment, offset, data] = record;
        let [high, low] = selects.to_be_bytes();
        let address = self.random.byte();
        self.records
            .push([bus, segment, offset, data, address, high, low]);
    }

    fn write(&mut self, selects: u16, code: u8, data: u8) {
        self.push([0x83, 0, code, data], selects);
    }

    /// What a unit's MR should be.
    fn mode(&self, number: usize) -> u8 {
        let pair = number / 2;
        let on = mode::MSEN | mode::TRNS | number as u8 & mode::ID;
        let range = if number % 2 == 1 { mode::URS } else { 0 };
        match pair {
            _ if self.units == 1 => on,
            0 => on | mode::MST | range,
            _ if pair == self.user => on | mode::MST | mode::NMS | range,
            _ => (on | mode::MST | mode::NMS | range) & !mode::MSEN,
        }
    }

    fn set_mode(&mut self, number: usize) {
        self.write(1 << number, 0x00, self.mode(number));
    }

    /// Loads all descriptors with %0F, a pair of units at once, and sets the
    /// modes.
    fn program(&mut self, open: bool) {
        for first in (0..self.units).step_by(2) {
            let pair = 0b11 << first;
            self.write(pair, 0x20, 0);
            self.write(pair, 0x01, 0);
            for byte in mixes::table(&mut self.random, open) {
                self.write(pair, 0x0F, byte);
            }
        }
        for number in 0..self.units {
            self.set_mode(number);
        }
    }

    fn unit(&mut self) -> usize {
        self.random.below(self.units)
    }

    fn all(&self) -> u16 {
        0xFFFF >> (16 - self.units)
    }

    fn next(&mut self, mix: usize) {
        if mix < 4 && self.units > 4 && self.random.once_in(500) {
            return self.switch();
        }
        match (mix, self.random.below(1000)) {
            (0, 0..=2) | (1, 0..=39) | (2, 0..=19) | (3, 0..=39) => self.push(ACKNOWLEDGE, 0),
            (0, 3..=4) | (1, 40..=69) => self.write(self.all(), CLEAR_VTR, 0),
            (1, 70..=74) => self.write(self.all(), CLEAR_FATL, 0),
            (2, 20) | (3, 40..=41) => self.reset(),
            (2, 100..) | (3, 42..=359) => self.command(),
            (3, 960..) => self.some_noise(),
            (4, _) => {
                let (record, selects) = (mixes::noise(&mut self.random), self.random.word());
                self.push(record, selects);
            }
            _ => self.memory(mix == 0),
        }
    }

    /// Both ranges alike, if there is a unit for each.
    fn memory(&mut self, quiet: bool) {
        let mut record = mixes::memory(&mut self.random, quiet);
        if self.units > 1 {
            record[1] = self.random.byte() & 0x7F;
        }
        self.push(record, 0);
    }

    /// Another user's pair is on from now on.
    fn switch(&mut self) {
        let old = self.user;
        self.user = self.random.between(1, self.units / 2 - 1);
        for pair in [old, self.user] {
            self.set_mode(2 * pair);
            self.set_mode(2 * pair + 1);
        }
    }

    fn reset(&mut self) {
        self.push(RESET, 0);
        for number in 0..self.units {
            if self.mode(number) & mode::MSEN != 0 {
                self.set_mode(number);
            }
        }
    }

    /// A read of one unit, seldom of several, or a write to one or some. MRs stay
    /// as they should be.
    fn command(&mut self) {
        let [bus, segment, code, data] = mixes::command(&mut self.random);
        let (read, number) = (bus & 0x10 != 0, self.unit());
        let alone = match read {
            true => !self.random.once_in(64),
            false => !self.random.once_in(4),
        };
        let selects = match alone || matches!(code, 0x00 | 0x10) {
            true => 1 << number,
            false => self.random.word() & self.all(),
        };
        match (code, read) {
            (0x00, false) => self.set_mode(number),
            _ => self.push([bus, segment, code, data], selects),
        }
        if code == 0x10 {
            self.set_mode(number);
        }
    }

    /// Any record, but no command and no reset: those would change modes for
    /// good.
    fn some_noise(&mut self) {
        let [bus, segment, offset, data] = mixes::noise(&mut self.random);
        self.push([bus, segment & 0x7F, offset, data], 0);
    }
}
