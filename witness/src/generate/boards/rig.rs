//! A rig: a board that is stepped along while its script is written, so that the
//! next cycle can be aimed at the state its units are in.

use std::fmt::Write;

use crate::board::{Board, BoardAnswer, BoardCycle, Place, Units};
use crate::commands::code;
use crate::cycle::{Cycle, Kind};
use crate::memory::Memory;
use crate::script::Registers;
use crate::unit::{mode, Descriptor, Unit};
use crate::Document01;

use super::super::low::low;
use super::super::random::Random;
use super::super::steps::cycle_fields;

pub struct Rig {
    pub random: Random,
    pub units: Units,
    /// The descriptors that the case plays with, of either range.
    pub hot: Vec<u8>,
    pub text: String,
    /// Cycles written so far.
    pub cycles: usize,
}

/// The units that would drive the address in a cycle.
pub fn drivers(units: &Units, cycle: &BoardCycle) -> Vec<usize> {
    let present = 0..Document01::looked_at(units.count);
    let drives = |n: &usize| Document01::drives(&units.places[*n].unit, &cycle.cycle);
    present.filter(drives).collect()
}

impl Rig {
    /// A board of so many units at power-on. The hot descriptors may be two of
    /// one number.
    pub fn new(mut random: Random, count: u8) -> Rig {
        let hot = (0..random.between(2, 3)).map(|_| random.byte() % 64);
        Rig {
            hot: hot.collect(),
            units: Units::power_on(count),
            random,
            text: format!("B {count:02X}\n"),
            cycles: 0,
        }
    }

    /// Another board in the same case, with the same hot descriptors.
    pub fn begin_anew(&mut self, count: u8) {
        self.units = Units::power_on(count);
        self.line(&format!("B {count:02X}"));
    }

    pub fn line(&mut self, line: &str) {
        writeln!(self.text, "{line}").expect("a string takes every line");
    }

    /// How many units the board has, or sixteen if it cannot have so many.
    pub fn present(&self) -> usize {
        Document01::looked_at(self.units.count)
    }

    /// Any unit of the board, or the first if it has none.
    pub fn unit(&mut self) -> usize {
        let present = self.present().max(1);
        self.random.below(present)
    }

    /// Puts a unit in its place, with strange bits in its notes if there are any.
    pub fn place(&mut self, number: usize, unit: Unit, strange: u8) {
        let registers = Registers(&unit).to_string();
        let (head, low) = registers.rsplit_once(' ').expect("a unit has registers");
        let (head, notes) = head.rsplit_once(' ').expect("a unit has notes");
        let notes = u8::from_str_radix(notes, 16).expect("notes are a byte") | strange;
        self.line(&format!("U {number:02X} {head} {notes:02X} {low}"));
        for (at, descriptor) in unit.table.iter().enumerate() {
            if *descriptor != Descriptor::default() {
                self.line(&format!("D {number:02X} {at:02X} {descriptor}"));
            }
        }
        let strange = strange != 0;
        self.units.places[number] = Place { unit, strange };
    }

    pub fn push(&mut self, cycle: BoardCycle) -> BoardAnswer {
        let BoardCycle {
            cycle: one,
            selects,
        } = cycle;
        self.line(&format!("C {} {selects:04X}", cycle_fields(&one)));
        self.cycles += 1;
        Document01::board_step(&mut self.units, &cycle)
    }

    /// Mostly hot, of either range.
    pub fn segment(&mut self) -> u8 {
        let hot = self.random.below(self.hot.len());
        let number = match self.random.once_in(16) {
            true => self.random.byte() % 64,
            false => self.hot[hot],
        };
        number + self.random.pick(&[0, 64])
    }

    /// An offset at or beside the limit of a unit that may translate it, or any.
    fn offset(&mut self, segment: u8) -> u8 {
        let range = |unit: &Unit| unit.mode(mode::URS) == (segment >= 64);
        let own: Vec<usize> = (0..self.present())
            .filter(|&n| self.units.places[n].unit.mode(mode::MSEN))
            .filter(|&n| range(&self.units.places[n].unit))
            .collect();
        let number = match own.is_empty() {
            true => self.unit(),
            false => self.random.pick(&own),
        };
        let limit = self.units.places[number].unit.table[usize::from(segment % 64)].limit;
        let near = [limit, limit.wrapping_add(1), limit.wrapping_sub(1)];
        let any = self.random.byte();
        match self.random.below(8) {
            0..=4 => self.random.pick(&near),
            5 => 0,
            _ => any,
        }
    }

    /// Any memory cycle. Selects mean nothing to it.
    pub fn access(&mut self) -> BoardCycle {
        let segment = self.segment();
        let statuses = [0x8, 0x8, 0x9, 0x9, 0x9, 0xA, 0xB, 0xC, 0xD];
        let cycle = Cycle {
            status: self.random.pick(&statuses),
            read: self.random.coin(),
            normal: self.random.coin(),
            dma: self.random.once_in(7),
            select: self.random.coin(),
            segment,
            offset: self.offset(segment),
            low: low(&mut self.random),
            data: self.random.byte(),
            reset: false,
        };
        let selects = self.any_selects();
        BoardCycle { cycle, selects }
    }

    pub fn fetching(&mut self) -> BoardCycle {
        let any = self.access();
        let cycle = Cycle {
            status: 0xD,
            read: true,
            dma: false,
            ..any.cycle
        };
        BoardCycle { cycle, ..any }
    }

    /// A memory cycle that starts no instruction and is as wanted, if some tries
    /// find one; else any.
    pub fn aimed(&mut self, wanted: impl Fn(&Units, &BoardCycle) -> bool) -> BoardCycle {
        let mut last = self.access();
        for _ in 0..60 {
            let fetches = Document01::fetches(&self.units.places[0].unit, &last.cycle);
            if !fetches && wanted(&self.units, &last) {
                break;
            }
            last = self.access();
        }
        last
    }

    /// A fetch that is as wanted, if some tries find one.
    pub fn aimed_fetch(&mut self, wanted: impl Fn(&Units, &BoardCycle) -> bool) -> BoardCycle {
        let mut last = self.fetching();
        for _ in 0..30 {
            if wanted(&self.units, &last) {
                break;
            }
            last = self.fetching();
        }
        last
    }

    /// Any bits, often few or all.
    pub fn any_selects(&mut self) -> u16 {
        let few = 1 << self.random.below(16) | 1 << self.random.below(16);
        let any = self.random.word();
        self.random.pick(&[0, 1, few, few, any, any, 0xFFFF])
    }

    /// Select bits of these units, with any others past the count.
    pub fn only(&mut self, units: &[usize]) -> u16 {
        let own = units.iter().fold(0, |bits, number| bits | 1 << number);
        let past = 0xFFFF_u32 << self.present();
        let others = self.random.pick(&[0, 0, 0xFFFF]) & self.random.word();
        own | others & past as u16
    }

    /// A CPU cycle at status 3 with these selects. The cycle's own select says
    /// nothing, and so it is any.
    pub fn command(&mut self, selects: u16, code: u8, read: bool, data: u8) -> BoardAnswer {
        let cycle = Cycle {
            status: 0x3,
            read,
            normal: self.random.once_in(8),
            select: self.random.coin(),
            segment: self.segment(),
            offset: code,
            low: low(&mut self.random),
            data,
            ..Cycle::default()
        };
        self.push(BoardCycle { cycle, selects })
    }

    pub fn write(&mut self, units: &[usize], code: u8, data: u8) {
        let selects = self.only(units);
        self.command(selects, code, false, data);
    }

    /// Reads a register of one unit.
    pub fn read(&mut self, number: usize, code: u8) {
        let (selects, data) = (self.only(&[number]), self.random.byte());
        self.command(selects, code, true, data);
    }

    pub fn acknowledge(&mut self) -> BoardAnswer {
        let any = self.access();
        let cycle = Cycle {
            status: 0x4,
            dma: false,
            ..any.cycle
        };
        self.push(BoardCycle { cycle, ..any })
    }

    /// Writes one unit's MR.
    pub fn set_mode(&mut self, number: usize, mr: u8) {
        self.write(&[number], code::MR, mr);
    }

    /// All units of the board, some of them, or one.
    pub fn some(&mut self) -> Vec<usize> {
        let present = self.present();
        let odds = self.random.pick(&[1, 2, 3]);
        let some: Vec<usize> = (0..present).filter(|_| self.random.once_in(odds)).collect();
        match some.is_empty() {
            true => vec![self.unit()],
            false => some,
        }
    }
}

/// Whether the board would answer a cycle with this kind.
pub fn answers(units: &Units, cycle: &BoardCycle, kind: Kind) -> bool {
    Document01::board_step(&mut units.clone(), cycle)
        .answer
        .kind
        == kind
}
