//! Pairs of units that differ in nothing but descriptors outside a set, stepped
//! by the same cycles, any at all that a rule allows: what the tests of tickets
//! 2, 5 and 12 run on. That of ticket 8 has pairs and cycles of its own, and that
//! of demand 3's line pairs.

use witness::commands::code::{CLEAR_VTR, MR, VTR};
use witness::cycle::{Answer, Cycle, Kind};
use witness::generate::low::low;
use witness::generate::random::Random;
use witness::generate::steps::undamaged;
use witness::step::Step;
use witness::unit::{attribute, mode, Descriptor, Unit};
use witness::Document01;

pub const PAIRS: usize = 10_000;
pub const CYCLES: usize = 60;

/// Document 01's sentence of translation, of a memory cycle that is not
/// refused. Whether it is an aborted fetch makes no difference here.
pub fn translates(unit: &Unit, cycle: &Cycle) -> bool {
    let [nms, mst, urs, trns, msen] = [3, 4, 5, 6, 7].map(|bit| unit.mr >> bit & 1 == 1);
    let memory = matches!(cycle.status, 0x8..=0xD) && cycle.segment <= 127 && !cycle.reset;
    let upper = cycle.segment >= 64;
    memory && msen && trns && urs == upper && (!mst || nms == cycle.normal)
}

/// Two units, and a set of descriptor numbers.
pub struct Pair {
    pub inside: Vec<u8>,
    pub units: [Unit; 2],
}

/// One cycle in both units, the first unit's, which is here as it was before.
pub struct Turn {
    pub before: Unit,
    pub cycle: Cycle,
    pub answers: [Answer; 2],
}

impl Turn {
    /// The first unit's descriptor of the cycle's segment, as it stood.
    pub fn descriptor(&self) -> &Descriptor {
        &self.before.table[usize::from(self.cycle.segment % 64)]
    }
}

impl Pair {
    /// Units that are equal but for descriptors outside a set, which is often
    /// empty or full or nearly so.
    pub fn new(random: &mut Random) -> Pair {
        let odds = random.pick(&[0, 1, 8, 32, 56, 63, 64]);
        let inside: Vec<u8> = (0..64).filter(|_| random.below(64) < odds).collect();
        let unit = busy(random);
        let mut twin = Unit {
            table: busy(random).table,
            ..unit.clone()
        };
        for &number in &inside {
            twin.table[usize::from(number)] = unit.table[usize::from(number)];
        }
        let units = [unit, twin];
        Pair { inside, units }
    }

    pub fn has(&self, segment: u8) -> bool {
        self.inside.contains(&(segment % 64))
    }

    pub fn translates(&self, cycle: &Cycle) -> bool {
        self.units.iter().any(|unit| translates(unit, cycle))
    }

    pub fn looks_inside(&self, cycle: &Cycle) -> bool {
        self.has(cycle.segment) || !self.translates(cycle)
    }

    /// Equal in all but the descriptors outside.
    pub fn alike(&self) -> bool {
        let [unit, twin] = &self.units;
        let mut table = unit.table;
        for &number in &self.inside {
            table[usize::from(number)] = twin.table[usize::from(number)];
        }
        let mended = Unit {
            table,
            ..twin.clone()
        };
        mended == *unit
    }

    /// Any cycle. The data byte is drawn for MR, and any other code takes it.
    pub fn any(&self, random: &mut Random) -> Cycle {
        let status = match random.below(16) {
            0 => random.byte(),
            1 => random.byte() % 16,
            2 => 0x4,
            3..=6 => 0x3,
            7..=9 => 0xD,
            _ => random.pick(&[0x8, 0x9, 0x9, 0x9, 0xA, 0xB, 0xC, 0xD]),
        };
        Cycle {
            status,
            read: random.coin(),
            normal: random.coin(),
            dma: random.once_in(5),
            select: !random.once_in(4),
            segment: self.segment(random),
            offset: match status {
                0x3 => code(random),
                _ => small(random),
            },
            low: low(random),
            data: translating(random),
            reset: random.once_in(200),
        }
    }

    /// Any segment, but mostly one inside and in the unit's range.
    fn segment(&self, random: &mut Random) -> u8 {
        let number = match random.below(4) {
            1.. if !self.inside.is_empty() => random.pick(&self.inside),
            _ => random.byte() % 64,
        };
        let range = if self.units[0].mode(mode::URS) { 64 } else { 0 };
        match random.below(32) {
            0 => number | random.byte() | 0x80,
            1..=8 => number | random.byte() & 0x40,
            _ => number | range,
        }
    }

    /// Steps both units with any cycle that the rule allows.
    pub fn turn(&mut self, random: &mut Random, rule: &impl Fn(&Pair, &Cycle) -> bool) -> Turn {
        let mut cycle = self.any(random);
        while !rule(self, &cycle) {
            cycle = self.any(random);
        }
        self.step(cycle, cycle)
    }

    /// Steps each unit with a cycle of its own.
    pub fn step(&mut self, cycle: Cycle, twin: Cycle) -> Turn {
        let before = self.units[0].clone();
        let [unit, other] = &mut self.units;
        let answers = [
            Document01::step(unit, &cycle),
            Document01::step(other, &twin),
        ];
        Turn {
            before,
            cycle,
            answers,
        }
    }
}

/// Any undamaged unit, but one that mostly translates, often without a
/// violation: few flags but DIRW, and limits that offsets often meet.
pub fn busy(random: &mut Random) -> Unit {
    let mut unit = undamaged(random);
    unit.mr = translating(random);
    unit.vtr &= random.pick(&[0, 0xFF]);
    for descriptor in &mut unit.table {
        descriptor.attributes &= random.byte() & random.byte() | attribute::DIRW;
        descriptor.limit = small(random);
    }
    unit
}

/// A mode register with MSEN and TRNS set, or any.
fn translating(random: &mut Random) -> u8 {
    match random.below(8) {
        0 => random.byte(),
        _ => random.byte() | mode::MSEN | mode::TRNS,
    }
}

/// Any byte, but mostly 0 or 1.
pub fn small(random: &mut Random) -> u8 {
    random.byte() & random.pick(&[0x01, 0x01, 0xFF])
}

/// Any code. MR often, since a reset leaves no unit translating, clear VTR,
/// since some things are recorded only after it, and registers that show them.
pub fn code(random: &mut Random) -> u8 {
    match random.below(9) {
        0 | 1 => MR,
        2 | 3 => CLEAR_VTR,
        4 => random.byte(),
        5 => VTR + random.byte() % 6,
        _ => random.byte() % 0x24,
    }
}

pub type Wanted = (&'static str, fn(&Pair, &Turn) -> bool);

pub fn is(turn: &Turn, kind: Kind) -> bool {
    turn.answers[0].kind == kind
}

pub fn obeys(turn: &Turn, code: u8) -> bool {
    is(turn, Kind::Command) && turn.cycle.offset == code
}

/// Every cycle that the rule allows keeps the law, and what is wanted comes
/// some hundred times.
pub fn every_turn(
    rule: fn(&Pair, &Cycle) -> bool,
    law: fn(&Pair, &Turn) -> bool,
    wanted: &[Wanted],
) {
    every(
        Pair::new,
        |pair, random| pair.turn(random, &rule),
        law,
        wanted,
    );
}

/// The same of any pairs and any way to step them.
pub fn every(
    new: fn(&mut Random) -> Pair,
    next: impl Fn(&mut Pair, &mut Random) -> Turn,
    law: fn(&Pair, &Turn) -> bool,
    wanted: &[Wanted],
) {
    let mut random = Random::new(12, 0);
    let mut counts = vec![0; wanted.len()];
    for number in 0..PAIRS {
        let mut pair = new(&mut random);
        for _ in 0..CYCLES {
            let turn = next(&mut pair, &mut random);
            let Turn { cycle, answers, .. } = turn;
            assert!(law(&pair, &turn), "pair {number}: {cycle:?}, {answers:?}");
            for (count, (_, meets)) in counts.iter_mut().zip(wanted) {
                *count += usize::from(meets(&pair, &turn));
            }
        }
    }
    for (count, (name, _)) in counts.iter().zip(wanted) {
        assert!(*count >= 200, "only {count}: {name}");
    }
}
