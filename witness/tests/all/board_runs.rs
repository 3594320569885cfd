//! Runs of any boards on any cycles: what the tests of a board's laws have in
//! common.

use witness::board::{Board, BoardAnswer, BoardCycle, Place, Units};
use witness::cycle::{Cycle, Kind};
use witness::generate::boards::hand::{count, modes, Modes};
use witness::generate::boards::rig::drivers;
use witness::generate::low::low;
use witness::generate::random::Random;
use witness::unit::{mode, Unit};
use witness::Document01;

use crate::pairs::{busy, code, small};

pub const BOARDS: usize = 700;
pub const CYCLES: usize = 40;

/// A board of any undamaged units, whose modes often keep them apart. Those past
/// the count are any as well.
pub fn board(random: &mut Random) -> Units {
    let count = count(random);
    let mut units = Units::power_on(count);
    let wanted = random.pick(&[Modes::Apart, Modes::Apart, Modes::Loose, Modes::Any]);
    let modes = modes(random, usize::from(count), wanted);
    for (place, mr) in units.places.iter_mut().zip(modes) {
        place.unit = Unit { mr, ..busy(random) };
    }
    units
}

/// Any cycle. Writes of MR are few, and of modes that a unit has.
pub fn cycle(units: &Units, random: &mut Random) -> BoardCycle {
    let status = match random.below(16) {
        0 => random.byte(),
        1 => random.byte() % 16,
        2 => 0x4,
        3..=5 => 0x3,
        6..=8 => 0xD,
        _ => random.pick(&[0x8, 0x9, 0x9, 0xA, 0xB, 0xC, 0xD]),
    };
    let present = Document01::looked_at(units.count);
    let number = random.below(present.max(1));
    let code = match (code(random), random.once_in(8)) {
        (0, false) => 0x02,
        (code, _) => code,
    };
    let one = 1 << number;
    let any = random.word();
    let selects = random.pick(&[one, one, one | any & any.rotate_left(3), any, 0xFFFF]);
    let cycle = Cycle {
        status,
        read: random.coin(),
        normal: random.coin(),
        dma: random.once_in(6),
        select: random.coin(),
        segment: random.byte() & random.pick(&[0x7F, 0x7F, 0x7F, 0x7F, 0x7F, 0x7F, 0x7F, 0xFF]),
        offset: if status == 0x3 { code } else { small(random) },
        low: low(random),
        data: match (status, code) {
            (0x3, 0) => units.places[number].unit.mr,
            _ => random.byte(),
        },
        reset: random.once_in(300),
    };
    BoardCycle { cycle, selects }
}

/// One cycle of a board, which is here as it was before and as it is after.
pub struct Turn {
    pub before: Units,
    pub cycle: BoardCycle,
    pub answer: BoardAnswer,
    pub after: Units,
}

impl Turn {
    pub fn new(units: &mut Units, cycle: BoardCycle) -> Turn {
        let before = units.clone();
        let answer = Document01::board_step(units, &cycle);
        let after = units.clone();
        Turn {
            before,
            cycle,
            answer,
            after,
        }
    }

    pub fn present(&self) -> &[Place] {
        &self.before.places[..Document01::looked_at(self.before.count)]
    }

    pub fn is(&self, kind: Kind) -> bool {
        self.answer.answer.kind == kind
    }

    pub fn refused(&self) -> bool {
        matches!(self.answer.answer.kind, Kind::Refused(_))
    }
}

pub type Wanted = (&'static str, fn(&Turn) -> bool);

/// Every cycle keeps the law, and what is wanted comes often.
pub fn every(new: fn(&mut Random) -> Units, law: fn(&Turn, &mut Random), wanted: &[Wanted]) {
    let mut random = Random::new(3, 0);
    let mut counts = vec![0; wanted.len()];
    for _ in 0..BOARDS {
        let mut units = new(&mut random);
        for _ in 0..CYCLES {
            let cycle = cycle(&units, &mut random);
            let turn = Turn::new(&mut units, cycle);
            law(&turn, &mut random);
            for (count, (_, meets)) in counts.iter_mut().zip(wanted) {
                *count += usize::from(meets(&turn));
            }
        }
    }
    for (count, (name, _)) in counts.iter().zip(wanted) {
        assert!(*count >= 50, "only {count}: {name}");
    }
}

/// What runs of several units must meet often, or they would say nothing.
pub const USUAL: &[Wanted] = &[
    ("translated", |turn| turn.is(Kind::Translated)),
    ("translated by another than unit 0", |turn| {
        turn.is(Kind::Translated) && turn.answer.unit > Some(0)
    }),
    ("passed", |turn| turn.is(Kind::Passed)),
    ("aborted", |turn| turn.is(Kind::AbortedFetch)),
    ("aborted in a unit that does not drive", |turn| {
        let awaits = turn.present().iter().any(|place| place.unit.awaits);
        turn.is(Kind::Translated) && turn.cycle.cycle.status == 0xD && awaits
    }),
    ("suppressed by another than the driver", |turn| {
        let hold = |number: usize| turn.before.places[number].unit.hold;
        let driver = turn.answer.unit.is_some_and(|number| !hold(number));
        turn.answer.answer.sup && driver
    }),
    ("ignored", |turn| turn.is(Kind::Ignored)),
    ("command", |turn| turn.is(Kind::Command)),
    ("command read", |turn| {
        turn.is(Kind::Command) && turn.cycle.cycle.read
    }),
    ("acknowledge", |turn| turn.is(Kind::Acknowledge)),
    ("reset", |turn| turn.is(Kind::Reset)),
    ("1", |turn| turn.is(Kind::Refused(1))),
    ("3", |turn| turn.is(Kind::Refused(3))),
    ("4", |turn| turn.is(Kind::Refused(4))),
    ("12", |turn| turn.is(Kind::Refused(12))),
    ("13", |turn| turn.is(Kind::Refused(13))),
    ("16 units", |turn| turn.before.count == 16),
];

/// The ticket's sentence of 12 on a unit's MR, of a memory cycle.
pub fn would_drive(mr: u8, cycle: &Cycle) -> bool {
    let flag = |mask: u8| mr & mask != 0;
    let upper = cycle.segment >> 6 & 1 == 1;
    let range = flag(mode::URS) == upper;
    let table = !flag(mode::MST) || flag(mode::NMS) == cycle.normal;
    flag(mode::MSEN) && (!flag(mode::TRNS) || range && table)
}

/// How many units of a board would drive, by that sentence; the model agrees.
pub fn driving(units: &Units, cycle: &BoardCycle) -> usize {
    let memory = matches!(cycle.cycle.status, 0x8..=0xD) && !cycle.cycle.reset;
    let places = units.places.iter().take(usize::from(units.count));
    let drive = places.filter(|place| memory && would_drive(place.unit.mr, &cycle.cycle));
    let count = drive.count();
    assert_eq!(count, drivers(units, cycle).len());
    count
}
