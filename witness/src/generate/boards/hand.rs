//! Boards made by hand: units set apart so that one drives, or clashing, or
//! damaged, with any notes, within the count and past it.

use crate::board::PLACES;
use crate::unit::{attribute, mode, violation, Descriptor, Unit};

use super::super::random::Random;
use super::super::steps::undamaged;
use super::rig::Rig;

/// Which units may drive the address at once.
#[derive(Clone, Copy, PartialEq, Eq)]
pub enum Modes {
    /// No two.
    Apart,
    /// One alone, which passes the address.
    Passing,
    /// No two, but for one or two units.
    Loose,
    Any,
    /// Any, and one ID for all.
    OneLine,
}

/// Which notes stand.
#[derive(Clone, Copy, PartialEq, Eq)]
pub enum Notes {
    None,
    Any,
    Requests,
    Holds,
    Awaits,
}

/// The most usual counts are small, so that units have much to do with each
/// other.
pub fn count(random: &mut Random) -> u8 {
    let any = random.between(1, PLACES) as u8;
    random.pick(&[1, 2, 2, 2, 3, 3, 4, 4, 5, any, any, 16, 16])
}

/// MRs of all sixteen, those of the first `count` as wanted.
pub fn modes(random: &mut Random, count: usize, wanted: Modes) -> [u8; PLACES] {
    let mut modes = [0; PLACES].map(|_| random.byte());
    if matches!(wanted, Modes::Any | Modes::OneLine) {
        let line = modes[0] & mode::ID;
        // Else sixteen units would clash in every cycle.
        let odds = random.between(1, count.max(1));
        return modes.map(|mr| match (random.once_in(odds), wanted) {
            (_, Modes::OneLine) => (mr | mode::MSEN) & !mode::ID | line,
            (true, _) => mr | mode::MSEN,
            (false, _) => mr & !mode::MSEN,
        });
    }
    for mr in &mut modes[..count] {
        *mr &= !mode::MSEN;
    }
    let share = match wanted {
        Modes::Passing => vec![mode::MSEN],
        _ => share(random),
    };
    for (number, set) in order(random, count).into_iter().zip(share) {
        modes[number] = modes[number] & mode::ID | set;
    }
    if wanted == Modes::Loose {
        for number in [random.below(count.max(1)), random.below(count.max(1))] {
            modes[number] |= mode::MSEN | random.byte() & mode::TRNS;
        }
    }
    modes
}

/// The units of a board in any order, often the last of them first.
fn order(random: &mut Random, count: usize) -> Vec<usize> {
    let mut order: Vec<usize> = (0..count).rev().collect();
    let kept = usize::from(random.once_in(3));
    for place in (1 + kept..order.len()).rev() {
        order.swap(place, random.between(kept, place));
    }
    order
}

/// Settings that never collide.
fn share(random: &mut Random) -> Vec<u8> {
    let on = mode::MSEN | mode::TRNS;
    let quarter = |urs: u8, nms: u8| on | mode::MST | urs | nms;
    let quarters = vec![
        quarter(0, 0),
        quarter(mode::URS, mode::NMS),
        quarter(0, mode::NMS),
        quarter(mode::URS, 0),
    ];
    match random.below(8) {
        0 => vec![mode::MSEN],
        1 => vec![on],
        2 => vec![on | mode::URS, on],
        3 => vec![on | mode::NMS, on | mode::URS | mode::NMS],
        4 => vec![on | mode::URS, quarter(0, 0), quarter(0, mode::NMS)],
        _ => quarters,
    }
}

/// Any undamaged unit with this MR, whose hot descriptors are mostly open and
/// whose others are empty.
pub fn sane(rig: &mut Rig, mr: u8, notes: Notes) -> Unit {
    let mut unit = Unit {
        mr,
        table: [Descriptor::default(); 64],
        ..undamaged(&mut rig.random)
    };
    for at in rig.hot.clone() {
        unit.table[usize::from(at)] = descriptor(&mut rig.random);
    }
    let random = &mut rig.random;
    unit.vtr &= random.pick(&[0, 0xFF]);
    let seldom = random.once_in(3);
    let often = !random.once_in(4);
    let any = notes == Notes::Any && random.coin();
    let mut stands = |note: Notes, now: bool| match notes {
        Notes::None => false,
        _ if notes == note => often,
        _ => now && (any || seldom && random.coin()),
    };
    unit.request = stands(Notes::Requests, unit.request);
    unit.awaits = stands(Notes::Awaits, unit.awaits);
    unit.hold = stands(Notes::Holds, unit.hold);
    unit.own &= notes != Notes::None;
    unit
}

fn descriptor(random: &mut Random) -> Descriptor {
    let (small, any) = (random.byte() % 4, random.byte());
    let flag = 1 << random.below(5);
    let stack = random.pick(&[0, attribute::DIRW]);
    Descriptor {
        base: random.word(),
        limit: random.pick(&[small, 0xFF - small, 0xFF, any]),
        attributes: random.pick(&[0, 0, stack, stack, flag, flag | stack]),
    }
}

/// The same unit with one thing out of its bounds, and what is strange of its
/// notes.
pub fn damaged(random: &mut Random, unit: Unit) -> (Unit, u8) {
    let number = random.pick(&[64, 65, 0x80, 0xFF]);
    let segment = random.pick(&[128, 129, 0xFF]);
    let orphan = random.pick(&[violation::SWW, violation::FATL, 0xC0]);
    let strange = 1 << random.between(4, 7);
    let whole = unit;
    let damaged = match random.below(10) {
        0 => Unit {
            sar: number,
            ..whole
        },
        1 => Unit {
            vsn: segment,
            ..whole
        },
        2 => Unit {
            isn: segment,
            ..whole
        },
        3 => Unit {
            bcsr: number,
            ..whole
        },
        4 => Unit { dscr: 4, ..whole },
        5 | 6 => Unit {
            vtr: orphan,
            ..whole
        },
        _ => {
            let request = random.coin();
            return (Unit { request, ..whole }, strange);
        }
    };
    (damaged, 0)
}

/// Sets every unit of the board, and some past its count, undamaged.
pub fn board(rig: &mut Rig, wanted: Modes, notes: Notes) {
    let present = rig.present();
    let modes = modes(&mut rig.random, present, wanted);
    for (number, mr) in modes.into_iter().enumerate() {
        let past = number >= present;
        if !past || rig.random.once_in(5) {
            let notes = if past { Notes::Any } else { notes };
            let unit = sane(rig, mr, notes);
            rig.place(number, unit, 0);
        }
    }
}

/// Damages some of these units.
pub fn damage(rig: &mut Rig, units: &[usize]) {
    for &number in units {
        let unit = rig.units.places[number].unit.clone();
        let (unit, strange) = damaged(&mut rig.random, unit);
        rig.place(number, unit, strange);
    }
}

/// Gives one unit notes that no unit has, and the only request.
pub fn estrange(rig: &mut Rig) {
    let number = rig.unit();
    let unit = Unit {
        request: true,
        ..rig.units.places[number].unit.clone()
    };
    let strange = 1 << rig.random.between(4, 7);
    rig.place(number, unit, strange);
}
