//! What ticket 3 says of every board and cycle, tried on many: a board of one is
//! the unit, each unit of a board is the single unit, a refusal leaves all, units
//! may change places, and which modes can never collide.

use witness::board::{Board, BoardCycle, Refusal, Units};
use witness::cycle::{Answer, Cycle, Kind};
use witness::generate::boards::hand::damaged;
use witness::generate::random::Random;
use witness::step::Step;
use witness::unit::{mode, Unit};
use witness::Document01;

use crate::board_runs::{board, driving, every, would_drive, Turn, Wanted, USUAL};
use crate::rows::read;

/// Each unit's own answer, given the cycle with its own select bit alone.
fn alone(turn: &Turn) -> Vec<(Answer, Unit)> {
    let units = turn.present().iter().enumerate();
    let answers = units.map(|(number, place)| {
        let mut unit = place.unit.clone();
        let select = turn.cycle.selects & 1 << number != 0;
        let cycle = Cycle {
            select,
            ..turn.cycle.cycle
        };
        let answer = match place.strange {
            true => Answer::quiet(Kind::Refused(2), unit.request),
            false => Document01::step(&mut unit, &cycle),
        };
        (answer, unit)
    });
    answers.collect()
}

/// A single unit, with others past the count that are not looked at.
fn single(random: &mut Random) -> Units {
    Units {
        count: 1,
        ..board(random)
    }
}

fn is_the_unit(turn: &Turn, _random: &mut Random) {
    let (answer, unit) = alone(turn).remove(0);
    assert_eq!(turn.answer.answer, answer, "{:?}", turn.cycle);
    assert_eq!(turn.after.places[0].unit, unit);
    assert_eq!(turn.after.places[1..], turn.before.places[1..]);
    let named = answer.address.is_some() || matches!(answer.kind, Kind::Refused(_));
    assert_eq!(turn.answer.unit, named.then_some(0));
}

#[test]
fn a_board_of_one_unit_is_the_unit() {
    let wanted: Vec<Wanted> = USUAL
        .iter()
        .filter(|(name, _)| matches!(*name, "translated" | "passed" | "aborted" | "command" | "3"))
        .copied()
        .collect();
    every(single, is_the_unit, &wanted);
}

/// "Demand 2 holds for each unit at every cycle that the board does not refuse":
/// each unit is what it would be alone, and what is joined is joined.
fn each_is_single(turn: &Turn, _random: &mut Random) {
    if turn.refused() {
        return;
    }
    let alone = alone(turn);
    for (number, (answer, unit)) in alone.iter().enumerate() {
        assert!(!matches!(answer.kind, Kind::Refused(_)));
        assert_eq!(turn.after.places[number].unit, *unit, "{:?}", turn.cycle);
    }
    let (first, last) = (alone.len(), turn.after.places.len());
    assert_eq!(
        turn.after.places[first..last],
        turn.before.places[first..last]
    );
    let joined = turn.answer.answer;
    assert_eq!(joined.sup, alone.iter().any(|(one, _)| one.sup));
    assert_eq!(joined.trap, alone.iter().any(|(_, unit)| unit.request));
    let lines = alone.iter().filter_map(|(one, _)| one.data);
    assert_eq!(joined.data.is_some(), lines.clone().next().is_some());
    assert_eq!(
        joined.data.unwrap_or(0),
        lines.fold(0, |all, byte| all | byte)
    );
    let driving: Vec<usize> = (0..alone.len())
        .filter(|&number| alone[number].0.address.is_some())
        .collect();
    assert!(driving.len() <= 1);
    assert_eq!(turn.answer.unit, driving.first().copied());
    match turn.answer.unit.map(|number| alone[number].0) {
        Some(driver) => {
            let carried = (joined.kind, joined.address, joined.distance);
            assert_eq!(carried, (driver.kind, driver.address, driver.distance));
        }
        None => assert_eq!((joined.address, joined.distance), (None, 0)),
    }
}

#[test]
fn each_unit_of_a_board_that_does_not_refuse_is_the_single_unit() {
    every(board, each_is_single, USUAL);
}

/// Some unit is often damaged, or the count is none that a board has.
fn unsound(random: &mut Random) -> Units {
    let mut units = board(random);
    if random.once_in(4) {
        let number = random.below(16);
        let (unit, strange) = damaged(random, units.places[number].unit.clone());
        units.places[number].unit = unit;
        units.places[number].strange = strange != 0;
    }
    if random.once_in(12) {
        units.count = random.pick(&[0, 17, 18, 0xFF]);
    }
    units
}

/// The refusal by the ticket's words: 11, the lowest unit's own, 12, 13.
fn refusal(turn: &Turn) -> Option<Refusal> {
    if turn.before.count == 0 || turn.before.count > 16 {
        return Some(Refusal::of_board(11));
    }
    for (unit, (answer, _)) in alone(turn).into_iter().enumerate() {
        if let Kind::Refused(number) = answer.kind {
            let unit = Some(unit);
            return Some(Refusal { number, unit });
        }
    }
    let Cycle {
        status,
        read,
        dma,
        reset,
        ..
    } = turn.cycle.cycle;
    let within = u32::from(turn.cycle.selects) % (1 << turn.before.count);
    let command = status == 0x3 && !dma && !reset;
    if driving(&turn.before, &turn.cycle) > 1 {
        Some(Refusal::of_board(12))
    } else if command && read && within.count_ones() > 1 {
        Some(Refusal::of_board(13))
    } else {
        None
    }
}

/// Refused exactly so. "The board stays as it was", and the answer says no more
/// than the number, the unit and the requests that stood; "11 shows the trap line
/// off".
fn refuses_exactly(turn: &Turn, _random: &mut Random) {
    let refusal = refusal(turn);
    assert_eq!(turn.refused(), refusal.is_some(), "{:?}", turn.cycle);
    let Some(Refusal { number, unit }) = refusal else {
        return;
    };
    let stood = turn.present().iter().any(|place| place.unit.request);
    let answer = Answer::quiet(Kind::Refused(number), stood && number != 11);
    assert_eq!((turn.answer.answer, turn.answer.unit), (answer, unit));
    assert_eq!(turn.after, turn.before);
}

#[test]
fn a_board_refuses_exactly_as_the_ticket_says_and_a_refusal_leaves_all() {
    let more: &[Wanted] = &[
        ("2", |turn| turn.is(Kind::Refused(2))),
        ("11", |turn| turn.is(Kind::Refused(11))),
        ("2 in a unit after the first", |turn| {
            turn.is(Kind::Refused(2)) && turn.answer.unit > Some(0)
        }),
        ("a request stands in a refusal", |turn| {
            turn.refused() && turn.answer.answer.trap
        }),
    ];
    every(unsound, refuses_exactly, &[USUAL, more].concat());
}

/// Where each place of a board goes, and its select bit with it.
fn shuffle(random: &mut Random, count: usize) -> Vec<usize> {
    let mut to: Vec<usize> = (0..count).collect();
    for place in (1..count).rev() {
        to.swap(place, random.below(place + 1));
    }
    to
}

fn moved(units: &Units, to: &[usize]) -> Units {
    let mut moved = units.clone();
    for (from, &to) in to.iter().enumerate() {
        moved.places[to] = units.places[from].clone();
    }
    moved
}

/// Undamaged units may change places: the answer is the same but for the number
/// of the unit that is named. Of a refusal that is the lowest that refuses.
fn places_are_alike(turn: &Turn, random: &mut Random) {
    let to = shuffle(random, turn.present().len());
    let bits = to.iter().enumerate();
    let selects = bits.fold(0, |bits, (from, &to)| {
        bits | (turn.cycle.selects >> from & 1) << to
    });
    let cycle = BoardCycle {
        selects,
        ..turn.cycle
    };
    let mut units = moved(&turn.before, &to);
    let answer = Document01::board_step(&mut units, &cycle);
    assert_eq!(answer.answer, turn.answer.answer, "{:?}", turn.cycle);
    assert_eq!(units, moved(&turn.after, &to));
    let named = match turn.answer.answer.kind {
        Kind::Refused(1) => Some(0),
        Kind::Refused(3 | 4) => Some(selects.trailing_zeros() as usize),
        _ => turn.answer.unit.map(|number| to[number]),
    };
    assert_eq!(answer.unit, named);
}

#[test]
fn undamaged_units_may_change_places() {
    every(board, places_are_alike, USUAL);
}

/// Two units with these MRs, and each of the four memory cycles that MRs can tell
/// apart.
fn collisions(mrs: &[u8]) -> Vec<bool> {
    let mut units = Units::power_on(mrs.len() as u8);
    for (place, &mr) in units.places.iter_mut().zip(mrs) {
        place.unit.mr = mr;
    }
    let cycles = [(1, false), (1, true), (65, false), (65, true)];
    let refused = cycles.map(|(segment, normal)| {
        let cycle = Cycle {
            normal,
            ..read(segment, 0)
        };
        let drive = mrs.iter().filter(|mr| would_drive(**mr, &cycle)).count();
        let answer = Document01::board_refusal(&units, &BoardCycle { cycle, selects: 0 });
        let expected = (drive > 1).then_some(Refusal::of_board(12));
        assert_eq!(answer, expected, "{mrs:02X?} {cycle:?}");
        drive > 1
    });
    refused.to_vec()
}

/// "For every two units with MSEN set both have TRNS set, and their URS differ or
/// both have MST set and their NMS differ."
fn never_collide(mrs: &[u8]) -> bool {
    let has = |mr: u8, flag: u8| mr & flag != 0;
    let on: Vec<u8> = mrs
        .iter()
        .copied()
        .filter(|mr| has(*mr, mode::MSEN))
        .collect();
    let apart = |one: u8, other: u8| {
        let differ = |flag: u8| has(one ^ other, flag);
        let both = |flag: u8| has(one & other, flag);
        both(mode::TRNS) && (differ(mode::URS) || both(mode::MST) && differ(mode::NMS))
    };
    let pairs = (0..on.len()).flat_map(|one| (0..one).map(move |other| (one, other)));
    pairs
        .into_iter()
        .all(|(one, other)| apart(on[one], on[other]))
}

/// An ID means nothing to it, so each two settings are tried with one ID of eight
/// in the second.
#[test]
fn of_every_two_modes_the_settings_that_never_collide_are_told_exactly() {
    for one in 0..=0xFF_u8 {
        for other in (0..=0xFF_u8).filter(|other| (one ^ other) & mode::ID == other >> 5) {
            let collides = collisions(&[one, other]).contains(&true);
            assert_eq!(
                collides,
                !never_collide(&[one, other]),
                "{one:02X} {other:02X}"
            );
        }
    }
}

#[test]
fn of_any_number_of_modes_too() {
    let mut random = Random::new(3, 1);
    let (mut safe, mut unsafe_) = (0, 0);
    for _ in 0..8_000 {
        let count = random.between(1, 16);
        let odds = random.pick(&[1, 2, 4, 8]);
        let mrs: Vec<u8> = (0..count)
            .map(|_| match random.once_in(odds) {
                true => random.byte() | mode::MSEN | mode::TRNS | random.byte() & mode::MST,
                false => random.byte() & !mode::MSEN,
            })
            .collect();
        let collides = collisions(&mrs).contains(&true);
        assert_eq!(collides, !never_collide(&mrs), "{mrs:02X?}");
        let on = mrs.iter().filter(|mr| **mr & mode::MSEN != 0).count();
        safe += usize::from(!collides && on > 1);
        unsafe_ += usize::from(collides && on > 2);
    }
    assert!(safe > 200 && unsafe_ > 200, "{safe} {unsafe_}");
}
