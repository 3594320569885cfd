//! A board of 1 to 16 units that share nothing but the cycle (ticket 3): what
//! each is given, refusals 11 to 13, and how the units' answers are joined.

use std::array;

use crate::cycle::{Answer, Cycle, Kind};
use crate::step::{Class, Step};
use crate::unit::Unit;

/// The most units of a board, and the select bits of a cycle.
pub const PLACES: usize = 16;

#[derive(Clone, Debug, PartialEq, Eq)]
pub struct Place {
    pub unit: Unit,
    /// A script gave notes that no unit has. That is damage, of which the unit
    /// itself has no trace.
    pub strange: bool,
}

/// Sixteen places, of which the first `count` are the board. The count is a byte
/// here, so a caller can give one that no board has; refusal 11 answers those.
#[derive(Clone, Debug, PartialEq, Eq)]
pub struct Units {
    pub count: u8,
    pub places: [Place; PLACES],
}

impl Units {
    pub fn power_on(count: u8) -> Units {
        let place = |_| Place {
            unit: Unit::power_on(),
            strange: false,
        };
        Units {
            count,
            places: array::from_fn(place),
        }
    }
}

/// One cycle for all units. Its own select is looked at by nothing.
#[derive(Clone, Copy, Debug, PartialEq, Eq)]
pub struct BoardCycle {
    pub cycle: Cycle,
    pub selects: u16,
}

/// The joined answer, and the unit that it names: the one that drives the
/// address, or the one whose own number refuses.
#[derive(Clone, Copy, Debug, PartialEq, Eq)]
pub struct BoardAnswer {
    pub answer: Answer,
    pub unit: Option<usize>,
}

#[derive(Clone, Copy, Debug, PartialEq, Eq)]
pub struct Refusal {
    pub number: u8,
    pub unit: Option<usize>,
}

impl Refusal {
    /// 11, 12 and 13 are no unit's own.
    pub fn of_board(number: u8) -> Refusal {
        Refusal { number, unit: None }
    }
}

pub trait Board: Step {
    /// Steps the units where they stand. "The board stays as it was" if it
    /// refuses: no unit is stepped, those that would not refuse neither.
    fn board_step(units: &mut Units, cycle: &BoardCycle) -> BoardAnswer {
        if let Some(refusal) = Self::board_refusal(units, cycle) {
            return Self::refused(units, refusal);
        }
        let answers = Self::step_all(units, cycle);
        Self::join(&answers)
    }

    /// "11 [...] comes first; then any unit's own refusal [...]; then 12 [...];
    /// then 13".
    fn board_refusal(units: &Units, cycle: &BoardCycle) -> Option<Refusal> {
        if Self::bad_count(units.count) {
            return Some(Refusal::of_board(11));
        }
        let own = Self::unit_refusal(units, cycle);
        if own.is_some() {
            own
        } else if Self::collides(units, cycle) {
            Some(Refusal::of_board(12))
        } else if Self::reads_several(units, cycle) {
            Some(Refusal::of_board(13))
        } else {
            None
        }
    }

    /// "Unit count not 1 to 16".
    fn bad_count(count: u8) -> bool {
        !(1..=16).contains(&count)
    }

    /// How many places are looked at: those past the count are not.
    fn looked_at(count: u8) -> usize {
        usize::from(count).min(PLACES)
    }

    /// "A cycle carries a select bit for each unit", unit 0's in bit 0.
    fn selected(selects: u16, number: usize) -> bool {
        selects >> number & 1 == 1
    }

    /// The cycle as one unit has it: it "goes to all", and only the select is a
    /// unit's own.
    fn given(cycle: &BoardCycle, number: usize) -> Cycle {
        Cycle {
            select: Self::selected(cycle.selects, number),
            ..cycle.cycle
        }
    }

    /// "Any unit's own refusal, lowest unit first", whatever the numbers.
    fn unit_refusal(units: &Units, cycle: &BoardCycle) -> Option<Refusal> {
        let places = units.places.iter().take(Self::looked_at(units.count));
        places.enumerate().find_map(|(number, place)| {
            let own = Self::own_refusal(place, &Self::given(cycle, number));
            own.map(|own| Refusal {
                number: own,
                unit: Some(number),
            })
        })
    }

    /// What the unit would refuse alone. Strange notes are damage, which comes
    /// before all else.
    fn own_refusal(place: &Place, cycle: &Cycle) -> Option<u8> {
        if place.strange {
            Some(2)
        } else {
            Self::refusal(&place.unit, cycle)
        }
    }

    /// "Two units would drive the address", be it the same.
    fn collides(units: &Units, cycle: &BoardCycle) -> bool {
        let places = units.places.iter().take(Self::looked_at(units.count));
        let drivers = places.filter(|place| Self::drives(&place.unit, &cycle.cycle));
        drivers.count() > 1
    }

    /// Translated or passed, in an aborted fetch as well.
    fn drives(unit: &Unit, cycle: &Cycle) -> bool {
        Self::class(cycle) == Class::Memory && Self::route(unit, cycle).address().is_some()
    }

    /// "A command read selects more than one unit" of the board.
    fn reads_several(units: &Units, cycle: &BoardCycle) -> bool {
        let numbers = 0..Self::looked_at(units.count);
        let obeys = |number: &usize| Self::class(&Self::given(cycle, *number)) == Class::Command;
        cycle.cycle.read && numbers.filter(obeys).count() > 1
    }

    fn refused(units: &Units, refusal: Refusal) -> BoardAnswer {
        let trap = Self::refused_trap(units, refusal);
        BoardAnswer {
            answer: Answer::quiet(Kind::Refused(refusal.number), trap),
            unit: refusal.unit,
        }
    }

    /// The requests as they stood; "11 shows the trap line off".
    fn refused_trap(units: &Units, refusal: Refusal) -> bool {
        let mut places = units.places.iter().take(Self::looked_at(units.count));
        refusal.number != 11 && places.any(|place| place.unit.request)
    }

    /// Each unit's answer, as if it were alone.
    fn step_all(units: &mut Units, cycle: &BoardCycle) -> Vec<Answer> {
        let places = units.places.iter_mut().take(Self::looked_at(units.count));
        let answers = places
            .enumerate()
            .map(|(number, place)| Self::step(&mut place.unit, &Self::given(cycle, number)));
        answers.collect()
    }

    fn join(answers: &[Answer]) -> BoardAnswer {
        let driver = Self::driver(answers);
        BoardAnswer {
            answer: Answer {
                kind: Self::joined_kind(answers),
                address: driver.and_then(|number| answers[number].address),
                sup: Self::joined_sup(answers),
                trap: Self::joined_trap(answers),
                data: Self::joined_data(answers),
                distance: Self::joined_distance(answers),
            },
            unit: Self::named(answers),
        }
    }

    /// The unit that drives the address. 12 leaves no more than one.
    fn driver(answers: &[Answer]) -> Option<usize> {
        answers.iter().position(|answer| answer.address.is_some())
    }

    /// None but the driver: not for commands, acknowledges and resets.
    fn named(answers: &[Answer]) -> Option<usize> {
        Self::driver(answers)
    }

    /// A reset or acknowledge is one in every unit, and a command in those that
    /// are selected. Else it is what the driver makes of it, and where none
    /// drives, an aborted fetch if it is one in any unit.
    fn joined_kind(answers: &[Answer]) -> Kind {
        let mut kinds = answers.iter().map(|answer| answer.kind);
        let told = |kind: &Kind| matches!(kind, Kind::Reset | Kind::Acknowledge | Kind::Command);
        let aborts = kinds.clone().find(|&kind| kind == Kind::AbortedFetch);
        let driver = Self::driver(answers).map(|number| answers[number].kind);
        let kind = kinds.find(told).or(driver).or(aborts);
        kind.unwrap_or(Kind::Ignored)
    }

    /// "SUP [is] on if any unit's is".
    fn joined_sup(answers: &[Answer]) -> bool {
        answers.iter().any(|answer| answer.sup)
    }

    /// "The trap line [is] on if any unit's is".
    fn joined_trap(answers: &[Answer]) -> bool {
        answers.iter().any(|answer| answer.trap)
    }

    /// "A line is high if any unit drives it so"; the byte is driven if any unit
    /// drives one. Of a command's readers there is one.
    fn joined_data(answers: &[Answer]) -> Option<u8> {
        let driven = answers.iter().filter_map(|answer| answer.data);
        driven.reduce(|joined, byte| joined | byte)
    }

    /// "A board carries its translating unit's" (ticket 5), and so 0 if its
    /// driver passes or aborts.
    fn joined_distance(answers: &[Answer]) -> u8 {
        Self::driver(answers).map_or(0, |number| answers[number].distance)
    }
}
