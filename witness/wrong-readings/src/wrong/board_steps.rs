//! Wrong readings of what each unit of a board is given, and of what units share.

use super::wrong;
use witness::board::{Board, BoardCycle, Units};
use witness::cycle::{Answer, Cycle, Kind};
use witness::memory::Memory;
use witness::step::{Class, Step};
use witness::unit::Unit;
use witness::Document01;

fn is(cycle: &BoardCycle, class: Class) -> bool {
    Document01::class(&Cycle {
        select: true,
        ..cycle.cycle
    }) == class
}

fn fetches(cycle: &BoardCycle) -> bool {
    is(cycle, Class::Memory) && Document01::fetches(&Unit::power_on(), &cycle.cycle)
}

/// The right step, and then each unit is changed, with a look at what it was and
/// answered.
fn changed(
    units: &mut Units,
    cycle: &BoardCycle,
    change: impl Fn(&mut Unit, &Unit, &Answer),
) -> Vec<Answer> {
    let before = units.clone();
    let answers = Document01::step_all(units, cycle);
    for (number, answer) in answers.iter().enumerate() {
        change(
            &mut units.places[number].unit,
            &before.places[number].unit,
            answer,
        );
    }
    answers
}

/// The right step of units that share something before it.
fn sharing(units: &mut Units, cycle: &BoardCycle, note: fn(&mut Unit) -> &mut bool) -> Vec<Answer> {
    let count = Document01::looked_at(units.count);
    let places = &mut units.places[..count];
    let any = places.iter_mut().any(|place| *note(&mut place.unit));
    for place in places {
        *note(&mut place.unit) |= any;
    }
    Document01::step_all(units, cycle)
}

/// Units for which it is wanted take the cycle, and the others know nothing of
/// it.
fn going_to(
    units: &mut Units,
    cycle: &BoardCycle,
    wanted: impl Fn(&Units, usize) -> bool,
) -> Vec<Answer> {
    let before = units.clone();
    let mut answers = Document01::step_all(units, cycle);
    for (number, answer) in answers.iter_mut().enumerate() {
        if !wanted(&before, number) {
            units.places[number] = before.places[number].clone();
            *answer = Answer::quiet(Kind::Ignored, before.places[number].unit.request);
        }
    }
    answers
}

fn first_selected(cycle: &BoardCycle) -> Option<usize> {
    (0..16).find(|&number| Document01::selected(cycle.selects, number))
}

wrong! { Board:
    SelectsFromOne "unit 0's select is bit 1" {
        fn selected(selects: u16, number: usize) -> bool {
            u32::from(selects) >> (number + 1) & 1 == 1
        }
    }
    SelectsFromTop "unit 0's select is bit 15" {
        fn selected(selects: u16, number: usize) -> bool {
            selects.reverse_bits() >> number & 1 == 1
        }
    }
    SelectsSwapped "the selects have their low byte first" {
        fn selected(selects: u16, number: usize) -> bool {
            selects.swap_bytes() >> number & 1 == 1
        }
    }
    SelectsInverted "a select is on where its bit is clear" {
        fn selected(selects: u16, number: usize) -> bool {
            !selects >> number & 1 == 1
        }
    }
    SelectsNumber "the selects are the number of a unit" {
        fn selected(selects: u16, number: usize) -> bool {
            usize::from(selects) == number
        }
    }
    SelectsAll "every unit is selected" {
        fn selected(_selects: u16, _number: usize) -> bool {
            true
        }
    }
    SelectsAny "every unit is selected if any bit is set" {
        fn selected(selects: u16, _number: usize) -> bool {
            selects != 0
        }
    }
    SelectsEight "there are eight selects" {
        fn selected(selects: u16, number: usize) -> bool {
            selects >> (number % 8) & 1 == 1
        }
    }
    OwnSelect "the cycle's own select selects every unit" {
        fn given(cycle: &BoardCycle, number: usize) -> Cycle {
            let given = Document01::given(cycle, number);
            Cycle { select: given.select || cycle.cycle.select, ..given }
        }
    }
    OwnSelectOfFirst "the cycle's own select is unit 0's" {
        fn given(cycle: &BoardCycle, number: usize) -> Cycle {
            match number {
                0 => cycle.cycle,
                _ => Document01::given(cycle, number),
            }
        }
    }
    OwnSelectToo "a unit is selected only with the cycle's own select" {
        fn given(cycle: &BoardCycle, number: usize) -> Cycle {
            let given = Document01::given(cycle, number);
            Cycle { select: given.select && cycle.cycle.select, ..given }
        }
    }
    SharedHold "hold is shared between the units" {
        fn step_all(units: &mut Units, cycle: &BoardCycle) -> Vec<Answer> {
            sharing(units, cycle, |unit| &mut unit.hold)
        }
    }
    SharedAwait "await is shared between the units" {
        fn step_all(units: &mut Units, cycle: &BoardCycle) -> Vec<Answer> {
            sharing(units, cycle, |unit| &mut unit.awaits)
        }
    }
    SharedOwn "own is shared between the units" {
        fn step_all(units: &mut Units, cycle: &BoardCycle) -> Vec<Answer> {
            sharing(units, cycle, |unit| &mut unit.own)
        }
    }
    SharedRequest "request is shared between the units" {
        fn step_all(units: &mut Units, cycle: &BoardCycle) -> Vec<Answer> {
            sharing(units, cycle, |unit| &mut unit.request)
        }
    }
    AbortedForAll "a fetch that one unit aborts is aborted in all" {
        fn step_all(units: &mut Units, cycle: &BoardCycle) -> Vec<Answer> {
            match fetches(cycle) {
                true => sharing(units, cycle, |unit| &mut unit.awaits),
                false => Document01::step_all(units, cycle),
            }
        }
    }
    AbortedByDriver "await ends only in the unit that drives the aborted fetch" {
        fn step_all(units: &mut Units, cycle: &BoardCycle) -> Vec<Answer> {
            changed(units, cycle, |unit, before, answer| {
                let kept = answer.kind == Kind::AbortedFetch && answer.address.is_none();
                unit.awaits |= kept && before.awaits;
            })
        }
    }
    StartedByDriver "a fetch ends own and hold only in the unit that drives it" {
        fn step_all(units: &mut Units, cycle: &BoardCycle) -> Vec<Answer> {
            let fetches = fetches(cycle);
            changed(units, cycle, |unit, before, answer| {
                if fetches && answer.address.is_none() {
                    (unit.own, unit.hold) = (before.own, before.hold);
                }
            })
        }
    }
    SharedViolation "a violation in one unit sets hold in all" {
        fn step_all(units: &mut Units, cycle: &BoardCycle) -> Vec<Answer> {
            let violates = Document01::join(&Document01::step_all(&mut units.clone(), cycle)).answer.sup;
            let cpu = !cycle.cycle.dma;
            changed(units, cycle, |unit, _, _| unit.hold |= violates && cpu)
        }
    }
    SharedTrap "a trap in one unit makes all await their aborted fetch" {
        fn step_all(units: &mut Units, cycle: &BoardCycle) -> Vec<Answer> {
            let before = units.clone();
            let answers = Document01::step_all(units, cycle);
            let pairs = units.places.iter().zip(&before.places);
            let new = pairs.clone().any(|(new, old)| new.unit.awaits && !old.unit.awaits);
            for place in &mut units.places[..answers.len()] {
                place.unit.awaits |= new;
            }
            answers
        }
    }
    SuppressedMarks "with SUP on by another unit's hold the driver sets no REF or CHG" {
        fn step_all(units: &mut Units, cycle: &BoardCycle) -> Vec<Answer> {
            let sup = Document01::join(&Document01::step_all(&mut units.clone(), cycle)).answer.sup;
            changed(units, cycle, |unit, before, answer| {
                if sup && answer.kind == Kind::Translated {
                    unit.table = before.table;
                }
            })
        }
    }
    InstructionForAll "every unit stores the ISN and IOFF that one stores" {
        fn step_all(units: &mut Units, cycle: &BoardCycle) -> Vec<Answer> {
            let before = units.clone();
            let answers = Document01::step_all(units, cycle);
            let stored = (0..answers.len()).find(|&number| {
                let [new, old] = [&*units, &before].map(|units| &units.places[number].unit);
                (new.isn, new.ioff) != (old.isn, old.ioff)
            });
            if stored.is_some() {
                for place in &mut units.places[..answers.len()] {
                    (place.unit.isn, place.unit.ioff) = (cycle.cycle.segment, cycle.cycle.offset);
                }
            }
            answers
        }
    }
    DmaHeldByAnother "another unit's hold turns SUP on for DMA" {
        fn step_all(units: &mut Units, cycle: &BoardCycle) -> Vec<Answer> {
            let dma = cycle.cycle.dma && is(cycle, Class::Memory);
            changed(units, cycle, |_, _, _| ()).into_iter().zip(&units.places).map(|(answer, place)| {
                Answer { sup: answer.sup || dma && place.unit.hold, ..answer }
            }).collect()
        }
    }
    AcknowledgedRequests "an acknowledge clears the notes only of units with a request" {
        fn step_all(units: &mut Units, cycle: &BoardCycle) -> Vec<Answer> {
            changed(units, cycle, |unit, before, answer| {
                if answer.kind == Kind::Acknowledge && !before.request {
                    *unit = before.clone();
                }
            })
        }
    }
    AcknowledgedFirst "an acknowledge is taken by the lowest unit with a request alone" {
        fn step_all(units: &mut Units, cycle: &BoardCycle) -> Vec<Answer> {
            let first = units.places.iter().position(|place| place.unit.request);
            let all = !is(cycle, Class::Acknowledge) || first.is_none();
            going_to(units, cycle, |_, number| all || first == Some(number))
        }
    }
    AcknowledgedSelected "an acknowledge is taken by selected units alone" {
        fn step_all(units: &mut Units, cycle: &BoardCycle) -> Vec<Answer> {
            let all = !is(cycle, Class::Acknowledge);
            going_to(units, cycle, |_, number| all || Document01::selected(cycle.selects, number))
        }
    }
    CommandedFirst "a command goes to the lowest selected unit alone" {
        fn step_all(units: &mut Units, cycle: &BoardCycle) -> Vec<Answer> {
            let all = !is(cycle, Class::Command);
            going_to(units, cycle, |_, number| all || first_selected(cycle) == Some(number))
        }
    }
    CommandedAll "a command goes to all units if one is selected" {
        fn step_all(units: &mut Units, cycle: &BoardCycle) -> Vec<Answer> {
            let within = first_selected(cycle).is_some_and(|first| first < usize::from(units.count));
            match is(cycle, Class::Command) && within {
                true => Document01::step_all(units, &BoardCycle { selects: 0xFFFF, ..*cycle }),
                false => Document01::step_all(units, cycle),
            }
        }
    }
    ResetSelected "the reset line resets selected units alone" {
        fn step_all(units: &mut Units, cycle: &BoardCycle) -> Vec<Answer> {
            let all = !is(cycle, Class::Reset);
            going_to(units, cycle, |_, number| all || Document01::selected(cycle.selects, number))
        }
    }
    ResetFirst "of several selected units a reset enables the lowest alone" {
        fn step_all(units: &mut Units, cycle: &BoardCycle) -> Vec<Answer> {
            let first = first_selected(cycle).map_or(0, |number| 1 << number);
            let selects = if is(cycle, Class::Reset) { first } else { cycle.selects };
            Document01::step_all(units, &BoardCycle { selects, ..*cycle })
        }
    }
    ResetAll "a reset with any select enables every unit" {
        fn step_all(units: &mut Units, cycle: &BoardCycle) -> Vec<Answer> {
            let all = is(cycle, Class::Reset) && cycle.selects != 0;
            let selects = if all { 0xFFFF } else { cycle.selects };
            Document01::step_all(units, &BoardCycle { selects, ..*cycle })
        }
    }
    MemorySelected "a memory cycle goes to selected units alone" {
        fn step_all(units: &mut Units, cycle: &BoardCycle) -> Vec<Answer> {
            let all = !is(cycle, Class::Memory);
            going_to(units, cycle, |_, number| all || Document01::selected(cycle.selects, number))
        }
    }
    MemoryOfDriver "a memory cycle goes to the unit that drives it alone" {
        fn step_all(units: &mut Units, cycle: &BoardCycle) -> Vec<Answer> {
            let all = !is(cycle, Class::Memory);
            going_to(units, cycle, |before, number| {
                all || Document01::drives(&before.places[number].unit, &cycle.cycle)
            })
        }
    }
    FirstAlone "only unit 0 takes the cycle" {
        fn step_all(units: &mut Units, cycle: &BoardCycle) -> Vec<Answer> {
            going_to(units, cycle, |_, number| number == 0)
        }
    }
    NothingChanges "no unit is changed" {
        fn step_all(units: &mut Units, cycle: &BoardCycle) -> Vec<Answer> {
            Document01::step_all(&mut units.clone(), cycle)
        }
    }
}
