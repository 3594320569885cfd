//! Wrong readings of a board's refusals: their order, whose they are, 11, 12 and
//! 13, and what they leave and show.

use super::wrong;
use witness::board::{Board, BoardAnswer, BoardCycle, Place, Refusal, Units};
use witness::checks::Finding;
use witness::cycle::{Cycle, Kind};
use witness::generate::boards::rig::drivers;
use witness::generate::bus::finding;
use witness::memory::Memory;
use witness::step::{Class, Step};
use witness::translation::{Route, Translation};
use witness::unit::{mode, Unit};
use witness::Document01;

fn present(units: &Units) -> &[Place] {
    &units.places[..Document01::looked_at(units.count)]
}

/// All units' own refusals, in rising order.
fn own<'u>(
    units: &'u Units,
    cycle: &'u BoardCycle,
) -> impl DoubleEndedIterator<Item = Refusal> + 'u {
    present(units)
        .iter()
        .enumerate()
        .filter_map(|(number, place)| {
            let own = Document01::own_refusal(place, &Document01::given(cycle, number));
            own.map(|own| Refusal {
                number: own,
                unit: Some(number),
            })
        })
}

fn selected(cycle: &BoardCycle) -> impl Iterator<Item = usize> + '_ {
    (0..16).filter(|&number| Document01::selected(cycle.selects, number))
}

/// A refusal of this number names the unit.
fn naming(refusal: Option<Refusal>, number: u8, unit: Option<usize>) -> Option<Refusal> {
    refusal.map(|refusal| match refusal.number == number {
        true => Refusal { unit, ..refusal },
        false => refusal,
    })
}

/// The right answer, but units for which it is wanted take a cycle that is refused.
fn step_some(
    units: &mut Units,
    cycle: &BoardCycle,
    wanted: fn(&Units, &BoardCycle, Refusal, usize) -> bool,
) -> BoardAnswer {
    let refusal = Document01::board_refusal(units, cycle);
    let answer = Document01::board_step(units, cycle);
    if let Some(refusal) = refusal {
        let before = units.clone();
        for number in 0..Document01::looked_at(units.count) {
            if wanted(&before, cycle, refusal, number) {
                let given = Document01::given(cycle, number);
                Document01::step(&mut units.places[number].unit, &given);
            }
        }
    }
    answer
}

/// More than one unit drives, if those are left out that do not count.
fn counting(units: &Units, cycle: &BoardCycle, counts: impl Fn(usize, &Unit) -> bool) -> bool {
    let drivers = drivers(units, cycle).into_iter();
    drivers
        .filter(|&number| counts(number, &units.places[number].unit))
        .count()
        > 1
}

fn memory(cycle: &Cycle) -> bool {
    Document01::class(cycle) == Class::Memory
}

wrong! { Board:
    CollisionFirst "12 is judged before a unit's own refusal" {
        fn board_refusal(units: &Units, cycle: &BoardCycle) -> Option<Refusal> {
            match Document01::board_refusal(units, cycle) {
                Some(Refusal { unit: Some(_), .. }) if Document01::collides(units, cycle) => {
                    Some(Refusal::of_board(12))
                }
                refusal => refusal,
            }
        }
    }
    SeveralFirst "13 is judged before a unit's own refusal" {
        fn board_refusal(units: &Units, cycle: &BoardCycle) -> Option<Refusal> {
            match Document01::board_refusal(units, cycle) {
                Some(Refusal { unit: Some(_), .. }) if Document01::reads_several(units, cycle) => {
                    Some(Refusal::of_board(13))
                }
                refusal => refusal,
            }
        }
    }
    SeveralBeforeCommand "13 is judged before 3 and 4, and after 2 and 1" {
        fn board_refusal(units: &Units, cycle: &BoardCycle) -> Option<Refusal> {
            match Document01::board_refusal(units, cycle) {
                Some(Refusal { number: 3 | 4, .. }) if Document01::reads_several(units, cycle) => {
                    Some(Refusal::of_board(13))
                }
                refusal => refusal,
            }
        }
    }
    SeveralBeforeCollision "13 is judged before 12"
    same "no cycle is a memory cycle and a command" {
        fn board_refusal(units: &Units, cycle: &BoardCycle) -> Option<Refusal> {
            match Document01::board_refusal(units, cycle) {
                Some(Refusal { number: 12, .. }) if Document01::reads_several(units, cycle) => {
                    Some(Refusal::of_board(13))
                }
                refusal => refusal,
            }
        }
    }
    CountLast "11 is judged after the units' own refusals" {
        fn board_refusal(units: &Units, cycle: &BoardCycle) -> Option<Refusal> {
            let own = Document01::unit_refusal(units, cycle);
            own.or_else(|| Document01::board_refusal(units, cycle))
        }
    }
    CollisionNamed "12 names the lowest unit that would drive" {
        fn board_refusal(units: &Units, cycle: &BoardCycle) -> Option<Refusal> {
            let first = drivers(units, cycle).first().copied();
            naming(Document01::board_refusal(units, cycle), 12, first)
        }
    }
    SeveralNamed "13 names the lowest unit that is selected" {
        fn board_refusal(units: &Units, cycle: &BoardCycle) -> Option<Refusal> {
            let first = selected(cycle).next();
            naming(Document01::board_refusal(units, cycle), 13, first)
        }
    }
    CountNamed "11 names unit 0" {
        fn board_refusal(units: &Units, cycle: &BoardCycle) -> Option<Refusal> {
            naming(Document01::board_refusal(units, cycle), 11, Some(0))
        }
    }
    NoneOfZero "a count of 0 is not refused" {
        fn bad_count(count: u8) -> bool {
            count > 16
        }
    }
    NotOne "a board of one unit is refused" {
        fn bad_count(count: u8) -> bool {
            count == 1 || Document01::bad_count(count)
        }
    }
    NotSixteen "a board of 16 units is refused" {
        fn bad_count(count: u8) -> bool {
            count == 16 || Document01::bad_count(count)
        }
    }
    Seventeen "a count of 17 is not refused" {
        fn bad_count(count: u8) -> bool {
            count != 17 && Document01::bad_count(count)
        }
    }
    AnyCount "a count above 16 counts as 16" {
        fn bad_count(count: u8) -> bool {
            count == 0
        }
    }
    AllLookedAt "units past the count are looked at" {
        fn looked_at(_count: u8) -> usize {
            16
        }
    }
    OneMoreLookedAt "the count is the last unit's number, so there is one more" {
        fn looked_at(count: u8) -> usize {
            usize::from(count).min(15) + 1
        }
    }
    OneLessLookedAt "the last unit of a board is not looked at" {
        fn looked_at(count: u8) -> usize {
            Document01::looked_at(count).max(2) - 1
        }
    }
    HighestFirst "of several units that refuse, the highest is heard" {
        fn unit_refusal(units: &Units, cycle: &BoardCycle) -> Option<Refusal> {
            own(units, cycle).next_back()
        }
    }
    SmallestFirst "of several units that refuse, the one with the smallest number is heard" {
        fn unit_refusal(units: &Units, cycle: &BoardCycle) -> Option<Refusal> {
            own(units, cycle).min_by_key(|refusal| refusal.number)
        }
    }
    GreatestFirst "of several units that refuse, the one with the greatest number is heard" {
        fn unit_refusal(units: &Units, cycle: &BoardCycle) -> Option<Refusal> {
            own(units, cycle).min_by_key(|refusal| 4 - refusal.number)
        }
    }
    DamageFirst "any unit's 2 comes before all others of any unit" {
        fn unit_refusal(units: &Units, cycle: &BoardCycle) -> Option<Refusal> {
            own(units, cycle).min_by_key(|refusal| refusal.number != 2)
        }
    }
    RangeFirst "1 comes before any unit's 2, since it is of the cycle" {
        fn unit_refusal(units: &Units, cycle: &BoardCycle) -> Option<Refusal> {
            match Document01::out_of_range(&cycle.cycle) {
                true => Some(Refusal { number: 1, unit: Some(0) }),
                false => Document01::unit_refusal(units, cycle),
            }
        }
    }
    RangeOfNobody "1 is the cycle's and names no unit" {
        fn unit_refusal(units: &Units, cycle: &BoardCycle) -> Option<Refusal> {
            naming(Document01::unit_refusal(units, cycle), 1, None)
        }
    }
    OwnOfNobody "a refusal names no unit" {
        fn unit_refusal(units: &Units, cycle: &BoardCycle) -> Option<Refusal> {
            let own = Document01::unit_refusal(units, cycle);
            own.map(|own| Refusal::of_board(own.number))
        }
    }
    SelectedJudged "only selected units are judged" {
        fn unit_refusal(units: &Units, cycle: &BoardCycle) -> Option<Refusal> {
            let selected = |own: &Refusal| selected(cycle).any(|number| own.unit == Some(number));
            own(units, cycle).find(selected)
        }
    }
    FirstJudged "only unit 0 is judged" {
        fn unit_refusal(units: &Units, cycle: &BoardCycle) -> Option<Refusal> {
            own(units, cycle).find(|own| own.unit == Some(0))
        }
    }
    EnabledJudged "a unit with MSEN clear is not judged" {
        fn unit_refusal(units: &Units, cycle: &BoardCycle) -> Option<Refusal> {
            let enabled = |own: &Refusal| {
                own.unit.is_some_and(|number| units.places[number].unit.mode(mode::MSEN))
            };
            own(units, cycle).find(enabled)
        }
    }
    UnselectedNamed "a bad command names unit 0, selected or not" {
        fn unit_refusal(units: &Units, cycle: &BoardCycle) -> Option<Refusal> {
            let refusal = Document01::unit_refusal(units, cycle);
            naming(naming(refusal, 3, Some(0)), 4, Some(0))
        }
    }
    StrangeWhole "notes that no unit has are no damage" {
        fn own_refusal(place: &Place, cycle: &Cycle) -> Option<u8> {
            Document01::refusal(&place.unit, cycle)
        }
    }
    StrangeLater "notes that no unit has are judged after a unit's other refusals" {
        fn own_refusal(place: &Place, cycle: &Cycle) -> Option<u8> {
            let own = Document01::refusal(&place.unit, cycle);
            own.or_else(|| place.strange.then_some(2))
        }
    }
    OrphanWhole "on a board an orphan is no damage" {
        fn own_refusal(place: &Place, cycle: &Cycle) -> Option<u8> {
            let whole = |vtr: u8| if Document01::orphan(&place.unit) { 0 } else { vtr };
            let unit = Unit { vtr: whole(place.unit.vtr), ..place.unit.clone() };
            Document01::own_refusal(&Place { unit, ..*place }, cycle)
        }
    }
    NoCollision "12 is forgotten, and the lowest unit drives" {
        fn collides(_units: &Units, _cycle: &BoardCycle) -> bool {
            false
        }
    }
    EqualAddresses "two units that drive the same address do not collide" {
        fn collides(units: &Units, cycle: &BoardCycle) -> bool {
            let route = |number: usize| Document01::route(&units.places[number].unit, &cycle.cycle);
            let mut routes = drivers(units, cycle).into_iter().map(|number| route(number).address());
            let first = routes.next();
            routes.any(|address| Some(address) != first)
        }
    }
    PassedTogether "two units that pass do not collide" {
        fn collides(units: &Units, cycle: &BoardCycle) -> bool {
            let translates = |&number: &usize| units.places[number].unit.mode(mode::TRNS);
            let drivers = drivers(units, cycle);
            drivers.len() > 1 && drivers.iter().any(translates)
        }
    }
    ExactlyTwo "12 is for two units, and not for three" {
        fn collides(units: &Units, cycle: &BoardCycle) -> bool {
            drivers(units, cycle).len() == 2
        }
    }
    ThreeCollide "12 is for three units or more" {
        fn collides(units: &Units, cycle: &BoardCycle) -> bool {
            drivers(units, cycle).len() > 2
        }
    }
    PastCollide "a unit past the count can collide" {
        fn collides(units: &Units, cycle: &BoardCycle) -> bool {
            let all = Units { count: 16, ..units.clone() };
            drivers(&all, cycle).len() > 1
        }
    }
    SelectedCollide "only selected units can collide" {
        fn collides(units: &Units, cycle: &BoardCycle) -> bool {
            counting(units, cycle, |number, _| Document01::selected(cycle.selects, number))
        }
    }
    WithoutAwait "an aborted fetch is refused 12 only if every driver aborts it" {
        fn collides(units: &Units, cycle: &BoardCycle) -> bool {
            let fetches = Document01::fetches(&units.places[0].unit, &cycle.cycle);
            let awaits = |number: &usize| units.places[*number].unit.awaits;
            let drivers = drivers(units, cycle);
            let aborting = drivers.iter().filter(|number| awaits(number)).count();
            drivers.len() > 1 && (!fetches || aborting == 0 || aborting == drivers.len())
        }
    }
    DrivenByTranslation "only translated addresses can collide" {
        fn drives(unit: &Unit, cycle: &Cycle) -> bool {
            memory(cycle) && matches!(Document01::route(unit, cycle), Route::Translated(_))
        }
    }
    DrivenUnaborted "the address of an aborted fetch does not count for 12" {
        fn drives(unit: &Unit, cycle: &Cycle) -> bool {
            let aborts = unit.awaits && Document01::fetches(unit, cycle);
            !aborts && Document01::drives(unit, cycle)
        }
    }
    DrivenByCpu "12 is for the CPU's cycles alone" {
        fn drives(unit: &Unit, cycle: &Cycle) -> bool {
            !cycle.dma && Document01::drives(unit, cycle)
        }
    }
    DrivenWithoutViolation "a unit that finds a violation does not collide" {
        fn drives(unit: &Unit, cycle: &Cycle) -> bool {
            let violates = matches!(finding(unit, cycle), Some(Finding::Violation(_)));
            !violates && Document01::drives(unit, cycle)
        }
    }
    DrivenWithoutHold "a unit that holds does not collide" {
        fn drives(unit: &Unit, cycle: &Cycle) -> bool {
            !Document01::held(unit, cycle) && Document01::drives(unit, cycle)
        }
    }
    DrivenByMsen "any two units with MSEN set collide" {
        fn drives(unit: &Unit, cycle: &Cycle) -> bool {
            memory(cycle) && unit.mode(mode::MSEN)
        }
    }
    DrivenOfRange "for 12 the mode is not looked at: URS alone keeps units apart" {
        fn drives(unit: &Unit, cycle: &Cycle) -> bool {
            let unit = Unit { mr: unit.mr & !mode::MST, ..unit.clone() };
            Document01::drives(&unit, cycle)
        }
    }
    DrivenOfMode "for 12 the range is not looked at: NMS alone keeps units apart" {
        fn drives(unit: &Unit, cycle: &Cycle) -> bool {
            let other = Cycle { segment: cycle.segment ^ 0x40, ..*cycle };
            Document01::drives(unit, cycle) || Document01::drives(unit, &other)
        }
    }
    DrivenAnyStatus "12 is for cycles of any status" {
        fn drives(unit: &Unit, cycle: &Cycle) -> bool {
            let memory = Cycle { status: 0x8, reset: false, ..*cycle };
            Document01::drives(unit, &memory)
        }
    }
    DrivenInReset "12 is judged in a reset cycle with a memory cycle's status too" {
        fn drives(unit: &Unit, cycle: &Cycle) -> bool {
            Document01::drives(unit, &Cycle { reset: false, ..*cycle })
        }
    }
    ReadsSeveral "13 is forgotten, and the bytes are joined" {
        fn reads_several(_units: &Units, _cycle: &BoardCycle) -> bool {
            false
        }
    }
    WritesSeveral "13 is for writes to several units too" {
        fn reads_several(units: &Units, cycle: &BoardCycle) -> bool {
            let read = Cycle { read: true, ..cycle.cycle };
            Document01::reads_several(units, &BoardCycle { cycle: read, ..*cycle })
        }
    }
    PastSelected "13 counts selects past the count" {
        fn reads_several(units: &Units, cycle: &BoardCycle) -> bool {
            Document01::reads_several(&Units { count: 16, ..units.clone() }, cycle)
        }
    }
    PastBesideOne "13 counts selects past the count if one within is set" {
        fn reads_several(units: &Units, cycle: &BoardCycle) -> bool {
            let within = selected(cycle).any(|number| number < usize::from(units.count));
            within && Document01::reads_several(&Units { count: 16, ..units.clone() }, cycle)
        }
    }
    ThreeSelected "13 is for three units or more" {
        fn reads_several(units: &Units, cycle: &BoardCycle) -> bool {
            let within = selected(cycle).filter(|&number| number < usize::from(units.count));
            Document01::reads_several(units, cycle) && within.count() > 2
        }
    }
    AnyReadSeveral "13 is for any read that selects several units" {
        fn reads_several(units: &Units, cycle: &BoardCycle) -> bool {
            let command = Cycle { status: 0x3, dma: false, reset: false, ..cycle.cycle };
            Document01::reads_several(units, &BoardCycle { cycle: command, ..*cycle })
        }
    }
    DmaReadsSeveral "13 is for DMA at status 3 too" {
        fn reads_several(units: &Units, cycle: &BoardCycle) -> bool {
            let command = Cycle { dma: false, ..cycle.cycle };
            Document01::reads_several(units, &BoardCycle { cycle: command, ..*cycle })
        }
    }
    ResetReadsSeveral "13 is for a reset with several selects too" {
        fn reads_several(units: &Units, cycle: &BoardCycle) -> bool {
            let status = if cycle.cycle.reset { 0x3 } else { cycle.cycle.status };
            let reset = Cycle { status, read: cycle.cycle.reset || cycle.cycle.read, reset: false, ..cycle.cycle };
            Document01::reads_several(units, &BoardCycle { cycle: reset, ..*cycle })
        }
    }
    ResetReadAtThree "13 is for a reset in a cycle that would be a read of several units" {
        fn reads_several(units: &Units, cycle: &BoardCycle) -> bool {
            let command = Cycle { reset: false, ..cycle.cycle };
            Document01::reads_several(units, &BoardCycle { cycle: command, ..*cycle })
        }
    }
    AcknowledgeSeveral "13 is for an acknowledge with several selects too" {
        fn reads_several(units: &Units, cycle: &BoardCycle) -> bool {
            let status = if cycle.cycle.status == 0x4 { 0x3 } else { cycle.cycle.status };
            let acknowledge = Cycle { status, ..cycle.cycle };
            Document01::reads_several(units, &BoardCycle { cycle: acknowledge, ..*cycle })
        }
    }
    LowerStep "the units below the one that refuses have taken the cycle" {
        fn board_step(units: &mut Units, cycle: &BoardCycle) -> BoardAnswer {
            step_some(units, cycle, |_, _, refusal, number| refusal.unit > Some(number))
        }
    }
    HigherStep "the units above the one that refuses still take the cycle" {
        fn board_step(units: &mut Units, cycle: &BoardCycle) -> BoardAnswer {
            step_some(units, cycle, |_, _, refusal, number| {
                refusal.unit.is_some_and(|unit| number > unit)
            })
        }
    }
    DriverSteps "a cycle that is refused 12 goes to the lowest unit that would drive" {
        fn board_step(units: &mut Units, cycle: &BoardCycle) -> BoardAnswer {
            step_some(units, cycle, |units, cycle, refusal, number| {
                refusal.number == 12 && drivers(units, cycle).first() == Some(&number)
            })
        }
    }
    OthersStep "a cycle that is refused 12 goes to the units that would not drive" {
        fn board_step(units: &mut Units, cycle: &BoardCycle) -> BoardAnswer {
            step_some(units, cycle, |units, cycle, refusal, number| {
                refusal.number == 12 && !drivers(units, cycle).contains(&number)
            })
        }
    }
    AllStep "a cycle that is refused 12 goes to all units, and only the address is lost" {
        fn board_step(units: &mut Units, cycle: &BoardCycle) -> BoardAnswer {
            step_some(units, cycle, |_, _, refusal, _| refusal.number == 12)
        }
    }
    ReadersStep "a read that is refused 13 steps the units all the same" {
        fn board_step(units: &mut Units, cycle: &BoardCycle) -> BoardAnswer {
            step_some(units, cycle, |_, _, refusal, _| refusal.number == 13)
        }
    }
    CountSteps "with a count above 16 the units take the cycle" {
        fn board_step(units: &mut Units, cycle: &BoardCycle) -> BoardAnswer {
            step_some(units, cycle, |_, _, refusal, _| refusal.number == 11)
        }
    }
    TrapOff "the trap line is off after a refusal" {
        fn refused_trap(_units: &Units, _refusal: Refusal) -> bool {
            false
        }
    }
    TrapOffOfBoard "the trap line is off after 12 and 13" {
        fn refused_trap(units: &Units, refusal: Refusal) -> bool {
            refusal.unit.is_some() && Document01::refused_trap(units, refusal)
        }
    }
    TrapOfEleven "11 shows the requests as they stand" {
        fn refused_trap(units: &Units, _refusal: Refusal) -> bool {
            present(units).iter().any(|place| place.unit.request)
        }
    }
    TrapOn "11 shows the trap line on" {
        fn refused_trap(units: &Units, refusal: Refusal) -> bool {
            refusal.number == 11 || Document01::refused_trap(units, refusal)
        }
    }
    TrapOfRefuser "a unit's own refusal shows that unit's request alone" {
        fn refused_trap(units: &Units, refusal: Refusal) -> bool {
            match refusal.unit {
                Some(number) => units.places[number].unit.request,
                None => Document01::refused_trap(units, refusal),
            }
        }
    }
    TrapOfOthers "the request of the unit that refuses is not shown" {
        fn refused_trap(units: &Units, refusal: Refusal) -> bool {
            let mut places = present(units).iter().enumerate();
            refusal.number != 11
                && places.any(|(number, place)| place.unit.request && refusal.unit != Some(number))
        }
    }
    TrapOfPast "a request past the count shows after a refusal" {
        fn refused_trap(units: &Units, refusal: Refusal) -> bool {
            refusal.number != 11 && units.places.iter().any(|place| place.unit.request)
        }
    }
    TrapOfStrange "the request of a unit with notes that no unit has does not stand" {
        fn refused_trap(units: &Units, refusal: Refusal) -> bool {
            let stands = |place: &Place| place.unit.request && !place.strange;
            refusal.number != 11 && present(units).iter().any(stands)
        }
    }
    RefusedNamesFirst "every refusal names unit 0" {
        fn refused(units: &Units, refusal: Refusal) -> BoardAnswer {
            BoardAnswer { unit: Some(0), ..Document01::refused(units, refusal) }
        }
    }
    RefusedSup "a refusal turns SUP on" {
        fn refused(units: &Units, refusal: Refusal) -> BoardAnswer {
            let mut refused = Document01::refused(units, refusal);
            refused.answer.sup = true;
            refused
        }
    }
    RefusedHold "a refused cycle shows SUP on while a unit holds" {
        fn refused(units: &Units, refusal: Refusal) -> BoardAnswer {
            let mut refused = Document01::refused(units, refusal);
            refused.answer.sup = present(units).iter().any(|place| place.unit.hold);
            refused
        }
    }
    RefusedIgnored "12 is shown as I, with no number" {
        fn refused(units: &Units, refusal: Refusal) -> BoardAnswer {
            let mut refused = Document01::refused(units, refusal);
            if refusal.number == 12 {
                refused.answer.kind = Kind::Ignored;
            }
            refused
        }
    }
}
