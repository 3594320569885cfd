//! Wrong readings of how the units' answers are joined: kind, address, SUP, trap
//! line, data, distance, and the unit that is named.

use super::wrong;
use witness::board::{Board, BoardAnswer, BoardCycle, Units};
use witness::cycle::{Answer, Kind};
use witness::Document01;

/// The right answer, but for the unit that it names.
fn naming(
    units: &mut Units,
    cycle: &BoardCycle,
    name: fn(&BoardAnswer) -> Option<usize>,
) -> BoardAnswer {
    let answer = Document01::board_step(units, cycle);
    BoardAnswer {
        unit: name(&answer),
        ..answer
    }
}

fn driven(answers: &[Answer]) -> impl Iterator<Item = u8> + '_ {
    answers.iter().filter_map(|answer| answer.data)
}

fn acknowledges(answers: &[Answer]) -> bool {
    answers
        .iter()
        .any(|answer| answer.kind == Kind::Acknowledge)
}

/// The right byte, but for an acknowledge's.
fn acknowledged(answers: &[Answer], join: fn(&[Answer]) -> Option<u8>) -> Option<u8> {
    match acknowledges(answers) {
        true => join(answers),
        false => Document01::joined_data(answers),
    }
}

fn driver(answers: &[Answer]) -> Option<&Answer> {
    Document01::driver(answers).map(|number| &answers[number])
}

/// The unit that is named, or else the first with an answer of this kind.
fn named_by(answers: &[Answer], kind: Kind) -> Option<usize> {
    let first = || answers.iter().position(|answer| answer.kind == kind);
    Document01::named(answers).or_else(first)
}

wrong! { Board:
    NamedFromOne "units are counted from 1" {
        fn board_step(units: &mut Units, cycle: &BoardCycle) -> BoardAnswer {
            naming(units, cycle, |answer| answer.unit.map(|number| number + 1))
        }
    }
    NamedNever "no unit is named" {
        fn board_step(units: &mut Units, cycle: &BoardCycle) -> BoardAnswer {
            naming(units, cycle, |_| None)
        }
    }
    HighestDrives "the highest unit that drives is the driver"
    same "12 leaves no more than one that drives" {
        fn driver(answers: &[Answer]) -> Option<usize> {
            answers.iter().rposition(|answer| answer.address.is_some())
        }
    }
    TranslatorDrives "a board's driver is a unit that translates" {
        fn driver(answers: &[Answer]) -> Option<usize> {
            answers.iter().position(|answer| answer.kind == Kind::Translated)
        }
    }
    CommandNamed "a command names the lowest unit that takes it" {
        fn named(answers: &[Answer]) -> Option<usize> {
            named_by(answers, Kind::Command)
        }
    }
    ReadNamed "a command read names the unit that is read" {
        fn named(answers: &[Answer]) -> Option<usize> {
            let read = |answer: &Answer| answer.kind == Kind::Command && answer.data.is_some();
            Document01::named(answers).or_else(|| answers.iter().position(read))
        }
    }
    AcknowledgeNamed "an acknowledge names the lowest unit that drives its line high" {
        fn named(answers: &[Answer]) -> Option<usize> {
            let high = |answer: &Answer| answer.kind == Kind::Acknowledge && answer.data > Some(0);
            Document01::named(answers).or_else(|| answers.iter().position(high))
        }
    }
    ResetNamed "a reset names unit 0" {
        fn named(answers: &[Answer]) -> Option<usize> {
            named_by(answers, Kind::Reset)
        }
    }
    AbortNamed "an aborted fetch that nobody drives names the unit that aborts it" {
        fn named(answers: &[Answer]) -> Option<usize> {
            named_by(answers, Kind::AbortedFetch)
        }
    }
    AbortNamedFirst "an aborted fetch names the unit that aborts it, whoever drives" {
        fn named(answers: &[Answer]) -> Option<usize> {
            let aborts = answers.iter().position(|answer| answer.kind == Kind::AbortedFetch);
            aborts.or(Document01::named(answers))
        }
    }
    TranslatorNamed "a unit that passes is not named" {
        fn named(answers: &[Answer]) -> Option<usize> {
            Document01::named(answers).filter(|&number| answers[number].kind != Kind::Passed)
        }
    }
    CheckerNamed "a unit that aborts its fetch is not named" {
        fn named(answers: &[Answer]) -> Option<usize> {
            Document01::named(answers).filter(|&number| answers[number].kind != Kind::AbortedFetch)
        }
    }
    SuppressorNamed "the unit whose SUP is on is named" {
        fn named(answers: &[Answer]) -> Option<usize> {
            let suppresses = answers.iter().position(|answer| answer.sup);
            suppresses.or(Document01::named(answers))
        }
    }
    KindAborts "a fetch that any unit aborts is shown as F" {
        fn joined_kind(answers: &[Answer]) -> Kind {
            match answers.iter().any(|answer| answer.kind == Kind::AbortedFetch) {
                true => Kind::AbortedFetch,
                false => Document01::joined_kind(answers),
            }
        }
    }
    KindDriven "an aborted fetch that nobody drives is shown as I" {
        fn joined_kind(answers: &[Answer]) -> Kind {
            match (Document01::joined_kind(answers), Document01::driver(answers)) {
                (Kind::AbortedFetch, None) => Kind::Ignored,
                (kind, _) => kind,
            }
        }
    }
    KindAllAbort "F is shown only if every unit aborts" {
        fn joined_kind(answers: &[Answer]) -> Kind {
            let all = answers.iter().all(|answer| answer.kind == Kind::AbortedFetch);
            match Document01::joined_kind(answers) {
                Kind::AbortedFetch if !all => Kind::Ignored,
                kind => kind,
            }
        }
    }
    KindOfAllSelected "C is shown only if every unit is selected" {
        fn joined_kind(answers: &[Answer]) -> Kind {
            let all = answers.iter().all(|answer| answer.kind == Kind::Command);
            match Document01::joined_kind(answers) {
                Kind::Command if !all => Kind::Ignored,
                kind => kind,
            }
        }
    }
    KindOfFirst "the kind is unit 0's" {
        fn joined_kind(answers: &[Answer]) -> Kind {
            answers[0].kind
        }
    }
    KindOfDrivenAcknowledge "an acknowledge that nobody drives is shown as I" {
        fn joined_kind(answers: &[Answer]) -> Kind {
            match (Document01::joined_kind(answers), Document01::joined_data(answers)) {
                (Kind::Acknowledge, None) => Kind::Ignored,
                (kind, _) => kind,
            }
        }
    }
    KindTranslated "P is shown as T" {
        fn joined_kind(answers: &[Answer]) -> Kind {
            match Document01::joined_kind(answers) {
                Kind::Passed => Kind::Translated,
                kind => kind,
            }
        }
    }
    AddressOr "the address lines are joined as the acknowledge lines are"
    same "12 leaves no more than one that drives" {
        fn join(answers: &[Answer]) -> BoardAnswer {
            let driven = answers.iter().filter_map(|answer| answer.address);
            let mut joined = Document01::join(answers);
            joined.answer.address = driven.reduce(|one, other| one | other);
            joined
        }
    }
    AddressUnsuppressed "with SUP on by another unit the address is not driven" {
        fn join(answers: &[Answer]) -> BoardAnswer {
            let mut joined = Document01::join(answers);
            if driver(answers).is_some_and(|driver| !driver.sup && joined.answer.sup) {
                joined.answer.address = None;
            }
            joined
        }
    }
    AddressOfFirst "unit 0 alone drives the address" {
        fn join(answers: &[Answer]) -> BoardAnswer {
            let mut joined = Document01::join(answers);
            joined.answer.address = answers[0].address;
            joined
        }
    }
    SupOfAll "SUP is on if every unit's is" {
        fn joined_sup(answers: &[Answer]) -> bool {
            answers.iter().all(|answer| answer.sup)
        }
    }
    SupOfDriver "SUP is the driver's" {
        fn joined_sup(answers: &[Answer]) -> bool {
            driver(answers).is_some_and(|driver| driver.sup)
        }
    }
    SupOfDriverOrAny "SUP is the driver's, and any unit's where none drives" {
        fn joined_sup(answers: &[Answer]) -> bool {
            driver(answers).map_or(Document01::joined_sup(answers), |driver| driver.sup)
        }
    }
    SupOfFirst "SUP is unit 0's" {
        fn joined_sup(answers: &[Answer]) -> bool {
            answers[0].sup
        }
    }
    SupDriven "SUP is off where nobody drives" {
        fn joined_sup(answers: &[Answer]) -> bool {
            driver(answers).is_some() && Document01::joined_sup(answers)
        }
    }
    SupOfOne "SUP is off if two units turn it on" {
        fn joined_sup(answers: &[Answer]) -> bool {
            answers.iter().filter(|answer| answer.sup).count() % 2 == 1
        }
    }
    TrapOfAll "the trap line is on if every unit's is" {
        fn joined_trap(answers: &[Answer]) -> bool {
            answers.iter().all(|answer| answer.trap)
        }
    }
    TrapOfFirst "the trap line is unit 0's" {
        fn joined_trap(answers: &[Answer]) -> bool {
            answers[0].trap
        }
    }
    TrapOfLast "the trap line is the last unit's" {
        fn joined_trap(answers: &[Answer]) -> bool {
            answers[answers.len() - 1].trap
        }
    }
    TrapOfDriver "the trap line is the driver's, where one drives" {
        fn joined_trap(answers: &[Answer]) -> bool {
            driver(answers).map_or(Document01::joined_trap(answers), |driver| driver.trap)
        }
    }
    TrapOfOne "the trap line is off if two units turn it on" {
        fn joined_trap(answers: &[Answer]) -> bool {
            answers.iter().filter(|answer| answer.trap).count() % 2 == 1
        }
    }
    DataAnd "an acknowledge line is high if every unit drives it so" {
        fn joined_data(answers: &[Answer]) -> Option<u8> {
            acknowledged(answers, |answers| driven(answers).reduce(|one, other| one & other))
        }
    }
    DataXor "two units drive an acknowledge line low together" {
        fn joined_data(answers: &[Answer]) -> Option<u8> {
            acknowledged(answers, |answers| driven(answers).reduce(|one, other| one ^ other))
        }
    }
    DataSum "the acknowledge bytes are added" {
        fn joined_data(answers: &[Answer]) -> Option<u8> {
            acknowledged(answers, |answers| driven(answers).reduce(u8::wrapping_add))
        }
    }
    DataLowest "the lowest unit that drives answers an acknowledge alone" {
        fn joined_data(answers: &[Answer]) -> Option<u8> {
            acknowledged(answers, |answers| driven(answers).next())
        }
    }
    DataLowestRequest "the lowest unit with a request answers an acknowledge alone" {
        fn joined_data(answers: &[Answer]) -> Option<u8> {
            acknowledged(answers, |answers| {
                driven(answers).find(|&byte| byte != 0).or(driven(answers).next())
            })
        }
    }
    DataHighest "the highest unit that drives answers an acknowledge alone" {
        fn joined_data(answers: &[Answer]) -> Option<u8> {
            acknowledged(answers, |answers| driven(answers).last())
        }
    }
    DataOfAll "an acknowledge byte is driven only if every unit drives one" {
        fn joined_data(answers: &[Answer]) -> Option<u8> {
            acknowledged(answers, |answers| {
                let all = answers.iter().all(|answer| answer.data.is_some());
                Document01::joined_data(answers).filter(|_| all)
            })
        }
    }
    DataHigh "an acknowledge byte of low lines is not driven" {
        fn joined_data(answers: &[Answer]) -> Option<u8> {
            acknowledged(answers, |answers| Document01::joined_data(answers).filter(|&byte| byte != 0))
        }
    }
    DataAlways "an acknowledge byte is always driven" {
        fn joined_data(answers: &[Answer]) -> Option<u8> {
            acknowledged(answers, |answers| Document01::joined_data(answers).or(Some(0)))
        }
    }
    DataOfFirst "unit 0 alone can be read" {
        fn joined_data(answers: &[Answer]) -> Option<u8> {
            match acknowledges(answers) {
                true => Document01::joined_data(answers),
                false => answers[0].data,
            }
        }
    }
    DistanceOfFirst "a board carries unit 0's distance" {
        fn joined_distance(answers: &[Answer]) -> u8 {
            answers[0].distance
        }
    }
    DistanceOfLast "a board carries the last unit's distance" {
        fn joined_distance(answers: &[Answer]) -> u8 {
            answers[answers.len() - 1].distance
        }
    }
    DistanceNone "a board carries no distance" {
        fn joined_distance(_answers: &[Answer]) -> u8 {
            0
        }
    }
    DistanceLeast "a board carries the least distance of its units" {
        fn joined_distance(answers: &[Answer]) -> u8 {
            answers.iter().map(|answer| answer.distance).min().unwrap_or(0)
        }
    }
    DistanceGreatest "a board carries the greatest distance of its units"
    same "only the unit that translates has one" {
        fn joined_distance(answers: &[Answer]) -> u8 {
            answers.iter().map(|answer| answer.distance).max().unwrap_or(0)
        }
    }
    DistanceSum "a board carries the sum of its units' distances"
    same "only the unit that translates has one" {
        fn joined_distance(answers: &[Answer]) -> u8 {
            answers.iter().map(|answer| answer.distance).fold(0, u8::wrapping_add)
        }
    }
    DistanceUnsuppressed "with SUP on by another unit a board carries 0" {
        fn joined_distance(answers: &[Answer]) -> u8 {
            let another = driver(answers).is_some_and(|driver| !driver.sup) && Document01::joined_sup(answers);
            if another { 0 } else { Document01::joined_distance(answers) }
        }
    }
}
