//! The board that the benchmark times: units in a row, updated in place, each
//! refusal judged once before any of them moves. Answers in eight bytes each:
//! the seven of a unit's, then the number of the unit that is named, or 255.

use crate::board::{BoardAnswer, Refusal, PLACES};
use crate::commands::Commands;
use crate::cycle::{Answer, Cycle, Kind};
use crate::memory::Memory;
use crate::packed::pack;
use crate::step::{Class, Step};
use crate::trace::Layout;
use crate::translation::Translation;
use crate::unit::Unit;
use crate::Document01;

pub const BYTES: usize = 8;

/// Four bytes as in a trace, the low byte, the selects with their high byte
/// first.
pub const RECORD: usize = 7;

/// Runs of more records are cut.
pub const RECORDS: usize = 16_000;

/// The whole records of an input, which come behind its unit count.
pub fn records(input: &[u8]) -> impl ExactSizeIterator<Item = (Cycle, u16)> + '_ {
    let records = input.get(1..).unwrap_or_default().chunks_exact(RECORD);
    records.take(RECORDS).map(decode)
}

fn decode(record: &[u8]) -> (Cycle, u16) {
    let cycle = Document01::decode([record[0], record[1], record[2], record[3]]);
    let low = record[4];
    (
        Cycle { low, ..cycle },
        u16::from_be_bytes([record[5], record[6]]),
    )
}

/// Runs an input from power-on into a buffer of eight bytes a record.
pub fn run(input: &[u8], answers: &mut [u8]) {
    let Some(&count) = input.first() else {
        return;
    };
    let mut units = vec![Unit::power_on(); usize::from(count)];
    let places = answers.chunks_exact_mut(BYTES);
    for ((cycle, selects), place) in records(input).zip(places) {
        place.copy_from_slice(&pack_board(&step(&mut units, &cycle, selects)));
    }
}

pub fn pack_board(answer: &BoardAnswer) -> [u8; BYTES] {
    let mut packed = [0; BYTES];
    packed[..BYTES - 1].copy_from_slice(&pack(&answer.answer));
    packed[BYTES - 1] = answer.unit.map_or(0xFF, |number| number as u8);
    packed
}

/// One cycle for all units.
pub fn step(units: &mut [Unit], cycle: &Cycle, selects: u16) -> BoardAnswer {
    if units.is_empty() || units.len() > PLACES {
        return BoardAnswer {
            answer: Answer::quiet(Kind::Refused(11), false),
            unit: None,
        };
    }
    let selects = selects & (0xFFFF >> (PLACES - units.len()));
    // A command if anybody is selected; what it is else is the same for all.
    let select = selects != 0;
    let cycle = Cycle { select, ..*cycle };
    let class = Document01::class(&cycle);
    let (answer, unit) = match judge(units, &cycle, class, selects) {
        Ok(driver) => (go(units, &cycle, class, selects, driver), driver),
        Err(Refusal { number, unit }) => {
            let stands = units.iter().any(|unit| unit.request);
            (Answer::quiet(Kind::Refused(number), stands), unit)
        }
    };
    BoardAnswer { answer, unit }
}

fn is_selected(selects: u16, number: usize) -> bool {
    selects >> number & 1 == 1
}

/// The unit that drives the address, if one does; or the refusal.
fn judge(
    units: &[Unit],
    cycle: &Cycle,
    class: Class,
    selects: u16,
) -> Result<Option<usize>, Refusal> {
    let own = |number, unit| Refusal {
        number,
        unit: Some(unit),
    };
    let range = Document01::out_of_range(cycle);
    let command = match class {
        Class::Command => Document01::command_refusal(cycle),
        _ => None,
    };
    let (mut driver, mut collides) = (None, false);
    for (number, unit) in units.iter().enumerate() {
        if Document01::damaged(unit) {
            return Err(own(2, number));
        }
        if range {
            return Err(own(1, number));
        }
        if let Some(refusal) = command.filter(|_| is_selected(selects, number)) {
            return Err(own(refusal, number));
        }
        if class == Class::Memory && Document01::route(unit, cycle).address().is_some() {
            collides |= driver.is_some();
            driver = Some(number);
        }
    }
    if collides {
        Err(Refusal::of_board(12))
    } else if class == Class::Command && cycle.read && selects.count_ones() > 1 {
        Err(Refusal::of_board(13))
    } else {
        Ok(driver)
    }
}

/// A cycle that no unit refuses.
fn go(
    units: &mut [Unit],
    cycle: &Cycle,
    class: Class,
    selects: u16,
    driver: Option<usize>,
) -> Answer {
    let (kind, data) = match class {
        Class::Memory => return memory(units, cycle, driver),
        Class::Reset => {
            reset(units, cycle, selects);
            (Kind::Reset, None)
        }
        Class::Acknowledge => (Kind::Acknowledge, acknowledge(units, cycle)),
        Class::Command => (Kind::Command, command(units, cycle, selects)),
        Class::Ignored => (Kind::Ignored, None),
    };
    let stands = units.iter().any(|unit| unit.request);
    Answer {
        data,
        ..Answer::quiet(kind, stands)
    }
}

fn reset(units: &mut [Unit], cycle: &Cycle, selects: u16) {
    for (number, unit) in units.iter_mut().enumerate() {
        let select = is_selected(selects, number);
        Document01::reset(unit, &Cycle { select, ..*cycle });
    }
}

fn acknowledge(units: &mut [Unit], cycle: &Cycle) -> Option<u8> {
    let lines = units.iter_mut();
    let driven = lines.filter_map(|unit| Document01::acknowledge(unit, cycle));
    driven.reduce(|joined, byte| joined | byte)
}

/// Of the units that are read there is one.
fn command(units: &mut [Unit], cycle: &Cycle, selects: u16) -> Option<u8> {
    let mut data = None;
    for (number, unit) in units.iter_mut().enumerate() {
        if is_selected(selects, number) {
            data = Document01::command(unit, cycle);
        }
    }
    data
}

/// The driver's answer with every unit's SUP and trap line joined to it.
fn memory(units: &mut [Unit], cycle: &Cycle, driver: Option<usize>) -> Answer {
    let mut joined = Answer::quiet(Kind::Ignored, false);
    let (mut sup, mut trap) = (false, false);
    for (number, unit) in units.iter_mut().enumerate() {
        let answer = Document01::memory(unit, cycle);
        sup |= answer.sup;
        trap |= answer.trap;
        let undriven = driver.is_none() && answer.kind == Kind::AbortedFetch;
        if driver == Some(number) || undriven {
            joined = answer;
        }
    }
    Answer {
        sup,
        trap,
        ..joined
    }
}
