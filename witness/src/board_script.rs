//! Board scripts: boards of hand-made units, and cycles for all of them.
//!
//! `B nn` sets a board of so many units, all sixteen at power-on. `U ii` and `D
//! ii` set a unit and a descriptor as the lines of a step script do, of unit ii,
//! one past the count as well. `C ss ff gg oo ww bb hhhh` steps one cycle: the
//! fields of a step script's, then sixteen select bits. It prints the answer and
//! the unit that it names, and then each unit that the cycle changed. Blank lines
//! and lines starting with `#` are echoed; any other line prints `?`. A script
//! starts with one unit at power-on.

use std::io::Write;

use crate::board::{Board, BoardAnswer, BoardCycle, Place, Units, PLACES};
use crate::script::{byte, cycle, descriptor, hex, unit, Registers};
use crate::unit::{Descriptor, Unit};

/// What is read of a script; the rest is left.
pub const LONGEST: usize = 65_536;

/// Runs a script with a reading and gives the text it prints.
pub fn run<R: Board>(script: &[u8]) -> Vec<u8> {
    play(script, &mut R::board_step)
}

type Step<'s> = dyn FnMut(&mut Units, &BoardCycle) -> BoardAnswer + 's;

/// The same with any step, one that looks on among them.
pub fn play(script: &[u8], step: &mut Step) -> Vec<u8> {
    let mut units = Units::power_on(1);
    let mut text = Vec::new();
    for line in lines(&script[..script.len().min(LONGEST)]) {
        if line.is_empty() || line.starts_with(b"#") {
            text.extend(line);
            text.push(b'\n');
            continue;
        }
        match parse(line) {
            Some(Line::Board(count)) => units = Units::power_on(count),
            Some(Line::Unit(number, place)) => units.places[number] = *place,
            Some(Line::Descriptor(number, at, descriptor)) => {
                units.places[number].unit.table[at] = descriptor;
            }
            Some(Line::Cycle(cycle)) => step_lines(&mut text, &mut units, &cycle, step),
            None => text.extend(b"?\n"),
        }
    }
    text
}

/// What stands before each line feed, and behind the last if there is anything.
pub(crate) fn lines(script: &[u8]) -> impl Iterator<Item = &[u8]> {
    script
        .split_inclusive(|&byte| byte == b'\n')
        .map(|line| line.strip_suffix(b"\n").unwrap_or(line))
}

/// The answer, and each unit that the cycle changed.
fn step_lines(text: &mut Vec<u8>, units: &mut Units, cycle: &BoardCycle, step: &mut Step) {
    let before = units.clone();
    let BoardAnswer { answer, unit } = step(units, cycle);
    let named = unit.map_or("--".to_string(), |number| format!("{number:02X}"));
    write_line(text, &format!("{answer} | {named}"));
    for (number, (place, old)) in units.places.iter().zip(&before.places).enumerate() {
        if place != old {
            let changed = changed(&place.unit, &old.unit);
            write_line(text, &format!("{number:02X} | {changed}"));
        }
    }
}

pub(crate) fn write_line(text: &mut Vec<u8>, line: &str) {
    writeln!(text, "{line}").expect("a vector takes every byte");
}

/// The registers, and those descriptors that changed.
fn changed(unit: &Unit, old: &Unit) -> String {
    let mut line = Registers(unit).to_string();
    for (at, (descriptor, old)) in unit.table.iter().zip(&old.table).enumerate() {
        if descriptor != old {
            line += &format!(" | {at:02X} {descriptor}");
        }
    }
    line
}

enum Line {
    Board(u8),
    Unit(usize, Box<Place>),
    Descriptor(usize, usize, Descriptor),
    Cycle(BoardCycle),
}

fn parse(line: &[u8]) -> Option<Line> {
    let line = std::str::from_utf8(line).ok()?;
    let (letter, fields) = line.split_once(' ')?;
    match letter {
        "B" => byte(fields).map(Line::Board),
        "C" => board_cycle(fields).map(Line::Cycle),
        _ => {
            let (number, fields) = fields.split_once(' ')?;
            let number = usize::from(byte(number)?);
            match letter {
                _ if number >= PLACES => None,
                "U" => place(fields).map(|place| Line::Unit(number, Box::new(place))),
                "D" => descriptor(fields).map(|(at, new)| Line::Descriptor(number, at, new)),
                _ => None,
            }
        }
    }
}

/// Notes above %0F make a unit that counts as damaged; its request is still bit
/// 0 of them.
fn place(fields: &str) -> Option<Place> {
    let (unit, notes) = unit(fields)?;
    let strange = notes > 0x0F;
    Some(Place { unit, strange })
}

fn board_cycle(fields: &str) -> Option<BoardCycle> {
    let (fields, selects) = fields.rsplit_once(' ')?;
    Some(BoardCycle {
        cycle: cycle(fields)?,
        selects: hex(selects, 4)?,
    })
}
