//! Step scripts: hand-made units and single cycles, for states that no trace
//! reaches.
//!
//! `U mr sar dscr vtr vsn voff bcsr isn ioff notes low` sets a unit with an
//! empty table, `D nn bbbb ll aa` one descriptor. `C ss ff gg oo ww bb` steps
//! one cycle and prints a line: status, flags, segment, offset byte, low byte,
//! data byte. Blank lines and lines starting with `#` are echoed; any other
//! line prints `?`. A script starts at power-on.

use std::fmt;

use crate::cycle::{Answer, Cycle};
use crate::text::Text;
use crate::unit::{Descriptor, Unit};

/// Runs a script with a reading and gives the text it prints.
pub fn run<R: Text>(script: &str) -> String {
    play(script, R::power_on(), &mut R::step)
}

type Step<'s> = dyn FnMut(&mut Unit, &Cycle) -> Answer + 's;

/// The same from any unit and with any step, one that looks on among them.
pub fn play(script: &str, mut unit: Unit, step: &mut Step) -> String {
    let mut text = String::new();
    for line in script.split_terminator('\n') {
        if line.is_empty() || line.starts_with('#') {
            text.push_str(line);
            text.push('\n');
        } else if let Some(new) = parse_unit(line) {
            unit = new;
        } else if let Some((number, new)) = line.strip_prefix("D ").and_then(descriptor) {
            unit.table[number] = new;
        } else if let Some(cycle) = line.strip_prefix("C ").and_then(cycle) {
            text.push_str(&step_line(&mut unit, &cycle, step));
        } else {
            text.push_str("?\n");
        }
    }
    text
}

/// The answer, the registers after it, and the descriptor that the cycle
/// looks at: a command's by SAR as it was before, any other's by segment.
fn step_line(unit: &mut Unit, cycle: &Cycle, step: &mut Step) -> String {
    let number = if cycle.status == 3 {
        unit.sar % 64
    } else {
        cycle.segment % 64
    };
    let answer = step(unit, cycle);
    let descriptor = unit.table[usize::from(number)];
    format!(
        "{answer} | {} | {number:02X} {descriptor}\n",
        Registers(unit)
    )
}

/// The registers, notes and kept low byte of a unit, as a script's `U` line
/// gives them.
pub struct Registers<'u>(pub &'u Unit);

impl fmt::Display for Registers<'_> {
    fn fmt(&self, out: &mut fmt::Formatter) -> fmt::Result {
        let unit = self.0;
        write!(
            out,
            "{:02X} {:02X} {:02X} {:02X} {:02X} {:02X} {:02X} {:02X} {:02X} {:02X} {:02X}",
            unit.mr,
            unit.sar,
            unit.dscr,
            unit.vtr,
            unit.vsn,
            unit.voff,
            unit.bcsr,
            unit.isn,
            unit.ioff,
            notes(unit),
            unit.low
        )
    }
}

/// Bit 0 request, bit 1 await, bit 2 own, bit 3 hold.
fn notes(unit: &Unit) -> u8 {
    u8::from(unit.request)
        | u8::from(unit.awaits) << 1
        | u8::from(unit.own) << 2
        | u8::from(unit.hold) << 3
}

impl fmt::Display for Descriptor {
    fn fmt(&self, out: &mut fmt::Formatter) -> fmt::Result {
        let Descriptor {
            base,
            limit,
            attributes,
        } = self;
        write!(out, "{base:04X} {limit:02X} {attributes:02X}")
    }
}

/// The unit of a `U` line.
pub fn parse_unit(line: &str) -> Option<Unit> {
    unit(line.strip_prefix("U ")?).map(|(unit, _)| unit)
}

/// A unit of these fields with an empty table, and its notes byte as given.
pub(crate) fn unit(fields: &str) -> Option<(Unit, u8)> {
    let [mr, sar, dscr, vtr, vsn, voff, bcsr, isn, ioff, notes, low] = bytes(fields)?;
    let unit = Unit {
        mr,
        sar,
        dscr,
        vtr,
        vsn,
        voff,
        bcsr,
        isn,
        ioff,
        low,
        request: notes & 1 != 0,
        awaits: notes & 2 != 0,
        own: notes & 4 != 0,
        hold: notes & 8 != 0,
        ..Unit::power_on()
    };
    Some((unit, notes))
}

pub(crate) fn descriptor(fields: &str) -> Option<(usize, Descriptor)> {
    let mut fields = fields.split(' ');
    let number = usize::from(hex(fields.next()?, 2)?);
    let descriptor = Descriptor {
        base: hex(fields.next()?, 4)?,
        limit: byte(fields.next()?)?,
        attributes: byte(fields.next()?)?,
    };
    (number < 64 && fields.next().is_none()).then_some((number, descriptor))
}

pub(crate) fn cycle(fields: &str) -> Option<Cycle> {
    bytes(fields).map(cycle_of)
}

/// The cycle of a script's six bytes.
pub(crate) fn cycle_of(bytes: [u8; 6]) -> Cycle {
    let [status, flags, segment, offset, low, data] = bytes;
    Cycle {
        status,
        read: flags & 0x01 != 0,
        normal: flags & 0x02 != 0,
        dma: flags & 0x04 != 0,
        select: flags & 0x08 != 0,
        reset: flags & 0x10 != 0,
        segment,
        offset,
        low,
        data,
    }
}

/// Exactly N fields of two hexadecimal digits.
fn bytes<const N: usize>(fields: &str) -> Option<[u8; N]> {
    let parsed: Option<Vec<u8>> = fields.split(' ').map(byte).collect();
    parsed?.try_into().ok()
}

pub(crate) fn byte(field: &str) -> Option<u8> {
    hex(field, 2).map(|value| value as u8)
}

pub(crate) fn hex(field: &str, digits: usize) -> Option<u16> {
    number(field, digits).map(|value| value as u16)
}

/// The digits are looked at one by one because the standard parser lets a
/// plus sign through.
pub(crate) fn number(field: &str, digits: usize) -> Option<u64> {
    let good = field.len() == digits && field.bytes().all(|byte| byte.is_ascii_hexdigit());
    good.then(|| u64::from_str_radix(field, 16).ok())?
}
