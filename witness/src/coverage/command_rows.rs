//! Rows of the commands: every code in each direction, each DSCR in front of
//! each descriptor command, and what stands when a command comes.

use crate::commands::code;
use crate::cycle::Kind;
use crate::unit::{mode, violation};

use super::event::Event;
use super::Row;

/// A selected command with such a code, refused or not.
fn coded(e: &Event, codes: std::ops::RangeInclusive<u8>) -> bool {
    let command = !e.cycle.reset && e.cycle.status == 0x3 && e.cycle.select && !e.cycle.dma;
    command && codes.contains(&e.cycle.offset)
}

/// A command with such a code that was obeyed.
fn obeyed(e: &Event, code: u8) -> bool {
    e.is(Kind::Command) && e.cycle.offset == code
}

pub fn rows() -> Vec<Row> {
    let mut rows = codes();
    rows.extend(descriptor_commands());
    rows.extend(registers());
    rows.extend(clears());
    rows.extend(kept_segments());
    rows
}

fn codes() -> Vec<Row> {
    let mut ranges: Vec<(u8, u8)> = (0x00..=0x16).map(|code| (code, code)).collect();
    ranges.extend([(0x17, 0x1F), (0x20, 0x20), (0x21, 0xFF)]);
    let row = |(from, to): (u8, u8), read: bool| {
        let direction = if read { "read" } else { "write" };
        let name = if from == to {
            format!("command %{from:02X} {direction}")
        } else {
            format!("command %{from:02X} to %{to:02X} {direction}")
        };
        Row::record(name, move |e| coded(e, from..=to) && e.cycle.read == read)
    };
    ranges
        .into_iter()
        .flat_map(|range| [row(range, false), row(range, true)])
        .collect()
}

fn descriptor_commands() -> Vec<Row> {
    let mut rows = Vec::new();
    for code in code::BASE..=code::WHOLE_STEPPING {
        for dscr in 0..4 {
            rows.push(Row::record(
                format!("command %{code:02X} with DSCR {dscr}"),
                move |e| obeyed(e, code) && e.before.dscr == dscr,
            ));
        }
    }
    for code in code::STEPPING..=code::WHOLE_STEPPING {
        rows.push(Row::record(
            format!("command %{code:02X} steps SAR from 63 to 0"),
            move |e| obeyed(e, code) && e.before.sar == 63 && e.after.sar == 0,
        ));
    }
    rows
}

fn registers() -> Vec<Row> {
    vec![
        Row::record("SAR written with high bits", |e| {
            obeyed(e, code::SAR) && !e.cycle.read && e.cycle.data > 63
        }),
        Row::record("DSCR written with high bits", |e| {
            obeyed(e, code::DSCR) && !e.cycle.read && e.cycle.data > 3
        }),
        Row::record("command in normal mode", |e| {
            e.is(Kind::Command) && e.cycle.normal
        }),
        Row::record("command with MSEN clear", |e| {
            e.is(Kind::Command) && !e.before.mode(mode::MSEN)
        }),
        Row::record("command while hold stands", |e| {
            e.is(Kind::Command) && e.before.hold
        }),
        Row::record("command while await stands", |e| {
            e.is(Kind::Command) && e.before.awaits
        }),
        Row::record("software reset, request stood", |e| {
            obeyed(e, code::RESET) && e.before.request
        }),
        Row::record("software reset, hold stood", |e| {
            obeyed(e, code::RESET) && e.before.hold
        }),
        Row::record("software reset, DSCR stood", |e| {
            obeyed(e, code::RESET) && e.before.dscr != 0
        }),
    ]
}

fn clears() -> Vec<Row> {
    vec![
        Row::record("clear VTR, request stood", |e| {
            obeyed(e, code::CLEAR_VTR) && e.before.vtr != 0 && e.before.request
        }),
        Row::record("clear VTR, await stood", |e| {
            obeyed(e, code::CLEAR_VTR) && e.before.vtr != 0 && e.before.awaits
        }),
        Row::record("clear VTR, own stood", |e| {
            obeyed(e, code::CLEAR_VTR) && e.before.own
        }),
        Row::record("clear VTR, hold stood", |e| {
            obeyed(e, code::CLEAR_VTR) && e.before.hold
        }),
        Row::record("clear SWW, SWW stood", |e| {
            obeyed(e, code::CLEAR_SWW) && e.second()
        }),
        Row::record("clear SWW, both stood", |e| {
            obeyed(e, code::CLEAR_SWW) && e.second() && e.fatal()
        }),
        Row::record("clear FATL, FATL stood", |e| {
            obeyed(e, code::CLEAR_FATL) && e.fatal()
        }),
        Row::record("clear FATL, both stood", |e| {
            obeyed(e, code::CLEAR_FATL) && e.second() && e.fatal()
        }),
        Row::record("clear FATL leaves primary flags", |e| {
            obeyed(e, code::CLEAR_FATL) && e.after.vtr & violation::PRIMARY != 0
        }),
    ]
}

/// Bit 6 of VSN and ISN (ticket 2), as URS has it and as an earlier MR had it.
/// A 0 may be that of power-on and does not count.
fn kept_segments() -> Vec<Row> {
    let shows = |e: &Event, code: u8, upper: bool| {
        let shown = e.answer.data.filter(|&data| data != 0);
        obeyed(e, code) && shown.is_some_and(|data| (data & 0x40 != 0) == upper)
    };
    let mut rows = Vec::new();
    for code in [code::VSN, code::ISN] {
        for (upper, bit, range) in [(true, "set", "clear"), (false, "clear", "set")] {
            let name = format!("command %{code:02X} shows bit 6 {bit}");
            let unlike = format!("{name}, URS is {range}");
            rows.push(Row::record(name, move |e| shows(e, code, upper)));
            rows.push(Row::record(unlike, move |e| {
                shows(e, code, upper) && e.before.mode(mode::URS) != upper
            }));
        }
    }
    rows
}
