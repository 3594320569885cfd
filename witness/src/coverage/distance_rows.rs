//! Rows of the distance, ticket 5: how far from the edge translated cycles are
//! and what else is found in them, and what carries 0 though there is room.

use crate::checks::Checks;
use crate::cycle::Kind;
use crate::unit::violation;
use crate::Document01;

use super::event::Event;
use super::Row;

/// Both directions, by DIRW.
const DIRECTIONS: [(&str, bool); 2] = [("upward", false), ("downward", true)];

/// What a translated cycle would carry.
fn room(e: &Event) -> u8 {
    Document01::distance(e.descriptor(), &e.cycle)
}

/// Blocks from the last permitted one to the accessed one, beyond it.
fn beyond(e: &Event) -> u8 {
    match e.found(violation::SLV) {
        true => e.cycle.offset.abs_diff(e.descriptor().limit),
        false => 0,
    }
}

pub fn rows() -> Vec<Row> {
    let mut rows = Vec::new();
    for (name, stack) in DIRECTIONS {
        rows.extend(measured(name, stack));
        rows.extend(at_the_edge(name, stack));
        rows.extend(carried(name, stack));
    }
    rows.extend(not_carried());
    rows
}

/// Small and large ones, with one digit, with two, with three, and with bit 7.
fn measured(name: &str, stack: bool) -> Vec<Row> {
    let ranges = [(1, 1), (2, 9), (10, 99), (100, 254), (128, 254), (255, 255)];
    let row = |(least, most): (u8, u8)| {
        let range = match least == most {
            true => least.to_string(),
            false => format!("{least} to {most}"),
        };
        Row::record(format!("distance {range}, {name}"), move |e| {
            e.stack() == stack && (least..=most).contains(&e.answer.distance)
        })
    };
    ranges.map(row).into()
}

fn at_the_edge(name: &str, stack: bool) -> Vec<Row> {
    vec![
        Row::record(format!("distance 0 at the limit, {name}"), move |e| {
            let limit = e.cycle.offset == e.descriptor().limit;
            e.is(Kind::Translated) && e.stack() == stack && limit
        }),
        Row::record(format!("distance 0, one block beyond, {name}"), move |e| {
            e.stack() == stack && beyond(e) == 1
        }),
        Row::record(format!("distance 0, further beyond, {name}"), move |e| {
            e.stack() == stack && beyond(e) > 1
        }),
        Row::record(
            format!("distance 0, beyond with another flag, {name}"),
            move |e| e.stack() == stack && beyond(e) > 0 && e.found(!violation::SLV),
        ),
    ]
}

/// Whoever is master, whatever else is found, and whatever stands.
fn carried(name: &str, stack: bool) -> Vec<Row> {
    let carried = move |e: &Event| e.stack() == stack && e.answer.distance != 0;
    vec![
        Row::record(format!("distance in a CPU violation, {name}"), move |e| {
            carried(e) && e.cpu_violation()
        }),
        Row::record(format!("distance in a DMA violation, {name}"), move |e| {
            carried(e) && e.violation() && e.cycle.dma
        }),
        Row::record(format!("distance for DMA, {name}"), move |e| {
            carried(e) && e.clean() && e.cycle.dma
        }),
        Row::record(format!("distance under hold, {name}"), move |e| {
            carried(e) && e.held && e.clean()
        }),
        Row::record(format!("distance of a fetch, {name}"), move |e| {
            carried(e) && e.clean() && e.fetch
        }),
        Row::record(format!("distance of a write, {name}"), move |e| {
            carried(e) && e.clean() && e.cycle.write()
        }),
    ]
}

/// The other kinds that a capture meets.
fn not_carried() -> Vec<Row> {
    let kinds = [
        Kind::AbortedFetch,
        Kind::Passed,
        Kind::Ignored,
        Kind::Command,
        Kind::Acknowledge,
        Kind::Reset,
        Kind::Refused(3),
        Kind::Refused(4),
    ];
    kinds.map(not_carried_by).into()
}

/// A kind that carries 0, where the segment's descriptor has room.
pub fn not_carried_by(kind: Kind) -> Row {
    let name = format!("distance 0 though there is room: {kind}");
    Row::record(name, move |e| e.is(kind) && room(e) != 0)
}
