//! Rows of the recording.

use crate::unit::attribute;

use super::event::Event;
use super::{Met, Row};

pub fn rows() -> Vec<Row> {
    let mut rows = first();
    rows.extend(own());
    rows.extend(later_violations());
    rows.extend(later_warnings());
    rows
}

fn recorded(e: &Event) -> bool {
    e.cpu_violation() || e.warning()
}

/// A primary flag stands that another instruction made.
fn later(e: &Event) -> bool {
    e.primary() && !e.own
}

fn first() -> Vec<Row> {
    let first = |e: &Event| recorded(e) && e.before.vtr == 0;
    vec![
        Row::record("first: violation", move |e| first(e) && e.cpu_violation()),
        Row::record("first: system stack warning", move |e| {
            first(e) && e.system_stack()
        }),
        Row::record("first: other warning", move |e| {
            first(e) && e.warning() && !e.system_stack()
        }),
        Row::record("first: a request already stands", move |e| {
            first(e) && e.before.request
        }),
        Row::record("first: request stands, await gone", move |e| {
            first(e) && e.before.request && !e.before.awaits
        }),
        Row::record("first: own stands, VTR cleared", move |e| first(e) && e.own),
        Row::record("first: hold stands, VTR cleared", move |e| {
            first(e) && e.held
        }),
        Row::record("first: VSN stored, bit 6 set", move |e| {
            first(e) && e.after.vsn >= 64
        }),
        Row::record("first: VSN stored, bit 6 clear", move |e| {
            first(e) && e.after.vsn < 64
        }),
        Row::record("first: VSN stored, bit 6 clear that was set", move |e| {
            first(e) && e.after.vsn < 64 && e.before.vsn >= 64
        }),
        Row::new(
            "first: low byte stored, other than 0",
            Met::Never("a trace of version 1 gives 0"),
        ),
    ]
}

fn own() -> Vec<Row> {
    let own = |e: &Event| recorded(e) && e.primary() && e.own;
    vec![
        Row::record("own: violation, a new flag", move |e| {
            own(e) && e.cpu_violation() && e.after.vtr != e.before.vtr
        }),
        Row::record("own: violation, no new flag", move |e| {
            own(e) && e.cpu_violation() && e.after.vtr == e.before.vtr
        }),
        Row::record("own: violation after a warning, hold new", move |e| {
            own(e) && e.cpu_violation() && !e.before.hold
        }),
        Row::record("own: warning adds PWW", move |e| {
            own(e) && e.warning() && e.after.vtr != e.before.vtr
        }),
        Row::record("own: system stack warning", move |e| {
            own(e) && e.system_stack()
        }),
    ]
}

fn later_violations() -> Vec<Row> {
    let violation = |e: &Event| e.cpu_violation() && later(e);
    vec![
        Row::record("FATL: violation, FATL clear", move |e| {
            violation(e) && !e.fatal()
        }),
        Row::record("FATL: violation, FATL stands", move |e| {
            violation(e) && e.fatal()
        }),
        Row::record("FATL: violation, SWW stands", move |e| {
            violation(e) && !e.fatal() && e.second()
        }),
        Row::record("FATL: a request already stands", move |e| {
            violation(e) && !e.fatal() && e.before.request && !e.before.awaits
        }),
        Row::record("FATL stands, no request, none made", move |e| {
            violation(e) && e.fatal() && !e.before.request
        }),
        Row::record("FATL: other warning, FATL clear", |e| {
            later(e) && e.warning() && !e.system_stack() && !e.fatal()
        }),
        Row::record("FATL: other warning, FATL stands", |e| {
            later(e) && e.warning() && !e.system_stack() && e.fatal()
        }),
        Row::record("FATL: warning at %9 in normal mode", |e| {
            later(e) && e.warning() && e.cycle.status == 0x9 && e.cycle.normal && !e.fatal()
        }),
        Row::record("FATL: warning at %B in system mode", |e| {
            later(e) && e.warning() && e.cycle.status == 0xB && !e.cycle.normal && !e.fatal()
        }),
        Row::record("FATL and SWW by one instruction", move |e| {
            violation(e) && !e.fatal() && e.second() && e.before.awaits
        }),
    ]
}

fn later_warnings() -> Vec<Row> {
    let warning = |e: &Event| e.system_stack() && later(e);
    vec![
        Row::record("SWW: both clear", move |e| {
            warning(e) && !e.second() && !e.fatal()
        }),
        Row::record("SWW: FATL stands, no request made", move |e| {
            warning(e) && !e.second() && e.fatal() && !e.before.request
        }),
        Row::record("SWW stands, nothing", move |e| {
            warning(e) && e.second() && !e.fatal()
        }),
        Row::record("SWW stands, no request, none made", move |e| {
            warning(e) && e.second() && !e.before.request
        }),
        Row::record("SWW and FATL stand, nothing", move |e| {
            warning(e) && e.second() && e.fatal()
        }),
        Row::record("SWW stands, REF set all the same", move |e| {
            warning(e) && e.second() && !e.held && !e.descriptor().has(attribute::REF)
        }),
        Row::record("SWW by a suppressed write", move |e| {
            warning(e) && !e.second() && e.held
        }),
    ]
}
