//! Rows of "which cycle is what": kinds, refusals, reset, acknowledge and
//! ignored cycles.

use crate::cycle::Kind;
use crate::unit::mode;

use super::event::Event;
use super::{Met, Row};

pub fn rows() -> Vec<Row> {
    let mut rows = vec![
        Row::new("X1", Met::Never("a record holds no such number")),
        Row::new(
            "X2: a register above its bound",
            Met::Never("every store is within it"),
        ),
        Row::new(
            "X2: orphan",
            Met::Never("what takes a primary flag takes all"),
        ),
    ];
    rows.extend(kinds());
    rows.extend(resets());
    rows.extend(acknowledges());
    rows.extend(ignored());
    rows
}

fn kinds() -> Vec<Row> {
    let kinds = [
        Kind::Refused(3),
        Kind::Refused(4),
        Kind::Reset,
        Kind::Acknowledge,
        Kind::Command,
        Kind::AbortedFetch,
        Kind::Translated,
        Kind::Passed,
        Kind::Ignored,
    ];
    let mut rows: Vec<Row> = kinds
        .map(|kind| Row::record(kind.to_string(), move |e| e.is(kind)))
        .into();
    rows.push(Row::record("X3 while a request stands", |e| {
        e.is(Kind::Refused(3)) && e.before.request
    }));
    rows.push(Row::record("X4 while a request stands", |e| {
        e.is(Kind::Refused(4)) && e.before.request
    }));
    rows
}

fn resets() -> Vec<Row> {
    let reset = |e: &Event| e.is(Kind::Reset);
    vec![
        Row::record("R: select on", move |e| reset(e) && e.cycle.select),
        Row::record("R: select off", move |e| reset(e) && !e.cycle.select),
        Row::record("R: MR stood", move |e| reset(e) && e.before.mr != 0),
        Row::record("R: VTR stood", move |e| reset(e) && e.before.vtr != 0),
        Row::record("R: DSCR stood", move |e| reset(e) && e.before.dscr != 0),
        Row::record("R: request stood", move |e| reset(e) && e.before.request),
        Row::record("R: await stood", move |e| reset(e) && e.before.awaits),
        Row::record("R: own stood", move |e| reset(e) && e.before.own),
        Row::record("R: hold stood", move |e| reset(e) && e.before.hold),
        Row::record("R: in what were an acknowledge", move |e| {
            reset(e) && e.cycle.status == 0x4 && !e.cycle.dma
        }),
        Row::record("R: in what were a command", move |e| {
            reset(e) && e.cycle.status == 0x3 && e.cycle.select && !e.cycle.dma
        }),
        Row::record("R: in what were a memory cycle", move |e| {
            reset(e) && matches!(e.cycle.status, 0x8..=0xD)
        }),
    ]
}

fn acknowledges() -> Vec<Row> {
    let with = |e: &Event, msen: bool, request: bool| {
        e.is(Kind::Acknowledge) && e.before.mode(mode::MSEN) == msen && e.before.request == request
    };
    let mut rows: Vec<Row> = (0..8)
        .map(|id| {
            Row::record(format!("A: request stood, ID {id}"), move |e| {
                with(e, true, true) && e.before.mr & mode::ID == id
            })
        })
        .collect();
    rows.extend([
        Row::record("A: no request", move |e| with(e, true, false)),
        Row::record("A: MSEN clear, request stood", move |e| {
            with(e, false, true)
        }),
        Row::record("A: MSEN clear, no request", move |e| with(e, false, false)),
        Row::record("A: await stood", |e| {
            e.is(Kind::Acknowledge) && e.before.awaits
        }),
        Row::record("A: own stood", |e| e.is(Kind::Acknowledge) && e.before.own),
        Row::record("A: hold stood", |e| {
            e.is(Kind::Acknowledge) && e.before.hold
        }),
        Row::record("A: a write", |e| e.is(Kind::Acknowledge) && !e.cycle.read),
        Row::record("A: normal mode", |e| {
            e.is(Kind::Acknowledge) && e.cycle.normal
        }),
        Row::record("A: selected", |e| e.is(Kind::Acknowledge) && e.cycle.select),
    ]);
    rows
}

fn ignored() -> Vec<Row> {
    let mut rows: Vec<Row> = [0x0, 0x1, 0x2, 0x5, 0x6, 0x7, 0xE, 0xF]
        .map(|status| {
            Row::record(format!("I: status %{status:X}"), move |e| {
                e.is(Kind::Ignored) && e.cycle.status == status
            })
        })
        .into();
    rows.extend([
        Row::record("I: status %3, not selected", |e| {
            e.is(Kind::Ignored) && e.cycle.status == 0x3 && !e.cycle.dma
        }),
        Row::record("I: status %3, DMA, selected", |e| {
            e.is(Kind::Ignored) && e.cycle.status == 0x3 && e.cycle.dma && e.cycle.select
        }),
        Row::record("I: status %4, DMA", |e| {
            e.is(Kind::Ignored) && e.cycle.status == 0x4
        }),
        Row::record("I: no memory cycle, hold stood", |e| {
            e.is(Kind::Ignored) && !matches!(e.cycle.status, 0x8..=0xD) && e.before.hold
        }),
    ]);
    rows
}
