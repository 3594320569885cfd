//! Rows of the memory cycle: fetches, translation, checks, SUP, the marks and
//! the instruction address.

use crate::cycle::Kind;
use crate::generate::bus;
use crate::translation::{Route, Translation};
use crate::unit::{attribute, mode, violation};
use crate::Document01;

use super::event::Event;
use super::Row;

pub fn rows() -> Vec<Row> {
    let subjects = [
        aborted_fetches(),
        other_fetches(),
        not_driven(),
        driven(),
        violations(),
        dma_violations(),
        length_passes(),
        attribute_passes(),
        suppression(),
        marks(),
        instruction_address(),
    ];
    subjects.into_iter().flatten().collect()
}

fn aborted_fetches() -> Vec<Row> {
    let aborted = |e: &Event| e.is(Kind::AbortedFetch);
    let route = |e: &Event| Document01::route(&e.before, &e.cycle);
    vec![
        Row::record("F: translated", move |e| {
            aborted(e) && matches!(route(e), Route::Translated(_))
        }),
        Row::record("F: passed", move |e| {
            aborted(e) && matches!(route(e), Route::Passed(_))
        }),
        Row::record("F: not driven", move |e| {
            aborted(e) && route(e) == Route::NotDriven
        }),
        Row::record("F: would be a violation", move |e| {
            aborted(e) && bus::violates(&e.before, &e.cycle)
        }),
        Row::record("F: VTR zero", move |e| aborted(e) && e.before.vtr == 0),
        Row::record("F: own stood", move |e| aborted(e) && e.before.own),
        Row::record("F: hold stood", move |e| aborted(e) && e.before.hold),
        Row::record("F: request gone on standing", move |e| {
            aborted(e) && e.after.request
        }),
    ]
}

fn other_fetches() -> Vec<Row> {
    let fresh = |e: &Event| e.fetch && !e.is(Kind::AbortedFetch);
    vec![
        Row::record("fetch: translated", move |e| {
            fresh(e) && e.is(Kind::Translated)
        }),
        Row::record("fetch: passed", move |e| fresh(e) && e.is(Kind::Passed)),
        Row::record("fetch: not driven", move |e| {
            fresh(e) && e.is(Kind::Ignored)
        }),
        Row::record("fetch: a request stands, await gone", move |e| {
            fresh(e) && e.before.request
        }),
        Row::record("no fetch: a write at %D", |e| {
            e.cycle.status == 0xD && !e.cycle.read && !e.cycle.dma && e.is(Kind::Translated)
        }),
        Row::record("no fetch: a write at %D, await stood", |e| {
            e.cycle.status == 0xD && !e.cycle.read && !e.cycle.dma && e.before.awaits
        }),
        Row::record("no fetch: DMA at %D, await stood", |e| {
            e.cycle.status == 0xD && e.cycle.read && e.cycle.dma && e.before.awaits
        }),
    ]
}

fn not_driven() -> Vec<Row> {
    let off = |e: &Event| matches!(e.cycle.status, 0x8..=0xD) && e.is(Kind::Ignored);
    let on = |e: &Event| e.before.mode(mode::MSEN) && e.before.mode(mode::TRNS);
    let range = |e: &Event| e.before.mode(mode::URS) == (e.cycle.segment >= 64);
    vec![
        Row::record("not driven: MSEN clear, TRNS set", move |e| {
            off(e) && !e.before.mode(mode::MSEN) && e.before.mode(mode::TRNS)
        }),
        Row::record("not driven: MSEN and TRNS clear", move |e| {
            off(e) && !e.before.mode(mode::MSEN) && !e.before.mode(mode::TRNS)
        }),
        Row::record("not driven: upper range", move |e| {
            off(e) && on(e) && !e.before.mode(mode::URS) && e.cycle.segment >= 64
        }),
        Row::record("not driven: lower range", move |e| {
            off(e) && on(e) && e.before.mode(mode::URS) && e.cycle.segment < 64
        }),
        Row::record("not driven: normal mode, NMS clear", move |e| {
            off(e) && on(e) && range(e) && e.cycle.normal
        }),
        Row::record("not driven: system mode, NMS set", move |e| {
            off(e) && on(e) && range(e) && !e.cycle.normal
        }),
    ]
}

fn driven() -> Vec<Row> {
    vec![
        Row::record("passed: upper range", |e| {
            e.is(Kind::Passed) && e.cycle.segment >= 64
        }),
        Row::record("passed: a DMA cycle", |e| e.is(Kind::Passed) && e.cycle.dma),
        Row::record("translated: upper range", |e| {
            e.is(Kind::Translated) && e.cycle.segment >= 64
        }),
        Row::record("translated: MST set, mode equal", |e| {
            e.is(Kind::Translated) && e.before.mode(mode::MST)
        }),
        Row::record("translated: MST clear, mode unequal", |e| {
            e.is(Kind::Translated)
                && !e.before.mode(mode::MST)
                && e.before.mode(mode::NMS) != e.cycle.normal
        }),
        Row::record("translated: the sum wraps", |e| {
            e.is(Kind::Translated) && e.descriptor().base > 0xFFFF - u16::from(e.cycle.offset)
        }),
    ]
}

fn violations() -> Vec<Row> {
    let mut rows = Vec::new();
    for (name, flag) in [
        ("RDV", violation::RDV),
        ("SYSV", violation::SYSV),
        ("CPUIV", violation::CPUIV),
        ("EXCV", violation::EXCV),
    ] {
        rows.push(Row::record(format!("CPU violation: {name}"), move |e| {
            e.cpu_violation() && e.found(flag)
        }));
    }
    for (master, dma) in [("CPU", false), ("DMA", true)] {
        for (name, stack) in [("upward", false), ("downward", true)] {
            rows.push(Row::record(
                format!("{master} violation: SLV, {name}"),
                move |e| e.found(violation::SLV) && e.cycle.dma == dma && e.stack() == stack,
            ));
        }
    }
    rows.push(Row::record("CPU violation: two flags or more", |e| {
        e.cpu_violation() && (e.after.vtr & violation::PRIMARY).count_ones() > 1 && !e.primary()
    }));
    rows
}

fn dma_violations() -> Vec<Row> {
    let flags = [
        ("RD", attribute::RD),
        ("SYS", attribute::SYS),
        ("EXC", attribute::EXC),
        ("DMAI", attribute::DMAI),
    ];
    let all = attribute::RD | attribute::SYS | attribute::EXC | attribute::DMAI;
    let mut rows: Vec<Row> = flags
        .map(|(name, flag)| {
            Row::record(format!("DMA violation: {name} alone"), move |e| {
                let alone = e.descriptor().attributes & all == flag;
                e.violation() && e.cycle.dma && alone && !e.found(violation::SLV)
            })
        })
        .into();
    rows.push(Row::record("DMA violation while hold stands", |e| {
        e.violation() && e.cycle.dma && e.before.hold
    }));
    rows
}

/// Cycles that a wrong check would refuse.
fn length_passes() -> Vec<Row> {
    let passes = |e: &Event| e.finding.is_some() && !e.violation();
    vec![
        Row::record("passes: offset equal to limit, upward", move |e| {
            passes(e) && !e.stack() && e.cycle.offset == e.descriptor().limit
        }),
        Row::record("passes: read at limit, downward", move |e| {
            passes(e) && e.stack() && e.cycle.offset == e.descriptor().limit && e.cycle.read
        }),
        Row::record("passes: DMA write at limit, downward", move |e| {
            let limit = e.cycle.offset == e.descriptor().limit;
            passes(e) && e.stack() && limit && !e.cycle.read && e.cycle.dma
        }),
        Row::record("passes: CPU write above limit, downward", move |e| {
            let above = e.cycle.offset > e.descriptor().limit;
            passes(e) && e.stack() && above && !e.cycle.read && !e.cycle.dma
        }),
    ]
}

/// The same of the attributes.
fn attribute_passes() -> Vec<Row> {
    let passes = |e: &Event| e.finding.is_some() && !e.violation();
    let has = |e: &Event, flag: u8| e.descriptor().has(flag);
    vec![
        Row::record("passes: RD and a read", move |e| {
            passes(e) && has(e, attribute::RD) && e.cycle.read
        }),
        Row::record("passes: SYS in system mode", move |e| {
            passes(e) && has(e, attribute::SYS)
        }),
        Row::record("passes: EXC at %C", move |e| {
            passes(e) && has(e, attribute::EXC) && e.cycle.status == 0xC
        }),
        Row::record("passes: EXC at %D", move |e| {
            passes(e) && has(e, attribute::EXC) && e.cycle.status == 0xD
        }),
        Row::record("passes: EXC and a write at %C or %D", move |e| {
            passes(e) && has(e, attribute::EXC) && !e.cycle.read
        }),
        Row::record("passes: CPUI for DMA", move |e| {
            passes(e) && has(e, attribute::CPUI)
        }),
        Row::record("passes: DMAI for the CPU", move |e| {
            passes(e) && has(e, attribute::DMAI)
        }),
    ]
}

fn suppression() -> Vec<Row> {
    vec![
        Row::record("hold suppresses: translated, clean", |e| {
            e.held && e.clean() && e.answer.sup
        }),
        Row::record("hold suppresses: translated, a warning", |e| {
            e.held && e.warning() && e.answer.sup
        }),
        Row::record("hold suppresses: passed", |e| {
            e.held && e.is(Kind::Passed) && e.answer.sup
        }),
        Row::record("hold suppresses: not driven, MSEN set", |e| {
            e.held && e.is(Kind::Ignored) && e.before.mode(mode::MSEN) && e.answer.sup
        }),
        Row::record("hold suppresses: not driven, MSEN clear", |e| {
            e.held && !e.before.mode(mode::MSEN) && e.answer.sup
        }),
        Row::record("hold leaves a DMA cycle alone", |e| {
            e.before.hold && e.clean() && e.cycle.dma
        }),
        Row::record("hold gone at a fetch", |e| {
            e.before.hold && e.fetch && !e.is(Kind::AbortedFetch)
        }),
        Row::record("violation in a fetch that starts anew", |e| {
            e.fetch && e.cpu_violation()
        }),
    ]
}

fn marks() -> Vec<Row> {
    let new = |e: &Event, flag: u8| {
        let after = &e.after.table[usize::from(e.cycle.entry())];
        e.finding.is_some() && after.has(flag) && !e.descriptor().has(flag)
    };
    vec![
        Row::record("REF set by the CPU", move |e| {
            new(e, attribute::REF) && !e.cycle.dma
        }),
        Row::record("REF set by DMA", move |e| {
            new(e, attribute::REF) && e.cycle.dma
        }),
        Row::record("CHG set by the CPU", move |e| {
            new(e, attribute::CHG) && !e.cycle.dma
        }),
        Row::record("CHG set by DMA", move |e| {
            new(e, attribute::CHG) && e.cycle.dma
        }),
        Row::record("CHG set by a warning", move |e| {
            new(e, attribute::CHG) && e.warning()
        }),
        Row::record("REF not set by a violation", |e| {
            e.violation() && !e.descriptor().has(attribute::REF)
        }),
        Row::record("REF not set under hold", |e| {
            e.held && e.finding.is_some() && !e.violation() && !e.descriptor().has(attribute::REF)
        }),
    ]
}

fn instruction_address() -> Vec<Row> {
    let stored = |e: &Event| e.fetch && e.clean() && e.before.vtr == 0;
    vec![
        Row::record("ISN and IOFF stored, bit 6 set", move |e| {
            stored(e) && e.after.isn >= 64
        }),
        Row::record("ISN and IOFF stored, bit 6 clear", move |e| {
            stored(e) && e.after.isn < 64
        }),
        Row::record("ISN and IOFF stored, bit 6 clear that was set", move |e| {
            stored(e) && e.after.isn < 64 && e.before.isn >= 64
        }),
        Row::record("ISN and IOFF kept, VTR stands", |e| {
            e.fetch && e.clean() && e.before.vtr != 0
        }),
        Row::record("ISN and IOFF kept, a violation", |e| {
            e.fetch && e.violation() && e.before.vtr == 0
        }),
    ]
}
