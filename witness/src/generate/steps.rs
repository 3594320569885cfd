//! Step scripts: units that no capture reaches, cycles near them, and low
//! bytes, which no capture has.

use std::fmt::Write;

use crate::commands::code;
use crate::cycle::{Cycle, LAST_SEGMENT};
use crate::script::Registers;
use crate::unit::{attribute, mode, violation, Descriptor, Unit};

use super::bus::{violates, warns, warns_at_system_stack, Bus};
use super::edge::approach;
use super::low::{kept, low};
use super::random::Random;
use super::story::story;
use super::{CASES, SCRIPTS};

/// A kind stands here as often as it should come. Two are damaged units, which
/// go nowhere, so sane ones come twice, the second time to go on to the edges of
/// segments.
const KINDS: [&str; 8] = [
    "sane", "orphan", "edge", "damaged", "range", "any", "story", "low",
];

/// The first case of a script: the only one that can leave its unit unsaid.
const POWER_ON: &str = "power-on";

/// The scripts of a seed.
pub fn scripts(seed: u64) -> impl Iterator<Item = String> {
    (0..SCRIPTS).map(move |number| script(seed.wrapping_add(number), CASES))
}

/// A script of so many cases, each with a unit of its own.
pub fn script(seed: u64, count: usize) -> String {
    cases(seed, count).collect()
}

pub fn cases(seed: u64, count: usize) -> impl Iterator<Item = String> {
    (0..count).map(move |case| {
        let kind = match case {
            0 => POWER_ON,
            _ => KINDS[case % KINDS.len()],
        };
        let mut scene = scene(Random::new(seed, case as u64), kind);
        // A stream of their own: nothing else that is drawn depends on them.
        let mut random = Random::new(seed, !(case as u64));
        for cycle in &mut scene.cycles {
            cycle.low = low(&mut random);
        }
        format!("# {case} {kind}\n{}", lines(&scene, kind != POWER_ON))
    })
}

/// A unit, its loaded descriptors, and cycles.
struct Scene {
    unit: Unit,
    hot: Vec<u8>,
    cycles: Vec<Cycle>,
}

fn scene(mut random: Random, kind: &str) -> Scene {
    if matches!(kind, POWER_ON | "story") {
        let length = random.between(20, 60);
        return Scene {
            unit: Unit::power_on(),
            hot: Vec::new(),
            cycles: story(random, length),
        };
    }
    let mut bus = Bus::new(random);
    let hot = table(&mut bus);
    bus.unit = match kind {
        "orphan" => orphan(&mut bus),
        "damaged" => damaged(&mut bus),
        "any" => any(&mut bus),
        _ => sane(&mut bus),
    };
    let unit = bus.unit.clone();
    match kind {
        "low" => kept(&mut bus),
        "edge" => edges(&mut bus),
        _ => cycles(&mut bus, kind),
    }
    Scene {
        unit,
        hot,
        cycles: bus.cycles,
    }
}

/// A few cycles, such as the unit's kind asks for.
fn cycles(bus: &mut Bus, kind: &str) {
    for _ in 0..bus.random.between(1, 8) {
        let cycle = cycle(bus);
        let cycle = match kind {
            "orphan" => mending(bus, cycle),
            "range" | "any" => beyond(bus, cycle),
            _ => cycle,
        };
        bus.push(cycle);
    }
}

/// A few cycles of a sane unit, then segments up to their edges.
fn edges(bus: &mut Bus) {
    cycles(bus, "sane");
    for _ in 0..bus.random.between(3, 5) {
        approach(bus);
    }
}

/// The script's lines for a scene, its unit's only if it is to be said.
fn lines(scene: &Scene, unit_said: bool) -> String {
    let mut text = match unit_said {
        true => format!("U {}\n", Registers(&scene.unit)),
        false => String::new(),
    };
    for &number in &scene.hot {
        let descriptor = scene.unit.table[usize::from(number)];
        writeln!(text, "D {number:02X} {descriptor}").expect("a string takes every line");
    }
    for cycle in &scene.cycles {
        writeln!(text, "C {}", cycle_fields(cycle)).expect("a string takes every line");
    }
    text
}

pub(super) fn cycle_fields(cycle: &Cycle) -> String {
    let flags = u8::from(cycle.read)
        | u8::from(cycle.normal) << 1
        | u8::from(cycle.dma) << 2
        | u8::from(cycle.select) << 3
        | u8::from(cycle.reset) << 4;
    let fields = [
        cycle.status,
        flags,
        cycle.segment,
        cycle.offset,
        cycle.low,
        cycle.data,
    ];
    fields.map(|field| format!("{field:02X}")).join(" ")
}

/// A few descriptors, a stack among them, and the segments that use them.
fn table(bus: &mut Bus) -> Vec<u8> {
    let upper = bus.random.once_in(3);
    let hot: Vec<u8> = (0..bus.random.between(2, 4))
        .map(|_| bus.random.byte() % 64)
        .collect();
    for (place, &number) in hot.iter().enumerate() {
        let flag = bus.random.pick(&[0, attribute::DIRW]);
        let (small, any) = (bus.random.byte() % 4, bus.random.byte());
        bus.unit.table[usize::from(number)] = Descriptor {
            base: bus.random.word(),
            limit: bus.random.pick(&[small, small, 0xFF - small, 0xFF, any]),
            attributes: match place {
                0 => attribute::DIRW,
                1 => flag,
                _ => flag | 1 << bus.random.below(8),
            },
        };
    }
    let range = if upper { 64 } else { 0 };
    bus.segments = hot.iter().map(|number| number + range).collect();
    hot
}

/// Registers within their bounds, no orphan, any notes, mostly translating.
fn sane(bus: &mut Bus) -> Unit {
    let range = if bus.segments[0] >= 64 { mode::URS } else { 0 };
    let random = &mut bus.random;
    let translating = mode::MSEN | mode::TRNS | range | random.byte() & mode::ID;
    let empty = random.coin();
    let [request, awaits, own, hold] = [0; 4].map(|_| random.coin());
    Unit {
        mr: if random.once_in(6) {
            random.byte()
        } else {
            translating
        },
        sar: random.byte() % 64,
        dscr: random.byte() % 4,
        vtr: if empty { 0 } else { vtr(random) },
        vsn: segment(random),
        voff: random.byte(),
        bcsr: random.byte() % 64,
        isn: segment(random),
        ioff: random.byte(),
        low: random.byte(),
        request,
        awaits,
        own,
        hold,
        ..bus.unit.clone()
    }
}

/// Any VTR of an undamaged unit: zero where an orphan is drawn.
fn vtr(random: &mut Random) -> u8 {
    match random.byte() {
        vtr if vtr & violation::PRIMARY == 0 => 0,
        vtr => vtr,
    }
}

/// What VSN and ISN may hold, of either range and often at its edges: neither
/// need be of the unit's own range, since MR may have been written since.
fn segment(random: &mut Random) -> u8 {
    let any = random.byte() & LAST_SEGMENT;
    random.pick(&[any, any, any, 0, 63, 64, LAST_SEGMENT])
}

/// Any undamaged unit.
pub fn undamaged(random: &mut Random) -> Unit {
    let mut table = [Descriptor::default(); 64];
    for descriptor in &mut table {
        *descriptor = Descriptor {
            base: random.word(),
            limit: random.byte(),
            attributes: random.byte(),
        };
    }
    Unit {
        table,
        mr: random.byte(),
        sar: random.byte() % 64,
        dscr: random.byte() % 4,
        vtr: vtr(random),
        vsn: segment(random),
        voff: random.byte(),
        bcsr: random.byte() % 64,
        isn: segment(random),
        ioff: random.byte(),
        low: random.byte(),
        request: random.coin(),
        awaits: random.coin(),
        own: random.coin(),
        hold: random.coin(),
    }
}

/// SWW or FATL or both without a primary flag.
fn orphan(bus: &mut Bus) -> Unit {
    let vtr = [
        violation::SWW,
        violation::FATL,
        violation::SWW | violation::FATL,
    ];
    Unit {
        vtr: bus.random.pick(&vtr),
        ..sane(bus)
    }
}

/// One register out of its bounds, often by one.
fn damaged(bus: &mut Bus) -> Unit {
    let mut unit = sane(bus);
    let number = bus.random.pick(&[64, 64, 65, 127, 128, 0xFF]);
    let segment = bus.random.pick(&[128, 128, 129, 0xC0, 0xFF]);
    match bus.random.below(5) {
        0 => unit.sar = number,
        1 => unit.vsn = segment,
        2 => unit.isn = segment,
        3 => unit.bcsr = number,
        _ => unit.dscr = bus.random.pick(&[4, 4, 5, 0x80, 0xFF]),
    }
    unit
}

/// Any bytes at all, now and then within bounds.
fn any(bus: &mut Bus) -> Unit {
    let (number, segment) = bus.random.pick(&[(0x3F, 0x7F), (0x3F, 0x7F), (0x7F, 0xFF)]);
    let random = &mut bus.random;
    Unit {
        mr: random.byte(),
        sar: random.byte() & number,
        dscr: random.byte() % 5,
        vtr: random.byte(),
        vsn: random.byte() & segment,
        voff: random.byte(),
        bcsr: random.byte() & number,
        isn: random.byte() & segment,
        ioff: random.byte(),
        low: random.byte(),
        request: random.coin(),
        awaits: random.coin(),
        own: random.coin(),
        hold: random.coin(),
        ..bus.unit.clone()
    }
}

/// Events, fetches, commands, acknowledges and cycles of any status.
fn cycle(bus: &mut Bus) -> Cycle {
    let event: fn(&Unit, &Cycle) -> bool = match bus.random.below(8) {
        0 | 1 => violates,
        2 => warns,
        3 => warns_at_system_stack,
        _ => |_, _| true,
    };
    let memory = bus.aim(event).unwrap_or_else(|| bus.operand());
    match bus.random.below(12) {
        0 | 1 => Cycle {
            status: 0xD,
            read: true,
            dma: false,
            ..memory
        },
        2 | 3 => Cycle {
            status: 0x3,
            select: true,
            dma: bus.random.once_in(6),
            offset: bus.random.byte() % 0x24,
            ..memory
        },
        4 => Cycle {
            status: 0x4,
            ..memory
        },
        5 => Cycle {
            status: bus.random.byte() % 16,
            reset: bus.random.coin(),
            ..memory
        },
        _ => memory,
    }
}

/// The same, or what would clear an orphan's flags if it were obeyed, or a
/// cycle that an undamaged unit refuses as well.
fn mending(bus: &mut Bus, cycle: Cycle) -> Cycle {
    let clears = [
        code::RESET,
        code::CLEAR_VTR,
        code::CLEAR_SWW,
        code::CLEAR_FATL,
    ];
    match bus.random.below(6) {
        0 => Cycle {
            reset: true,
            ..cycle
        },
        1 => Cycle {
            status: 0x3,
            read: false,
            dma: false,
            select: true,
            offset: bus.random.pick(&clears),
            reset: false,
            ..cycle
        },
        2 => beyond(bus, cycle),
        _ => cycle,
    }
}

/// The same with its status or segment out of range, often by one.
fn beyond(bus: &mut Bus, cycle: Cycle) -> Cycle {
    let status = bus.random.pick(&[16, 17, 0x13, 0x14, 0x18, 0x80, 0xFF]);
    let reset = cycle.reset || bus.random.once_in(4);
    match bus.random.below(3) {
        0 => Cycle {
            status,
            reset,
            ..cycle
        },
        1 => Cycle {
            segment: cycle.segment | 0x80,
            reset,
            ..cycle
        },
        _ => cycle,
    }
}
