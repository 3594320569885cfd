//! How near the edge is: a scene of accesses that come nearer and nearer.

use crate::cycle::Cycle;
use crate::unit::{attribute, Descriptor};

use super::bus::Bus;

/// Accesses of any kind in one segment, from as far as it goes or from nearby,
/// none further from its edge than the last; then at the edge and a block past
/// it.
pub fn approach(bus: &mut Bus) {
    let segment = bus.segment();
    let descriptor = bus.unit.table[usize::from(segment % 64)];
    let any = bus.random.byte();
    let mut room = bus.random.pick(&[0xFF, any, any % 16]);
    while room > 0 {
        push(bus, segment, inside(&descriptor, room));
        room = bus.random.below(usize::from(room)) as u8;
    }
    push(bus, segment, descriptor.limit);
    push(bus, segment, past(&descriptor));
}

fn push(bus: &mut Bus, segment: u8, offset: u8) {
    let cycle = Cycle {
        dma: bus.random.once_in(3),
        segment,
        offset,
        ..bus.access()
    };
    bus.push(cycle);
}

/// An offset with so much room, or with as much as there is.
fn inside(descriptor: &Descriptor, room: u8) -> u8 {
    match descriptor.has(attribute::DIRW) {
        true => descriptor.limit.saturating_add(room),
        false => descriptor.limit.saturating_sub(room),
    }
}

/// The block past the last permitted one. Past block 255 that is block 0, and
/// below block 0 block 255; both are permitted.
fn past(descriptor: &Descriptor) -> u8 {
    match descriptor.has(attribute::DIRW) {
        true => descriptor.limit.wrapping_sub(1),
        false => descriptor.limit.wrapping_add(1),
    }
}
