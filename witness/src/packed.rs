//! Answers in seven bytes each, as the benchmark compares them: the kind's
//! letter, the number of a refusal, the address lines (high byte first), a
//! byte of flags, the data byte, the distance.

use crate::cycle::{Answer, Kind};
use crate::step::Step;
use crate::trace::Layout;
use crate::unit::Unit;
use crate::Document01;

pub const BYTES: usize = 7;

fn letter(kind: Kind) -> (u8, u8) {
    match kind {
        Kind::Reset => (b'R', 0),
        Kind::Acknowledge => (b'A', 0),
        Kind::Command => (b'C', 0),
        Kind::AbortedFetch => (b'F', 0),
        Kind::Translated => (b'T', 0),
        Kind::Passed => (b'P', 0),
        Kind::Ignored => (b'I', 0),
        Kind::Refused(number) => (b'X', number),
    }
}

pub(crate) fn pack(answer: &Answer) -> [u8; BYTES] {
    let (letter, number) = letter(answer.kind);
    let [high, low] = answer.address.unwrap_or(0).to_be_bytes();
    let flags = u8::from(answer.address.is_some())
        | u8::from(answer.sup) << 1
        | u8::from(answer.trap) << 2
        | u8::from(answer.data.is_some()) << 3;
    let data = answer.data.unwrap_or(0);
    [letter, number, high, low, flags, data, answer.distance]
}

/// Runs a good trace from power-on into a buffer of seven bytes a record.
pub fn run(trace: &[u8], answers: &mut [u8]) {
    let mut unit = Unit::power_on();
    let places = answers.chunks_exact_mut(BYTES);
    for (cycle, place) in Document01::cycles(trace).zip(places) {
        place.copy_from_slice(&pack(&Document01::step(&mut unit, &cycle)));
    }
}
