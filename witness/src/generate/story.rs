//! A story: scenes in a row, from power-on, and its form as a trace.

use crate::cycle::Cycle;
use crate::recorder::Recorder;
use crate::Document01;

use super::bus::Bus;
use super::decoding::{clears_in_flight, codes_beside, every_status};
use super::edge::approach;
use super::programming::{
    every_command, inhibit_all, not_for_the_unit, ragged, reset, setup, software_reset,
    wrong_commands,
};
use super::random::Random;
use super::scenes::{chaos, dma, fault, faults_in_service, without_translation, work};

/// A scene stands here as often as it should come.
const SCENES: [fn(&mut Bus); 28] = [
    work,
    work,
    approach,
    fault,
    fault,
    fault,
    fault,
    fault,
    faults_in_service,
    faults_in_service,
    faults_in_service,
    faults_in_service,
    dma,
    dma,
    without_translation,
    without_translation,
    ragged,
    ragged,
    wrong_commands,
    not_for_the_unit,
    every_command,
    inhibit_all,
    every_status,
    codes_beside,
    clears_in_flight,
    chaos,
    reset,
    software_reset,
];

/// The cycles of a story of about so many.
pub fn story(random: Random, length: usize) -> Vec<Cycle> {
    let mut bus = Bus::new(random);
    if !bus.random.once_in(8) {
        setup(&mut bus);
    }
    while bus.cycles.len() < length {
        let scene = bus.random.pick(&SCENES);
        scene(&mut bus);
        if bus.random.once_in(12) {
            setup(&mut bus);
        }
    }
    bus.cycles.truncate(length);
    bus.cycles
}

pub fn trace(cycles: &[Cycle]) -> Vec<u8> {
    let mut trace = Document01::header(cycles.len() as u64).to_vec();
    trace.extend(cycles.iter().flat_map(Document01::encode));
    trace
}
