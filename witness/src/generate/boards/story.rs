//! Long runs of a board from power-on: its tables are loaded over commands, by
//! one unit or several at once, and then it works.

use crate::commands::code;
use crate::unit::{attribute, mode};

use super::hand::{modes, Modes};
use super::rig::Rig;
use super::scenes::{self, Scene};

/// A scene stands here as often as it should come.
const SCENES: [Scene; 24] = [
    scenes::fault,
    scenes::fault,
    scenes::fault,
    scenes::fault,
    scenes::memory,
    scenes::memory,
    scenes::memory,
    scenes::fetch,
    scenes::fetch,
    scenes::dma,
    scenes::command,
    scenes::command,
    scenes::command,
    scenes::read_several,
    scenes::wrong_command,
    scenes::past_the_count,
    scenes::not_for_the_units,
    scenes::acknowledge,
    scenes::change_mode,
    scenes::change_mode,
    scenes::access,
    scenes::clash,
    scenes::reset,
    scenes::software_reset,
];

/// About so many cycles.
pub fn story(rig: &mut Rig, length: usize) {
    set_up(rig);
    while rig.cycles < length {
        let scene = rig.random.pick(&SCENES);
        scene(rig);
        if rig.random.once_in(40) {
            set_up(rig);
        }
    }
}

/// Loads the hot descriptors, and mostly sets modes that keep the units apart.
fn set_up(rig: &mut Rig) {
    for at in rig.hot.clone() {
        load_all(rig, at);
    }
    let wanted = rig
        .random
        .pick(&[Modes::Apart, Modes::Apart, Modes::Apart, Modes::Loose]);
    let present = rig.present();
    let modes = modes(&mut rig.random, present, wanted);
    for (number, mr) in modes.into_iter().take(present).enumerate() {
        if mr & mode::MSEN != 0 || rig.random.once_in(4) {
            rig.set_mode(number, mr);
        }
    }
}

/// One descriptor of every unit: a common one first, written to all at once, and
/// then others for one unit or some.
fn load_all(rig: &mut Rig, at: u8) {
    let all: Vec<usize> = (0..rig.present()).collect();
    load(rig, &all, at);
    for _ in 0..rig.random.between(1, 4) {
        let some = [vec![rig.unit()], rig.some()];
        let place = rig.random.below(2);
        load(rig, &some[place], at);
    }
}

fn load(rig: &mut Rig, units: &[usize], at: u8) {
    rig.write(units, code::DSCR, 0);
    rig.write(units, code::SAR, at);
    let [high, low] = rig.random.word().to_be_bytes();
    let small = rig.random.byte() % 4;
    let limit = rig.random.pick(&[small, 0xFF - small, 0xFF]);
    let flag = 1 << rig.random.below(5);
    let stack = rig.random.pick(&[0, attribute::DIRW]);
    let attributes = rig.random.pick(&[0, stack, stack, flag | stack]);
    let code = rig.random.pick(&[0x0B, 0x0F]);
    for byte in [high, low, limit, attributes] {
        rig.write(units, code, byte);
    }
}
