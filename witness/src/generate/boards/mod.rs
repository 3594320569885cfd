//! Board scripts: boards made by hand and from power-on, and cycles that meet
//! what ticket 3 says of them.

pub mod hand;
pub mod rig;
mod scenes;
mod story;

use super::random::Random;
use crate::commands::code;
use crate::unit::mode;
use hand::{board, count, damage, estrange, Modes, Notes};
use rig::Rig;
use scenes::Scene;

/// The scripts of a seed, and the cases of each.
pub const SCRIPTS: u64 = 20;
pub const CASES: usize = KINDS.len();

/// A kind of case: its name, and what makes it.
type Kind = (&'static str, fn(Random) -> Rig);

/// The first case of a script starts as a script does, with no board said.
const KINDS: [Kind; 15] = [
    ("unsaid", unsaid),
    ("apart", apart),
    ("loose", loose),
    ("damaged", damaged),
    ("acknowledge", acknowledge),
    ("abort", abort),
    ("hold", hold),
    ("power-on", power_on),
    ("commands", commands),
    ("past", past),
    ("count", wrong_count),
    ("any", any),
    ("reset", reset),
    ("same", same),
    ("full", full),
];

/// The scripts of a seed.
pub fn scripts(seed: u64) -> impl Iterator<Item = String> {
    (0..SCRIPTS).map(move |number| cases(seed.wrapping_add(number)).collect())
}

/// The cases of one script, one of each kind. Only the first leaves its board
/// unsaid, so that each case is a script by itself.
pub fn cases(seed: u64) -> impl Iterator<Item = String> {
    let kinds = KINDS.iter().enumerate();
    kinds.map(move |(case, (name, make))| {
        // A lane of its own: step scripts have the first ones.
        let rig = make(Random::new(seed, 1 << 32 | case as u64));
        format!("# {case} {name}\n{}", rig.text)
    })
}

/// So many cycles, or a few more, of these scenes.
fn play(rig: &mut Rig, cycles: usize, scenes: &[Scene]) {
    let end = rig.cycles + cycles;
    while rig.cycles < end {
        let scene = rig.random.pick(scenes);
        scene(rig);
    }
}

/// A board of one unit at power-on.
fn unsaid(random: Random) -> Rig {
    let mut rig = Rig::new(random, 1);
    rig.text.clear();
    story::story(&mut rig, 40);
    rig
}

fn apart(mut random: Random) -> Rig {
    let count = count(&mut random);
    let mut rig = Rig::new(random, count);
    board(&mut rig, Modes::Apart, Notes::Any);
    let scenes: &[Scene] = &[
        scenes::memory,
        scenes::memory,
        scenes::fetch,
        scenes::fault,
        scenes::dma,
        scenes::command,
        scenes::acknowledge,
        scenes::change_mode,
        scenes::not_for_the_units,
        scenes::out_of_range,
    ];
    play(&mut rig, 24, scenes);
    rig
}

/// Many of these cycles are refused 12.
fn loose(mut random: Random) -> Rig {
    let count = count(&mut random).max(2);
    let mut rig = Rig::new(random, count);
    let wanted = rig.random.pick(&[Modes::Loose, Modes::Loose, Modes::Any]);
    let notes = rig.random.pick(&[Notes::Any, Notes::Awaits]);
    board(&mut rig, wanted, notes);
    let scenes: &[Scene] = &[
        scenes::clash,
        scenes::clash,
        scenes::access,
        scenes::memory,
        scenes::fetch,
        scenes::out_of_range,
        scenes::read_several,
    ];
    play(&mut rig, 20, scenes);
    rig
}

/// One unit or some are damaged, of any place on the board: every cycle is
/// refused, by the damaged unit or by one below it.
fn damaged(mut random: Random) -> Rig {
    let count = count(&mut random).clamp(1, 9);
    let mut rig = Rig::new(random, count);
    let scenes: &[Scene] = &[
        scenes::wrong_command,
        scenes::wrong_command,
        scenes::out_of_range,
        scenes::out_of_range,
        scenes::clash,
        scenes::read_several,
        scenes::memory,
        scenes::acknowledge,
        scenes::command,
        scenes::past_the_count,
    ];
    for _ in 0..2 {
        let notes = rig.random.pick(&[Notes::Any, Notes::None]);
        board(&mut rig, Modes::Loose, notes);
        let units = match rig.random.coin() {
            true => vec![rig.unit()],
            false => rig.some(),
        };
        damage(&mut rig, &units);
        play(&mut rig, 8, scenes);
    }
    board(&mut rig, Modes::Loose, Notes::None);
    estrange(&mut rig);
    play(&mut rig, 5, scenes);
    rig
}

/// Several requests at once, over and over.
fn acknowledge(mut random: Random) -> Rig {
    let count = count(&mut random).clamp(2, 5);
    let mut rig = Rig::new(random, count);
    for _ in 0..6 {
        let wanted = [Modes::Apart, Modes::Any, Modes::Any, Modes::OneLine];
        let wanted = rig.random.pick(&wanted);
        board(&mut rig, wanted, Notes::Requests);
        match rig.random.below(6) {
            0 | 1 => scenes::memory(&mut rig),
            2 => {
                // All off, so that none drives its line.
                let all: Vec<usize> = (0..rig.present()).collect();
                rig.write(&all, code::MR, mode::TRNS);
            }
            _ => {}
        }
        rig.acknowledge();
        rig.acknowledge();
        scenes::fetch(&mut rig);
    }
    rig
}

/// Fetches that some units abort.
fn abort(mut random: Random) -> Rig {
    let count = count(&mut random).clamp(2, 4);
    let mut rig = Rig::new(random, count);
    for _ in 0..6 {
        let wanted = rig
            .random
            .pick(&[Modes::Apart, Modes::Apart, Modes::Passing]);
        board(&mut rig, wanted, Notes::Awaits);
        let scene = rig.random.pick(&[
            scenes::aborted_beside as Scene,
            scenes::aborted_beside,
            scenes::aborted_undriven,
            scenes::fetch,
        ]);
        scene(&mut rig);
        scenes::fetch(&mut rig);
        scenes::memory(&mut rig);
    }
    rig
}

/// Memory cycles while some units hold.
fn hold(mut random: Random) -> Rig {
    let count = count(&mut random).clamp(1, 6);
    let mut rig = Rig::new(random, count);
    for _ in 0..3 {
        board(&mut rig, Modes::Apart, Notes::Holds);
        let scenes: &[Scene] = &[scenes::memory, scenes::memory, scenes::dma, scenes::access];
        play(&mut rig, 5, scenes);
        scenes::fetch(&mut rig);
        scenes::memory(&mut rig);
    }
    rig
}

fn power_on(mut random: Random) -> Rig {
    let count = count(&mut random);
    let mut rig = Rig::new(random, count);
    let length = rig.random.between(120, 300);
    story::story(&mut rig, length);
    rig
}

fn commands(mut random: Random) -> Rig {
    let count = count(&mut random);
    let mut rig = Rig::new(random, count);
    board(&mut rig, Modes::Apart, Notes::Any);
    let scenes: &[Scene] = &[
        scenes::command,
        scenes::command,
        scenes::command,
        scenes::read_several,
        scenes::wrong_command,
        scenes::past_the_count,
        scenes::memory,
    ];
    play(&mut rig, 30, scenes);
    rig
}

/// Units past the count, many of them damaged or with a request.
fn past(mut random: Random) -> Rig {
    let count = count(&mut random).min(14);
    let mut rig = Rig::new(random, count);
    board(&mut rig, Modes::Apart, Notes::Any);
    let first = rig.present();
    for number in [first, rig.random.between(first, 15)] {
        let mr = rig.random.byte() | mode::MSEN;
        let unit = hand::sane(&mut rig, mr, Notes::Requests);
        rig.place(number, unit, 0);
        if rig.random.once_in(3) {
            damage(&mut rig, &[number]);
        }
    }
    let scenes: &[Scene] = &[
        scenes::past_the_count,
        scenes::past_the_count,
        scenes::memory,
        scenes::fetch,
        scenes::command,
        scenes::read_several,
        scenes::acknowledge,
        scenes::reset,
    ];
    play(&mut rig, 14, scenes);
    rig
}

/// 11, often by one, with units of all sorts.
fn wrong_count(mut random: Random) -> Rig {
    let any = random.between(18, 255) as u8;
    let mut rig = Rig::new(random, 0);
    let scenes: &[Scene] = &[
        scenes::access,
        scenes::command,
        scenes::acknowledge,
        scenes::wrong_command,
        scenes::out_of_range,
        scenes::read_several,
    ];
    for count in [0, 17, any] {
        rig.begin_anew(count);
        for number in [0, 1, 15] {
            let mr = rig.random.byte();
            let unit = hand::sane(&mut rig, mr, Notes::Requests);
            rig.place(number, unit, 0);
        }
        if rig.random.once_in(3) {
            damage(&mut rig, &[0]);
        }
        play(&mut rig, 3, scenes);
    }
    rig
}

/// Any modes, and cycles of any kind.
fn any(mut random: Random) -> Rig {
    let count = count(&mut random);
    let mut rig = Rig::new(random, count);
    board(&mut rig, Modes::Any, Notes::Any);
    if rig.random.once_in(4) {
        let number = rig.unit();
        damage(&mut rig, &[number]);
    }
    let scenes: &[Scene] = &[
        scenes::access,
        scenes::access,
        scenes::fetch,
        scenes::command,
        scenes::read_several,
        scenes::wrong_command,
        scenes::acknowledge,
        scenes::reset,
        scenes::out_of_range,
        scenes::not_for_the_units,
        scenes::past_the_count,
    ];
    play(&mut rig, 24, scenes);
    rig
}

/// Resets of both sorts, with several selects.
fn reset(mut random: Random) -> Rig {
    let count = count(&mut random).clamp(2, 8);
    let mut rig = Rig::new(random, count);
    board(&mut rig, Modes::Apart, Notes::Any);
    let scenes: &[Scene] = &[
        scenes::reset,
        scenes::reset,
        scenes::software_reset,
        scenes::memory,
        scenes::fault,
    ];
    play(&mut rig, 24, scenes);
    rig
}

/// Clashes of units that drive equal addresses.
fn same(mut random: Random) -> Rig {
    let count = random.between(2, 4) as u8;
    let mut rig = Rig::new(random, count);
    board(&mut rig, Modes::Loose, Notes::Any);
    for number in 0..2 {
        let urs = rig.random.pick(&[0, 0, mode::URS]);
        rig.set_mode(number, mode::MSEN | mode::TRNS | urs);
    }
    let scenes: &[Scene] = &[scenes::same_address, scenes::clash, scenes::access];
    play(&mut rig, 10, scenes);
    rig
}

/// All sixteen units.
fn full(random: Random) -> Rig {
    let mut rig = Rig::new(random, 16);
    board(&mut rig, Modes::Apart, Notes::Any);
    let last = rig.random.pick(&[mode::TRNS, mode::TRNS, 0]);
    if rig.random.coin() {
        rig.write(&(0..15).collect::<Vec<_>>(), code::MR, 0);
        rig.set_mode(15, mode::MSEN | last);
    }
    let scenes: &[Scene] = &[
        scenes::memory,
        scenes::memory,
        scenes::fetch,
        scenes::fault,
        scenes::command,
        scenes::read_several,
        scenes::wrong_command,
        scenes::acknowledge,
    ];
    play(&mut rig, 24, scenes);
    rig
}
