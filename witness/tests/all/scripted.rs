//! What the generated scripts meet, cycle by cycle.

use witness::coverage::event::Event;
use witness::coverage::{Row, Table};
use witness::cycle::{Answer, Cycle};
use witness::generate::steps::scripts;
use witness::script::play;
use witness::step::Step;
use witness::unit::Unit;
use witness::Document01;

/// How often the scripts of a seed must meet each case.
pub const ENOUGH: u64 = 15;
pub const SEEDS: [u64; 3] = [1, 7, 424_242];

/// Every cycle of the scripts of a seed, with the one before it.
pub fn each_cycle(seed: u64, mut see: impl FnMut(&Event, Option<Cycle>)) {
    for script in scripts(seed) {
        let mut last = None;
        let mut step = |unit: &mut Unit, cycle: &Cycle| -> Answer {
            let before = unit.clone();
            let answer = Document01::step(unit, cycle);
            see(&Event::new(before, *cycle, answer, unit), last);
            last = Some(*cycle);
            answer
        };
        play(&script, Unit::power_on(), &mut step);
    }
}

/// The scripts of each seed meet each row often enough.
pub fn meet_often(rows: impl Fn() -> Vec<Row>) {
    for seed in SEEDS {
        let mut table = Table { rows: rows() };
        each_cycle(seed, |event, _| table.see(event));
        for Row { name, count, .. } in &table.rows {
            assert!(*count >= ENOUGH, "seed {seed}: only {count}: {name}");
        }
    }
}
