//! What the generated board scripts meet: each case of ticket 3 that a wrong
//! reading could miss must come often enough.

use witness::board::{Board, BoardCycle, Place, Units};
use witness::board_script::play;
use witness::checks::Finding;
use witness::commands::code::RESET;
use witness::cycle::{Cycle, Kind};
use witness::generate::boards::rig::drivers;
use witness::generate::boards::{cases, scripts, SCRIPTS};
use witness::generate::bus::finding;
use witness::memory::Memory;
use witness::step::Step;
use witness::translation::Translation;
use witness::unit::attribute::{CHG, REF};
use witness::unit::{mode, Unit};
use witness::Document01;

use crate::board_runs::Turn;
use crate::scripted::{ENOUGH, SEEDS};

impl Turn {
    /// Past the count of a good board.
    fn past(&self) -> &[Place] {
        &self.before.places[Document01::looked_at(self.before.count)..]
    }

    fn any(&self, meets: impl Fn(&Unit) -> bool) -> bool {
        self.present().iter().any(|place| meets(&place.unit))
    }

    /// A unit other than the one named.
    fn another(&self, meets: impl Fn(&Unit) -> bool) -> bool {
        let places = self.present().iter().enumerate();
        let others = places.filter(|(number, _)| Some(*number) != self.answer.unit);
        others.into_iter().any(|(_, place)| meets(&place.unit))
    }

    /// The unit named, as it was.
    fn named(&self, meets: impl Fn(&Unit) -> bool) -> bool {
        let place = self.answer.unit.map(|number| &self.before.places[number]);
        place.is_some_and(|place| meets(&place.unit))
    }

    fn own(&self) -> Vec<Option<u8>> {
        let places = self.present().iter().enumerate();
        let own = places.map(|(number, place)| {
            Document01::own_refusal(place, &Document01::given(&self.cycle, number))
        });
        own.collect()
    }

    fn drivers(&self) -> Vec<&Unit> {
        let drivers = drivers(&self.before, &self.cycle);
        let units = drivers.iter().map(|&n| &self.before.places[n].unit);
        units.collect()
    }

    /// Drivers of a refused 12, as many as are with TRNS and without.
    fn clash(&self, translating: usize, passing: usize) -> bool {
        let drivers = self.drivers();
        let translate = drivers.iter().filter(|unit| unit.mode(mode::TRNS)).count();
        self.is(Kind::Refused(12))
            && translate >= translating
            && drivers.len() >= passing + translating
            && drivers.len() - translate >= passing
    }

    fn addresses(&self) -> Vec<u16> {
        let route = |unit: &&Unit| Document01::route(unit, &self.cycle.cycle).address();
        self.drivers().iter().filter_map(route).collect()
    }

    fn fetches(&self) -> bool {
        Document01::fetches(&Unit::power_on(), &self.cycle.cycle)
    }

    fn selected(&self) -> usize {
        let numbers = 0..self.present().len();
        numbers
            .filter(|&n| Document01::selected(self.cycle.selects, n))
            .count()
    }

    fn selects_past(&self) -> bool {
        self.before.count < 16 && self.cycle.selects >> self.before.count != 0
    }

    fn at_three(&self) -> bool {
        let Cycle {
            status, dma, reset, ..
        } = self.cycle.cycle;
        status == 0x3 && !dma && !reset
    }

    fn lines(&self, meets: impl Fn(&Unit) -> bool) -> Vec<u8> {
        let units = self.present().iter().map(|place| &place.unit);
        let driving = units.filter(|unit| unit.mode(mode::MSEN) && meets(unit));
        driving.map(|unit| unit.mr & mode::ID).collect()
    }

    /// Several units drive a high line in this acknowledge, all the same or not.
    fn joined(&self, same: bool) -> bool {
        let lines = self.lines(|unit| unit.request);
        let differ = lines.iter().any(|line| *line != lines[0]);
        self.is(Kind::Acknowledge) && lines.len() > 1 && differ != same
    }

    /// REF is new in the driver, with SUP on by another unit's hold.
    fn marked_under_hold(&self, flag: u8) -> bool {
        let at = usize::from(self.cycle.cycle.entry());
        let new = self.answer.unit.is_some_and(|number| {
            let [old, new] = [&self.before, &self.after].map(|units| &units.places[number].unit);
            new.table[at].has(flag) && !old.table[at].has(flag)
        });
        new && self.answer.answer.sup && self.is(Kind::Translated)
    }

    fn damaged(place: &Place) -> bool {
        place.strange || Document01::damaged(&place.unit)
    }
}

type Case = (&'static str, fn(&Turn) -> bool);

const COUNTS: &[Case] = &[
    ("11, count 0", |t| t.before.count == 0),
    ("11, count 17", |t| t.before.count == 17),
    ("11, count above 17", |t| t.before.count > 17),
    ("11, a request stands", |t| {
        t.is(Kind::Refused(11)) && t.before.places.iter().any(|place| place.unit.request)
    }),
    ("11, a unit would refuse", |t| {
        t.is(Kind::Refused(11)) && t.own().iter().any(Option::is_some)
    }),
    ("one unit", |t| t.before.count == 1 && !t.refused()),
    ("16 units", |t| t.before.count == 16 && !t.refused()),
    ("unit 15 drives", |t| {
        t.answer.unit == Some(15) && !t.refused()
    }),
    ("a unit past the count is damaged", |t| {
        !t.refused() && t.past().iter().any(Turn::damaged)
    }),
    ("a unit past the count has a request, and none else", |t| {
        let past = t.past().iter().any(|place| place.unit.request);
        !t.refused() && past && !t.answer.answer.trap
    }),
    ("a unit past the count would drive", |t| {
        let drives = |place: &Place| Document01::drives(&place.unit, &t.cycle.cycle);
        t.is(Kind::Translated) && t.past().iter().any(drives)
    }),
];

const OWN: &[Case] = &[
    ("1", |t| t.is(Kind::Refused(1))),
    ("1, a later unit damaged", |t| {
        t.is(Kind::Refused(1)) && t.own().contains(&Some(2))
    }),
    ("2, a register", |t| {
        let registers = |unit: &Unit| Document01::damaged(unit) && !Document01::orphan(unit);
        t.is(Kind::Refused(2)) && t.named(registers)
    }),
    ("2, an orphan", |t| {
        t.is(Kind::Refused(2)) && t.named(Document01::orphan)
    }),
    ("2, strange notes", |t| {
        t.is(Kind::Refused(2)) && t.named(|unit| !Document01::damaged(unit))
    }),
    ("2, strange notes with a request alone", |t| {
        let requests = t
            .present()
            .iter()
            .filter(|place| place.unit.request)
            .count();
        let strange = |unit: &Unit| !Document01::damaged(unit) && unit.request;
        t.is(Kind::Refused(2)) && t.named(strange) && requests == 1
    }),
    ("2, not of unit 0", |t| {
        t.is(Kind::Refused(2)) && t.answer.unit > Some(0)
    }),
    ("3", |t| t.is(Kind::Refused(3))),
    ("4", |t| t.is(Kind::Refused(4))),
    ("3 or 4, not of unit 0", |t| {
        [3, 4].into_iter().any(|own| t.is(Kind::Refused(own))) && t.answer.unit > Some(0)
    }),
    ("3 or 4 before a later unit's 2", |t| {
        [3, 4].into_iter().any(|own| t.is(Kind::Refused(own))) && t.own().contains(&Some(2))
    }),
    ("2 before a later unit's 1", |t| {
        t.is(Kind::Refused(2)) && t.own().contains(&Some(1))
    }),
    ("2 before a later unit's 3 or 4", |t| {
        let later = t.own().iter().any(|own| matches!(own, Some(3 | 4)));
        t.is(Kind::Refused(2)) && later
    }),
    ("own, where only another unit's request stands", |t| {
        t.answer.unit.is_some() && t.refused() && t.answer.answer.trap && t.named(|u| !u.request)
    }),
    ("own, where a lower unit would be changed", |t| {
        let memory = matches!(t.cycle.cycle.status, 0x8..=0xD);
        t.is(Kind::Refused(2)) && t.answer.unit > Some(0) && memory && !t.drivers().is_empty()
    }),
];

const DRIVEN: &[Case] = &[
    ("12, both translate", |t| t.clash(2, 0)),
    ("12, one passes and one translates", |t| t.clash(1, 1)),
    ("12, both pass", |t| t.clash(0, 2)),
    ("12, three units", |t| {
        t.is(Kind::Refused(12)) && t.drivers().len() > 2
    }),
    ("12, one aborts its fetch", |t| {
        let aborts = t.drivers().iter().filter(|unit| unit.awaits).count();
        t.is(Kind::Refused(12)) && t.fetches() && aborts == 1
    }),
    ("12, equal addresses, translated", |t| {
        let addresses = t.addresses();
        t.clash(2, 0) && addresses.iter().all(|address| *address == addresses[0])
    }),
    ("12, for DMA", |t| {
        t.is(Kind::Refused(12)) && t.cycle.cycle.dma
    }),
    ("12, a request stands", |t| {
        t.is(Kind::Refused(12)) && t.answer.answer.trap
    }),
    ("own refusal beside 12", |t| {
        t.refused() && t.answer.unit.is_some() && t.drivers().len() > 1
    }),
    ("1 beside 12", |t| {
        t.is(Kind::Refused(1)) && t.drivers().len() > 1
    }),
    ("translated", |t| t.is(Kind::Translated)),
    ("translated by another than unit 0, distance not 0", |t| {
        t.answer.unit > Some(0) && t.answer.answer.distance != 0
    }),
    ("translated for DMA", |t| {
        t.is(Kind::Translated) && t.cycle.cycle.dma && t.before.count > 1
    }),
    ("violation for DMA", |t| {
        t.is(Kind::Translated) && t.cycle.cycle.dma && t.answer.answer.sup
    }),
    ("passed", |t| t.is(Kind::Passed) && t.before.count > 1),
    ("not driven", |t| {
        let memory = matches!(t.cycle.cycle.status, 0x8..=0xD);
        t.is(Kind::Ignored) && memory && t.any(|unit| unit.mode(mode::MSEN))
    }),
];

const NOTES: &[Case] = &[
    ("translated beside another's aborted fetch", |t| {
        t.is(Kind::Translated) && t.fetches() && t.another(|unit| unit.awaits)
    }),
    ("passed beside another's aborted fetch", |t| {
        t.is(Kind::Passed) && t.fetches() && t.another(|unit| unit.awaits)
    }),
    ("violation beside another's aborted fetch", |t| {
        let violates =
            |unit: &Unit| matches!(finding(unit, &t.cycle.cycle), Some(Finding::Violation(_)));
        t.is(Kind::Translated) && t.fetches() && t.named(violates) && t.another(|u| u.awaits)
    }),
    ("aborted by the driver, a fetch in another", |t| {
        t.is(Kind::AbortedFetch) && t.answer.unit.is_some() && t.another(|unit| !unit.awaits)
    }),
    ("aborted by the driver and by another", |t| {
        t.is(Kind::AbortedFetch) && t.answer.unit.is_some() && t.another(|unit| unit.awaits)
    }),
    ("aborted and not driven", |t| {
        t.is(Kind::AbortedFetch) && t.answer.unit.is_none()
    }),
    ("aborted and not driven, a fetch in another", |t| {
        t.is(Kind::AbortedFetch) && t.answer.unit.is_none() && t.any(|unit| !unit.awaits)
    }),
    ("a fetch ends another's hold or own", |t| {
        let ends = |unit: &Unit| !unit.awaits && (unit.hold || unit.own);
        !t.refused() && t.fetches() && t.answer.unit.is_some() && t.another(ends)
    }),
    ("translated under another's hold alone", |t| {
        t.is(Kind::Translated)
            && t.answer.answer.sup
            && t.named(|u| !u.hold)
            && t.another(|u| u.hold)
    }),
    ("REF set under another's hold", |t| t.marked_under_hold(REF)),
    ("CHG set under another's hold", |t| t.marked_under_hold(CHG)),
    ("DMA leaves another's hold alone", |t| {
        t.is(Kind::Translated) && t.cycle.cycle.dma && t.another(|u| u.hold) && !t.answer.answer.sup
    }),
    ("not driven under a hold", |t| {
        t.is(Kind::Ignored) && t.answer.answer.sup
    }),
    ("the trap line by another than unit 0 alone", |t| {
        !t.refused() && t.answer.answer.trap && !t.after.places[0].unit.request
    }),
    ("the trap line by another than the driver alone", |t| {
        let stands = |number: usize| t.after.places[number].unit.request;
        t.answer.answer.trap && t.answer.unit.is_some_and(|number| !stands(number))
    }),
];

const ACKNOWLEDGES: &[Case] = &[
    ("acknowledge, several lines", |t| t.joined(false)),
    ("acknowledge, one line of several units", |t| t.joined(true)),
    ("acknowledge, a request with MSEN clear", |t| {
        let off = t.any(|unit| unit.request && !unit.mode(mode::MSEN));
        t.is(Kind::Acknowledge) && off && t.answer.answer.data > Some(0)
    }),
    ("acknowledge, a low line too", |t| {
        let low = !t.lines(|unit| !unit.request).is_empty();
        t.is(Kind::Acknowledge) && low && t.answer.answer.data > Some(0)
    }),
    ("acknowledge, low lines alone", |t| {
        t.is(Kind::Acknowledge) && t.answer.answer.data == Some(0)
    }),
    ("acknowledge, not driven", |t| {
        t.is(Kind::Acknowledge) && t.answer.answer.data.is_none()
    }),
    ("acknowledge, notes without a request go", |t| {
        let other = |unit: &Unit| !unit.request && (unit.awaits || unit.own || unit.hold);
        t.is(Kind::Acknowledge) && t.any(other)
    }),
];

const COMMANDS: &[Case] = &[
    ("13, two units", |t| {
        t.is(Kind::Refused(13)) && t.selected() == 2
    }),
    ("13, more units", |t| {
        t.is(Kind::Refused(13)) && t.selected() > 2
    }),
    ("13, a request stands", |t| {
        t.is(Kind::Refused(13)) && t.answer.answer.trap
    }),
    ("2 beside 13", |t| {
        t.is(Kind::Refused(2)) && t.at_three() && t.cycle.cycle.read && t.selected() > 1
    }),
    ("3 beside 13", |t| {
        t.is(Kind::Refused(3)) && t.cycle.cycle.read && t.selected() > 1
    }),
    ("4 beside 13", |t| {
        t.is(Kind::Refused(4)) && t.cycle.cycle.read && t.selected() > 1
    }),
    ("one unit read", |t| {
        t.is(Kind::Command) && t.cycle.cycle.read && t.before.count > 1
    }),
    ("one unit read, others selected past the count", |t| {
        t.is(Kind::Command) && t.cycle.cycle.read && t.selects_past()
    }),
    ("one unit written", |t| {
        t.is(Kind::Command) && !t.cycle.cycle.read && t.selected() == 1 && t.before.count > 1
    }),
    ("several units written", |t| {
        t.is(Kind::Command) && !t.cycle.cycle.read && t.selected() > 1
    }),
    ("several units written, not all", |t| {
        t.is(Kind::Command) && t.selected() > 1 && t.selected() < t.present().len()
    }),
    ("software reset of several units", |t| {
        t.is(Kind::Command) && t.cycle.cycle.offset == RESET && t.selected() > 1
    }),
    ("selected past the count alone, listed code", |t| {
        t.is(Kind::Ignored) && t.at_three() && t.selects_past() && t.cycle.cycle.offset < 0x10
    }),
    ("selected past the count alone, bad code", |t| {
        let bad = matches!(t.cycle.cycle.offset, 0x12 | 0x21..);
        t.is(Kind::Ignored) && t.at_three() && t.selects_past() && bad
    }),
    ("nobody selected, own select set", |t| {
        t.is(Kind::Ignored) && t.at_three() && t.selected() == 0 && t.cycle.cycle.select
    }),
    ("a DMA cycle at 3, several selected", |t| {
        t.is(Kind::Ignored) && t.cycle.cycle.status == 3 && t.cycle.cycle.dma && t.selected() > 1
    }),
    ("a memory read, several selected", |t| {
        t.is(Kind::Translated) && t.cycle.cycle.read && t.selected() > 1
    }),
    ("reset, several selected", |t| {
        t.is(Kind::Reset) && t.selected() > 1
    }),
    ("reset, some selected", |t| {
        t.is(Kind::Reset) && t.selected() > 0 && t.selected() < t.present().len()
    }),
    ("reset, a read at 3, several selected", |t| {
        let Cycle { status, read, .. } = t.cycle.cycle;
        t.is(Kind::Reset) && status == 3 && read && t.selected() > 1
    }),
];

/// Every cycle of a script.
fn each_turn(script: &str, mut see: impl FnMut(&Turn)) {
    let mut step = |units: &mut Units, cycle: &BoardCycle| {
        let turn = Turn::new(units, *cycle);
        see(&turn);
        turn.answer
    };
    play(script.as_bytes(), &mut step);
}

#[test]
fn every_case_is_met_often() {
    let cases = [COUNTS, OWN, DRIVEN, NOTES, ACKNOWLEDGES, COMMANDS].concat();
    for seed in SEEDS {
        let mut counts = vec![0; cases.len()];
        for script in scripts(seed) {
            each_turn(&script, |turn| {
                for (count, (_, meets)) in counts.iter_mut().zip(&cases) {
                    *count += u64::from(meets(turn));
                }
            });
        }
        for (count, (name, _)) in counts.iter().zip(&cases) {
            assert!(*count >= ENOUGH, "seed {seed}: only {count}: {name}");
        }
    }
}

/// Units that commands alone have made: each count comes, and most units are set.
#[test]
fn long_runs_from_power_on_come_with_many_counts() {
    for seed in SEEDS {
        let (mut counts, mut long) = ([0; 17], 0);
        for case in (0..SCRIPTS).flat_map(|number| cases(seed.wrapping_add(number))) {
            if case.contains("power-on") {
                let cycles = case.lines().filter(|line| line.starts_with('C')).count();
                assert!(!case.contains("\nU "), "{case}");
                long += usize::from(cycles >= 120);
                each_turn(&case, |turn| counts[usize::from(turn.before.count)] += 1);
            }
        }
        let different = counts.iter().filter(|count| **count > 0).count();
        assert!(
            long >= 15 && different >= 5,
            "seed {seed}: {long}, {counts:?}"
        );
    }
}

#[test]
fn no_line_is_wrong_and_every_script_is_short() {
    for script in SEEDS.into_iter().flat_map(scripts) {
        let text = play(script.as_bytes(), &mut Document01::board_step);
        assert!(!text.split(|byte| *byte == b'\n').any(|line| line == b"?"));
        assert!(script.len() < 60_000, "{} bytes", script.len());
    }
}
