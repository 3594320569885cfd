//! Demand 3 of boards: two boards, each unit of the first with a tighter table
//! than its fellow in the second, on the same cycles up to the first aborted
//! fetch in any unit. Nobody writes a descriptor.

use witness::board::{Board, BoardAnswer, BoardCycle, Place, Units};
use witness::cycle::{Cycle, Kind};
use witness::generate::random::Random;
use witness::memory::Memory;
use witness::step::{Class, Step};
use witness::unit::attribute::{CPUI, RD};
use witness::Document01;

use crate::board_runs::{board, cycle, BOARDS, CYCLES};
use crate::distance::segment;
use crate::others::takes_descriptor;
use crate::rows::{read, unit, write, TRANSLATES};
use crate::tighter::tightened;

/// The tighter board and the wider one, before a cycle and with their answers.
struct Turn {
    before: [Units; 2],
    cycle: BoardCycle,
    answers: [BoardAnswer; 2],
}

fn pair(random: &mut Random) -> [Units; 2] {
    let mut wider = board(random);
    for place in &mut wider.places {
        for descriptor in &mut place.unit.table {
            let any = random.byte();
            descriptor.limit = random.pick(&[descriptor.limit, any]);
        }
    }
    let mut tighter = wider.clone();
    for place in &mut tighter.places {
        place.unit.table = place.unit.table.map(|wider| tightened(random, &wider));
    }
    [tighter, wider]
}

/// No unit of the board takes the cycle as a write of a descriptor's byte.
fn allowed(units: &Units, cycle: &BoardCycle) -> bool {
    let mut numbers = 0..Document01::looked_at(units.count);
    let writes = |given: Cycle| takes_descriptor(&given) && given.write();
    !numbers.any(|number| writes(Document01::given(cycle, number)))
}

/// An aborted fetch in some unit, of a cycle that is not refused.
fn aborted(units: &Units, cycle: &BoardCycle) -> bool {
    let mut places = units.places.iter().take(usize::from(units.count));
    let refused = Document01::board_refusal(units, cycle).is_some();
    let memory = Document01::class(&cycle.cycle) == Class::Memory;
    let fetches = |place: &Place| {
        memory && place.unit.awaits && Document01::fetches(&place.unit, &cycle.cycle)
    };
    !refused && places.any(fetches)
}

fn step(boards: &mut [Units; 2], cycle: BoardCycle) -> Turn {
    let before = boards.clone();
    let answers = boards
        .each_mut()
        .map(|board| Document01::board_step(board, &cycle));
    Turn {
        before,
        cycle,
        answers,
    }
}

impl Turn {
    fn both(&self, kind: Kind) -> bool {
        self.answers.iter().all(|one| one.answer.kind == kind)
    }

    fn less(&self) -> bool {
        let [tighter, wider] = self.answers.map(|one| one.answer.distance);
        self.both(Kind::Translated) && tighter < wider
    }
}

/// The same address by the same unit, and the same refusal; what the wider board
/// suppresses the tighter one does; and it is nowhere nearer to the edge.
fn covers(turn: &Turn) {
    let [tighter, wider] = turn.answers;
    assert_eq!(tighter.unit, wider.unit, "{:?}", turn.cycle);
    assert_eq!(tighter.answer.address, wider.answer.address);
    assert_eq!(tighter.answer.kind, wider.answer.kind);
    assert!(tighter.answer.sup || !wider.answer.sup, "{:?}", turn.cycle);
    assert!(tighter.answer.distance <= wider.answer.distance);
}

type Wanted = (&'static str, fn(&Turn) -> bool);

const MET: &[Wanted] = &[
    ("translated", |turn| turn.both(Kind::Translated)),
    ("translated by another than unit 0", |turn| {
        turn.both(Kind::Translated) && turn.answers[0].unit > Some(0)
    }),
    ("the tighter board alone suppresses", |turn| {
        turn.answers[0].answer.sup && !turn.answers[1].answer.sup
    }),
    ("it does by a unit that does not drive", |turn| {
        let [tighter, wider] = turn.answers;
        let places = &turn.before[0].places;
        let held = |number: usize| places[number].unit.hold;
        tighter.answer.sup
            && !wider.answer.sup
            && tighter.unit.is_some_and(|unit| !held(unit))
            && places.iter().any(|place| place.unit.hold)
    }),
    ("both suppress", |turn| {
        turn.answers.iter().all(|one| one.answer.sup)
    }),
    ("a distance less", |turn| turn.less()),
    ("a distance less but not 0", |turn| {
        turn.less() && turn.answers[0].answer.distance != 0
    }),
    ("refused 12", |turn| turn.both(Kind::Refused(12))),
    ("refused 13", |turn| turn.both(Kind::Refused(13))),
    ("command", |turn| turn.both(Kind::Command)),
    ("acknowledge", |turn| turn.both(Kind::Acknowledge)),
    ("a trap line alone", |turn| {
        turn.answers[0].answer.trap != turn.answers[1].answer.trap
    }),
];

#[test]
fn up_to_the_first_aborted_fetch_a_tighter_board_opens_no_gap() {
    let mut random = Random::new(3, 2);
    let mut counts = vec![0; MET.len()];
    for _ in 0..2 * BOARDS {
        let mut boards = pair(&mut random);
        for _ in 0..CYCLES {
            let cycle = cycle(&boards[0], &mut random);
            if !allowed(&boards[0], &cycle) {
                continue;
            }
            if boards.iter().any(|board| aborted(board, &cycle)) {
                break;
            }
            let turn = step(&mut boards, cycle);
            covers(&turn);
            for (count, (_, meets)) in counts.iter_mut().zip(MET) {
                *count += usize::from(meets(&turn));
            }
        }
    }
    for (count, (name, _)) in counts.iter().zip(MET) {
        assert!(*count >= 50, "only {count}: {name}");
    }
}

/// Why it stops at an aborted fetch in any unit, be it one that does not drive.
/// Segment 1 is read-only in the tighter board alone; the write to it is a
/// violation there. The fetch is then aborted, and its violation is the wider
/// board's alone.
#[test]
fn past_an_aborted_fetch_the_wider_board_may_suppress_alone() {
    let mut wider = Units::power_on(2);
    wider.places[0].unit = unit(TRANSLATES, 1, (0x1000, 0xFF, 0));
    wider.places[0].unit.table[2] = segment(0xFF, CPUI);
    let mut tighter = wider.clone();
    tighter.places[0].unit.table[1].attributes = RD;
    let mut boards = [tighter, wider];
    let fetch = Cycle {
        status: 0xD,
        ..read(2, 0)
    };
    let turns = [write(1, 0), fetch].map(|cycle| {
        let cycle = BoardCycle { cycle, selects: 0 };
        let stops = boards.each_ref().map(|board| aborted(board, &cycle));
        (stops, step(&mut boards, cycle))
    });
    let suppressed = turns
        .each_ref()
        .map(|(_, turn)| turn.answers.map(|one| one.answer.sup));
    assert_eq!(suppressed, [[true, false], [false, true]]);
    assert_eq!(
        turns.map(|(stops, _)| stops),
        [[false, false], [true, false]]
    );
}
