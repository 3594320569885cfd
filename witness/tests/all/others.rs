//! Other people's segments, ticket 12: pairs of units that differ in nothing
//! but descriptors outside a set. Cycles that keep the ticket's conditions show
//! no difference; where one condition is broken and no other, some cycle does.

use witness::commands::code::{BASE, RESET, SET_CPUI, SET_DMAI, WHOLE_STEPPING};
use witness::cycle::{Answer, Cycle, Kind};
use witness::generate::random::Random;
use witness::text::Text;
use witness::unit::{violation, Descriptor, Unit};
use witness::Document01;

use crate::pairs::{busy, every_turn, is, obeys, translates, Pair, Turn, Wanted, CYCLES, PAIRS};

/// An aborted fetch, of a cycle that is not refused.
pub fn aborted(unit: &Unit, cycle: &Cycle) -> bool {
    unit.awaits && cycle.status == 0xD && cycle.read && !cycle.dma
}

/// A selected command %08 to %0F, either way.
pub fn takes_descriptor(cycle: &Cycle) -> bool {
    let obeyed = !cycle.reset && !cycle.dma && cycle.select && cycle.segment <= 127;
    obeyed && cycle.status == 0x3 && matches!(cycle.offset, BASE..=WHOLE_STEPPING)
}

/// What runs must meet often, or they would say nothing. A pair is as it stands
/// after the cycle.
const USUAL: &[Wanted] = &[
    ("none inside", |pair, _| pair.inside.is_empty()),
    ("all inside", |pair, _| pair.inside.len() == 64),
    ("translated", |_, turn| is(turn, Kind::Translated)),
    ("translated for DMA", |_, turn| {
        is(turn, Kind::Translated) && turn.cycle.dma
    }),
    ("translated in a pair that differs", |pair, turn| {
        is(turn, Kind::Translated) && pair.units[0] != pair.units[1]
    }),
    (
        "distance other than 0 in a pair that differs",
        |pair, turn| turn.answers[0].distance != 0 && pair.units[0] != pair.units[1],
    ),
    ("marked", |pair, turn| {
        is(turn, Kind::Translated) && pair.units[0].table != turn.before.table
    }),
    ("suppressed", |_, turn| turn.answers[0].sup),
    ("DMA suppressed", |_, turn| {
        turn.answers[0].sup && turn.cycle.dma
    }),
    ("warned", |pair, turn| sets(pair, turn, violation::PWW)),
    ("warned again", |pair, turn| {
        sets(pair, turn, violation::SWW)
    }),
    ("fatal", |pair, turn| sets(pair, turn, violation::FATL)),
    ("instruction stored", |pair, turn| {
        pair.units[0].isn != turn.before.isn
    }),
    ("aborted fetch at a descriptor", |_, turn| {
        is(turn, Kind::AbortedFetch) && translates(&turn.before, &turn.cycle)
    }),
    ("passed", |_, turn| is(turn, Kind::Passed)),
    ("memory cycle outside", |pair, turn| {
        matches!(turn.cycle.status, 0x8..=0xD) && !pair.has(turn.cycle.segment)
    }),
    ("ignored", |_, turn| is(turn, Kind::Ignored)),
    ("reset", |_, turn| is(turn, Kind::Reset)),
    ("acknowledge", |_, turn| is(turn, Kind::Acknowledge)),
    ("software reset", |_, turn| obeys(turn, RESET)),
    ("set all CPUI", |_, turn| obeys(turn, SET_CPUI)),
    ("set all DMAI", |_, turn| obeys(turn, SET_DMAI)),
    ("refusal 1", |_, turn| is(turn, Kind::Refused(1))),
    ("refusal 3", |_, turn| is(turn, Kind::Refused(3))),
    ("refusal 4", |_, turn| is(turn, Kind::Refused(4))),
];

/// The same of runs with descriptor commands.
const DESCRIPTOR_BYTES: &[Wanted] = &[
    ("descriptor write inside", |pair, turn| {
        takes_descriptor(&turn.cycle) && turn.cycle.write() && pair.has(turn.before.sar)
    }),
    ("descriptor write outside", |pair, turn| {
        takes_descriptor(&turn.cycle) && turn.cycle.write() && !pair.has(turn.before.sar)
    }),
    ("descriptor read", |_, turn| {
        takes_descriptor(&turn.cycle) && turn.cycle.read
    }),
];

fn sets(pair: &Pair, turn: &Turn, flag: u8) -> bool {
    pair.units[0].vtr & !turn.before.vtr & flag != 0
}

/// No cycle that the rule allows shows a difference.
fn nothing_shows(rule: fn(&Pair, &Cycle) -> bool, wanted: &[Wanted]) {
    let law = |pair: &Pair, turn: &Turn| turn.answers[0] == turn.answers[1] && pair.alike();
    every_turn(rule, law, wanted);
}

/// The first cycle that the units of a pair answer in two ways. Each pair is
/// changed first, with another unit to take from.
fn shows(change: impl Fn(&mut Pair, Unit), rule: impl Fn(&Pair, &Cycle) -> bool) -> Option<Turn> {
    let mut random = Random::new(12, 1);
    for _ in 0..PAIRS {
        let mut pair = Pair::new(&mut random);
        change(&mut pair, busy(&mut random));
        let mut turns = (0..CYCLES).map(|_| pair.turn(&mut random, &rule));
        let found = turns.find(|turn| turn.answers[0] != turn.answers[1]);
        if found.is_some() {
            return found;
        }
    }
    None
}

/// The ticket's conditions on a cycle.
fn ticket(pair: &Pair, cycle: &Cycle) -> bool {
    pair.looks_inside(cycle) && !takes_descriptor(cycle)
}

/// The test's own reading of the conditions against the model's.
#[test]
fn a_cycle_that_meets_the_conditions_is_translated_unless_aborted() {
    let mut random = Random::new(12, 2);
    for _ in 0..PAIRS {
        let mut pair = Pair::new(&mut random);
        pair.units[0].awaits = false;
        let turn = pair.turn(&mut random, &|_, _| true);
        let meets = translates(&turn.before, &turn.cycle);
        assert_eq!(is(&turn, Kind::Translated), meets, "{:?}", turn.cycle);
    }
}

#[test]
fn nothing_shows_under_the_conditions_of_the_ticket() {
    nothing_shows(ticket, USUAL);
}

/// More than the ticket asks: a write with %08 to %0F tells nothing wherever
/// SAR stands, and a read tells nothing while SAR stands in the set.
#[test]
fn nothing_shows_with_descriptor_writes_and_reads_inside() {
    let rule = |pair: &Pair, cycle: &Cycle| {
        let told = takes_descriptor(cycle) && cycle.read && !pair.has(pair.units[0].sar);
        pair.looks_inside(cycle) && !told
    };
    nothing_shows(rule, &[USUAL, DESCRIPTOR_BYTES].concat());
}

#[test]
fn a_translated_cycle_outside_shows() {
    let rule = |pair: &Pair, cycle: &Cycle| {
        let free = !aborted(&pair.units[0], cycle);
        (free || pair.looks_inside(cycle)) && !takes_descriptor(cycle)
    };
    let turn = shows(|_, _| (), rule).expect("a difference");
    assert!(is(&turn, Kind::Translated));
}

/// Nothing but its address, since nothing is checked.
#[test]
fn an_aborted_fetch_outside_shows() {
    let rule = |pair: &Pair, cycle: &Cycle| {
        let free = aborted(&pair.units[0], cycle);
        (free || pair.looks_inside(cycle)) && !takes_descriptor(cycle)
    };
    let turn = shows(|_, _| (), rule).expect("a difference");
    let [answer, twin] = turn.answers;
    let address = answer.address;
    assert!(is(&turn, Kind::AbortedFetch));
    assert_eq!(answer, Answer { address, ..twin });
}

#[test]
fn a_descriptor_read_outside_shows_with_each_code() {
    for code in BASE..=WHOLE_STEPPING {
        let rule = |pair: &Pair, cycle: &Cycle| {
            let outside = cycle.read && !pair.has(pair.units[0].sar);
            let read = cycle.offset == code && outside;
            pair.looks_inside(cycle) && (read || !takes_descriptor(cycle))
        };
        let turn = shows(|_, _| (), rule).expect("a difference");
        let [answer, twin] = turn.answers;
        let data = answer.data;
        assert!(obeys(&turn, code) && turn.cycle.read);
        assert_eq!(answer, Answer { data, ..twin });
    }
}

#[test]
fn each_register_and_note_shows() {
    let changes: [fn(&mut Unit, Unit); 13] = [
        |unit, from| unit.mr = from.mr,
        |unit, from| unit.sar = from.sar,
        |unit, from| unit.dscr = from.dscr,
        |unit, from| unit.vtr = from.vtr,
        |unit, from| unit.vsn = from.vsn,
        |unit, from| unit.voff = from.voff,
        |unit, from| unit.bcsr = from.bcsr,
        |unit, from| unit.isn = from.isn,
        |unit, from| unit.ioff = from.ioff,
        |unit, from| unit.request = from.request,
        |unit, from| unit.awaits = from.awaits,
        |unit, from| unit.own = from.own,
        |unit, from| unit.hold = from.hold,
    ];
    for (place, change) in changes.iter().enumerate() {
        let found = shows(|pair, from| change(&mut pair.units[1], from), ticket);
        assert!(found.is_some(), "register {place}");
    }
}

#[test]
fn each_field_of_a_descriptor_inside_shows() {
    let changes: [fn(&mut Descriptor, Descriptor); 3] = [
        |descriptor, from| descriptor.base = from.base,
        |descriptor, from| descriptor.limit = from.limit,
        |descriptor, from| descriptor.attributes = from.attributes,
    ];
    for (place, change) in changes.iter().enumerate() {
        let change = |pair: &mut Pair, from: Unit| {
            if let Some(&number) = pair.inside.first() {
                let number = usize::from(number);
                change(&mut pair.units[1].table[number], from.table[number]);
            }
        };
        assert!(shows(change, ticket).is_some(), "field {place}");
    }
}

/// Records in which two traces or two listings of one length differ.
fn differing<T: PartialEq>(one: &[T], other: &[T]) -> Vec<usize> {
    assert_eq!(one.len(), other.len());
    (0..one.len()).filter(|&n| one[n] != other[n]).collect()
}

/// The stored captures: records 1 to 4 write another user's descriptor. Only
/// records 32 to 34, which look at it, and 35, which reads the VTR that these
/// have left, tell the two apart.
#[test]
fn the_stored_captures_differ_where_the_manual_says() {
    let traces: [&[u8]; 2] = [
        include_bytes!("../../../samples/others.mbt"),
        include_bytes!("../../../samples/others-twin.mbt"),
    ];
    let [one, other] = traces.map(|trace| trace[7..].chunks(4).collect::<Vec<_>>());
    assert_eq!(differing(&one, &other), [1, 2, 3, 4]);
    let texts = traces.map(|trace| String::from_utf8(Document01::run(trace)).unwrap());
    let [one, other] = texts
        .each_ref()
        .map(|text| text.lines().skip(1).collect::<Vec<_>>());
    assert_eq!(differing(&one, &other), [32, 33, 34, 35]);
}
