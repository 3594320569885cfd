//! The board that the benchmark times against the plain one: on its own input,
//! and on the generated scripts' hand-made units.

use witness::board::{Board, BoardCycle, Units};
use witness::board_script::play;
use witness::cycle::Kind;
use witness::generate::board_mixes::input;
use witness::generate::boards::scripts;
use witness::generate::mixes::NAMES;
use witness::packed_board::{self, pack_board, records, step, BYTES, RECORD, RECORDS};
use witness::step::{Class, Step};
use witness::unit::Unit;
use witness::Document01;

/// The answers of the plain board, packed.
fn plain(input: &[u8]) -> Vec<u8> {
    let mut units = Units::power_on(input[0]);
    let answers = records(input).flat_map(|(cycle, selects)| {
        pack_board(&Document01::board_step(
            &mut units,
            &BoardCycle { cycle, selects },
        ))
    });
    answers.collect()
}

fn timed(input: &[u8]) -> Vec<u8> {
    let mut answers = vec![0xAA; BYTES * records(input).len()];
    packed_board::run(input, &mut answers);
    answers
}

#[test]
fn the_timed_board_agrees_with_the_plain_one_on_every_mix() {
    for units in [1, 4, 16] {
        for (mix, name) in NAMES.iter().enumerate() {
            let input = input(mix, units, 7);
            assert_eq!(input.len(), 1 + RECORD * RECORDS);
            assert!(timed(&input) == plain(&input), "{name} {units}");
        }
    }
}

/// A count that no board has, and records of which the last is cut.
#[test]
fn the_timed_board_agrees_with_the_plain_one_on_any_count_and_length() {
    for count in [0, 1, 2, 3, 15, 16, 17, 255] {
        let mut input = input(4, 16, u64::from(count));
        input[0] = count;
        input.truncate(1 + 100 * RECORD + usize::from(count) % RECORD);
        assert_eq!(records(&input).len(), 100);
        assert!(timed(&input) == plain(&input), "{count}");
    }
    assert_eq!(timed(&[]), []);
    assert_eq!(timed(&[1]), []);
}

/// Damaged units too; one with strange notes is no unit of the timed board.
#[test]
fn the_timed_board_agrees_with_the_plain_one_on_hand_made_units() {
    let mut compared = 0;
    for script in scripts(11) {
        let mut both = |units: &mut Units, cycle: &BoardCycle| {
            let places = units.places.iter().take(usize::from(units.count));
            let strange = places.clone().any(|place| place.strange);
            let mut row: Vec<Unit> = places.map(|place| place.unit.clone()).collect();
            row.resize(usize::from(units.count), Unit::power_on());
            let answer = Document01::board_step(units, cycle);
            if !strange {
                assert_eq!(
                    step(&mut row, &cycle.cycle, cycle.selects),
                    answer,
                    "{cycle:?}"
                );
                assert!(row
                    .iter()
                    .zip(&units.places)
                    .all(|(unit, place)| *unit == place.unit));
                compared += 1;
            }
            answer
        };
        play(script.as_bytes(), &mut both);
    }
    assert!(compared > 5_000, "only {compared}");
}

/// Except in noise, a board is set up as a real one is: exactly one unit drives
/// nearly every memory cycle. A single unit has one range, where others have two.
#[test]
fn in_every_mix_but_noise_one_unit_drives() {
    for units in [1, 4, 16] {
        for (mix, name) in NAMES
            .iter()
            .enumerate()
            .filter(|(_, name)| **name != "noise")
        {
            let input = input(mix, units, 1);
            let answers = timed(&input);
            let turns = records(&input).zip(answers.chunks(BYTES));
            let programmed = turns.skip(260 * units.div_ceil(2) + units);
            let memory =
                programmed.filter(|((cycle, _), _)| Document01::class(cycle) == Class::Memory);
            let (mut all, mut driven) = (0, 0);
            for (_, answer) in memory {
                assert_ne!(answer[1], 12, "{name} {units}");
                all += 1;
                driven += usize::from(answer[7] != 0xFF);
            }
            let least = if units == 1 { 80 } else { 99 };
            assert!(
                driven * 100 >= all * least,
                "{name} {units}: {driven} of {all}"
            );
        }
    }
}

/// What the eighth byte says of named units.
#[test]
fn the_eighth_byte_is_the_unit_or_255() {
    let input = input(3, 4, 1);
    let mut units = Units::power_on(4);
    for ((cycle, selects), packed) in records(&input).zip(timed(&input).chunks(BYTES)) {
        let answer = Document01::board_step(&mut units, &BoardCycle { cycle, selects });
        let named =
            matches!(answer.answer.kind, Kind::Refused(1..=4)) || answer.answer.address.is_some();
        assert_eq!(packed[7] != 0xFF, named);
        assert!(packed[7] < 4 || packed[7] == 0xFF);
    }
}
