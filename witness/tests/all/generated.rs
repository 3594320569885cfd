//! What every generated file and script must be, and what the witness keeps
//! true from power-on.

use witness::coverage::Table;
use witness::generate::{file, steps};
use witness::step::Step;
use witness::trace::Layout;
use witness::unit::{violation, Unit};
use witness::{script, Document01};

#[test]
fn every_third_file_is_refused_and_no_other() {
    for number in 0..60 {
        let good = Document01::count(&file(7, number)).is_ok();
        assert_eq!(good, number % 3 != 2, "file {number}");
    }
}

#[test]
fn a_seed_names_a_file_for_good() {
    assert_eq!(file(7, 10), file(7, 10));
    assert_ne!(file(7, 10), file(8, 10));
}

#[test]
fn no_line_of_a_generated_script_is_wrong() {
    let text = script::run::<Document01>(&steps::script(7, 120));
    assert!(!text.lines().any(|line| line == "?"));
}

/// The proved program that is compared reads no more.
#[test]
fn every_script_is_shorter_than_65536_bytes() {
    assert!(steps::scripts(7).all(|script| script.len() < 65_536));
}

#[test]
fn a_case_has_a_unit_of_its_kind() {
    for case in steps::cases(7, 600) {
        let text = script::run::<Document01>(&case);
        let (head, answers) = text.split_once('\n').expect("a case has a head");
        let mut damaged = answers.lines().map(|answer| answer.starts_with("X2 "));
        match head.rsplit(' ').next() {
            Some("orphan" | "damaged") => assert!(damaged.all(|damaged| damaged), "{head}"),
            Some("any") => (),
            _ => assert!(!damaged.any(|damaged| damaged), "{head}"),
        }
    }
}

/// The rows that the coverage table holds to be out of reach rest on this.
#[test]
fn from_power_on_no_orphan_and_no_damage() {
    for number in (0..90).filter(|number| number % 3 != 2) {
        let mut unit = Unit::power_on();
        for cycle in Document01::cycles(&file(7, number)) {
            Document01::step(&mut unit, &cycle);
            assert!(!Document01::damaged(&unit));
            assert!(unit.vtr == 0 || unit.vtr & violation::PRIMARY != 0);
            assert!(!unit.own || unit.awaits);
            assert!(!unit.awaits || unit.request);
        }
    }
}

#[test]
fn every_row_is_met_in_a_small_set() {
    let mut table = Table::new();
    for number in 0..600 {
        table.add(&file(7, number));
    }
    let least = table.least().expect("the table has rows");
    assert!(least.count > 0, "never met: {}", least.name);
}
