//! Step scripts: what is echoed, what is printed, what is a wrong line.

use witness::{script, Document01};

fn run(text: &str) -> String {
    script::run::<Document01>(text)
}

#[test]
fn comments_and_blanks_are_echoed_and_wrong_lines_marked() {
    let script = "# a story\n\nU\nD 40 0000 00 00\nC 00 00 00 00 00\nC 00 00 00 00 00 +1\nX\n";
    assert_eq!(run(script), "# a story\n\n?\n?\n?\n?\n?\n");
}

/// The forms without a low byte, and one byte too many.
#[test]
fn a_line_has_all_its_bytes_and_no_more() {
    let script = "U C0 05 00 00 00 00 00 00 00 00\nU C0 05 00 00 00 00 00 00 00 00 00 00\n\
                  C 08 01 01 10 00\nC 08 01 01 10 00 00 00\n";
    assert_eq!(run(script), "?\n?\n?\n?\n");
}

#[test]
fn a_cycle_prints_answer_registers_and_descriptor() {
    let script = "U C0 05 00 00 00 00 00 00 00 00 5A\nD 01 2311 10 01\n\
                  C 08 01 01 05 80 00\nC 08 02 01 15 FE 00\n";
    let text = "T 2316 0 0 -- 11 | C0 05 00 00 00 00 00 00 00 00 5A | 01 2311 10 81\n\
                T 2326 1 1 -- 0 | C0 05 00 05 01 15 28 00 00 0F FE | 01 2311 10 81\n";
    assert_eq!(run(script), text);
}

/// The low byte stands between offset byte and data byte.
#[test]
fn a_command_shows_the_descriptor_at_sar_before_it() {
    let script = "U 00 3F 03 00 00 00 00 00 00 00 01\nC 03 08 80 0F C3 A5\nC 03 08 00 0F C3 A5\n";
    let text = "X1 ---- 0 0 -- 0 | 00 3F 03 00 00 00 00 00 00 00 01 | 3F 0000 00 00\n\
                C ---- 0 0 -- 0 | 00 00 00 00 00 00 00 00 00 00 01 | 3F 0000 00 A5\n";
    assert_eq!(run(script), text);
}

#[test]
fn a_script_starts_at_power_on() {
    let text = "I ---- 0 0 -- 0 | 00 00 00 00 00 00 00 00 00 00 00 | 02 0000 00 00\n";
    assert_eq!(run("C 08 00 02 01 FF 00\n"), text);
}

#[test]
fn an_orphan_is_refused_and_stays_and_a_primary_flag_makes_none() {
    let script = "U C0 00 00 80 00 00 00 00 00 00 00\nC 08 00 02 01 00 00\nC 00 18 02 00 00 00\n\
                  U C0 00 00 40 00 00 00 00 00 0F 00\nC 03 08 00 11 00 00\n\
                  U C0 00 00 81 00 00 00 00 00 00 00\nC 08 00 02 01 00 00\n";
    let text = "X2 ---- 0 0 -- 0 | C0 00 00 80 00 00 00 00 00 00 00 | 02 0000 00 00\n\
                X2 ---- 0 0 -- 0 | C0 00 00 80 00 00 00 00 00 00 00 | 02 0000 00 00\n\
                X2 ---- 0 1 -- 0 | C0 00 00 40 00 00 00 00 00 0F 00 | 00 0000 00 00\n\
                T 0001 1 0 -- 0 | C0 00 00 81 00 00 00 00 00 08 00 | 02 0000 00 00\n";
    assert_eq!(run(script), text);
}
