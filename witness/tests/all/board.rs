//! The sentences of ticket 3, worked out by hand as board scripts: what is
//! printed of each cycle, and of each unit that it changes.

use witness::board_script::{run, LONGEST};
use witness::Document01;

/// Units of the lower and the upper range; descriptor 1 of each is open, the
/// second unit's descriptor 2 is read-only.
const TWO: &str = "B 02\n\
    U 00 C1 00 00 00 00 00 00 00 00 00 00\nD 00 01 2300 10 00\n\
    U 01 E4 00 00 00 00 00 00 00 00 00 00\nD 01 01 4500 20 00\nD 01 02 6700 FF 01\n";

fn text(script: &str) -> String {
    String::from_utf8(run::<Document01>(script.as_bytes())).unwrap()
}

/// A board and its cycles, each with the lines that it prints.
fn prints(board: &str, rows: &[(&str, &[&str])]) {
    let mut script = board.to_string();
    let mut expected = String::new();
    for (cycle, lines) in rows {
        script += &format!("C {cycle}\n");
        expected += &lines.join("\n");
        expected.push('\n');
    }
    assert_eq!(text(&script), expected);
}

#[test]
fn a_cycle_goes_to_all_and_the_answer_names_the_unit_that_drives() {
    let rows: &[(&str, &[&str])] = &[
        (
            "08 01 01 05 00 00 0000",
            &[
                "T 2305 0 0 -- 11 | 00",
                "00 | C1 00 00 00 00 00 00 00 00 00 00 | 01 2300 10 80",
            ],
        ),
        (
            "08 00 41 06 00 00 0000",
            &[
                "T 4506 0 0 -- 26 | 01",
                "01 | E4 00 00 00 00 00 00 00 00 00 00 | 01 4500 20 C0",
            ],
        ),
        ("08 01 01 05 00 00 FFFF", &["T 2305 0 0 -- 11 | 00"]),
        ("07 01 01 05 00 00 FFFF", &["I ---- 0 0 -- 0 | --"]),
    ];
    prints(TWO, rows);
}

/// A violation in unit 1; SUP lasts in unit 0's cycles too, which sets its marks
/// all the same. The next fetch is aborted in unit 1 and an ordinary one in unit
/// 0, which stores its address. Then a request of unit 0's own, and both lines.
#[test]
fn units_share_nothing_but_the_cycle() {
    let rows: &[(&str, &[&str])] = &[
        (
            "08 00 42 07 5A 00 0000",
            &[
                "T 6707 1 1 -- 248 | 01",
                "01 | E4 00 00 01 42 07 08 00 00 0F 5A",
            ],
        ),
        (
            "08 01 01 05 00 00 0000",
            &[
                "T 2305 1 1 -- 11 | 00",
                "00 | C1 00 00 00 00 00 00 00 00 00 00 | 01 2300 10 80",
            ],
        ),
        ("08 05 01 05 00 00 0000", &["T 2305 0 1 -- 11 | 00"]),
        (
            "0D 01 01 03 00 00 0000",
            &[
                "T 2303 0 1 -- 13 | 00",
                "00 | C1 00 00 00 00 00 00 01 03 00 00",
                "01 | E4 00 00 01 42 07 08 00 00 01 5A",
            ],
        ),
        (
            "08 01 01 11 00 00 0000",
            &[
                "T 2311 1 1 -- 0 | 00",
                "00 | C1 00 00 04 01 11 18 01 03 0F 00",
            ],
        ),
        (
            "04 01 00 00 00 00 0000",
            &[
                "A ---- 0 0 12 0 | --",
                "00 | C1 00 00 04 01 11 18 01 03 00 00",
                "01 | E4 00 00 01 42 07 08 00 00 00 5A",
            ],
        ),
        ("04 01 00 00 00 00 0000", &["A ---- 0 0 00 0 | --"]),
    ];
    prints(TWO, rows);
}

/// Await stands in both; nobody drives, unit 0 passes, and unit 1 aborts.
#[test]
fn an_aborted_fetch_is_each_units_own() {
    let quiet = "0D 01 01 05 00 00 0000";
    let none =
        "B 02\nU 00 00 00 00 00 00 00 00 00 00 02 00\nU 01 00 00 00 00 00 00 00 00 00 0C 00\n";
    let ended = "00 | 00 00 00 00 00 00 00 00 00 00 00";
    let started = "01 | 00 00 00 00 00 00 00 00 00 00 00";
    prints(
        none,
        &[
            (quiet, &["F ---- 0 0 -- 0 | --", ended, started]),
            (quiet, &["I ---- 0 0 -- 0 | --"]),
        ],
    );
    let passed =
        "B 02\nU 00 80 00 00 00 00 00 00 00 00 00 00\nU 01 00 00 00 00 00 00 00 00 00 02 00\n";
    prints(passed, &[(quiet, &["P 0105 0 0 -- 0 | 00", started])]);
    let aborted = "B 02\nU 00 00 00 00 00 00 00 00 00 00 00 00\n\
        U 01 C0 00 00 00 00 00 00 00 00 02 00\nD 01 01 2300 FF 00\n";
    let driver = "01 | C0 00 00 00 00 00 00 00 00 00 00";
    prints(aborted, &[(quiet, &["F 2305 0 0 -- 0 | 01", driver])]);
}

/// IDs 1, 4 and 4 again, and 6 of a unit that is off. A low line is driven by the
/// last, and unit 0's own select bit means nothing.
#[test]
fn acknowledge_lines_are_joined() {
    let board =
        "B 05\nU 00 81 00 00 00 00 00 00 00 00 01 00\nU 01 84 00 00 00 00 00 00 00 00 01 00\n\
        U 02 84 00 00 00 00 00 00 00 00 01 00\nU 03 06 00 00 00 00 00 00 00 00 0B 00\n\
        U 04 87 00 00 00 00 00 00 00 00 0C 00\n";
    let line =
        |number: usize, mr: &str| format!("{number:02X} | {mr} 00 00 00 00 00 00 00 00 00 00");
    let after: Vec<String> = ["81", "84", "84", "06", "87"]
        .iter()
        .enumerate()
        .map(|(number, mr)| line(number, mr))
        .collect();
    let mut lines = vec!["A ---- 0 0 12 0 | --"];
    lines.extend(after.iter().map(String::as_str));
    prints(board, &[("04 00 00 00 00 00 0000", &lines)]);
    let off = "B 02\nU 00 01 00 00 00 00 00 00 00 00 00 00\n";
    prints(
        off,
        &[("04 00 00 00 00 00 FFFF", &["A ---- 0 0 -- 0 | --"])],
    );
}

#[test]
fn a_command_may_write_several_units_and_read_only_one() {
    let rows: &[(&str, &[&str])] = &[
        (
            "03 00 00 01 00 FF 0003",
            &[
                "C ---- 0 0 -- 0 | --",
                "00 | C1 3F 00 00 00 00 00 00 00 00 00",
                "01 | E4 3F 00 00 00 00 00 00 00 00 00",
            ],
        ),
        ("03 01 00 01 00 00 0003", &["X13 ---- 0 0 -- 0 | --"]),
        ("03 01 00 00 00 00 0002", &["C ---- 0 0 E4 0 | --"]),
        ("03 01 00 00 00 00 FFFD", &["C ---- 0 0 C1 0 | --"]),
        ("03 09 00 00 00 00 0000", &["I ---- 0 0 -- 0 | --"]),
        // Past the count alone: ignored, whatever the code.
        ("03 01 00 00 00 00 FFFC", &["I ---- 0 0 -- 0 | --"]),
        ("03 00 00 12 00 00 FFFC", &["I ---- 0 0 -- 0 | --"]),
        ("03 05 00 00 00 00 0003", &["I ---- 0 0 -- 0 | --"]),
        ("04 01 00 00 00 00 0003", &["A ---- 0 0 00 0 | --"]),
    ];
    prints(TWO, rows);
}

/// 3 and 4 come before 13, and so does 2; they name the lowest selected unit.
#[test]
fn a_units_own_refusal_comes_before_13() {
    let rows: &[(&str, &[&str])] = &[
        ("03 01 00 12 00 00 0003", &["X3 ---- 0 0 -- 0 | 00"]),
        ("03 01 00 12 00 00 0002", &["X3 ---- 0 0 -- 0 | 01"]),
        ("03 01 00 11 00 00 0003", &["X4 ---- 0 0 -- 0 | 00"]),
        ("03 01 80 11 00 00 0002", &["X1 ---- 0 0 -- 0 | 00"]),
        ("10 00 00 00 00 00 0000", &["X1 ---- 0 0 -- 0 | 00"]),
    ];
    prints(TWO, rows);
    let damaged = &TWO.replace("U 01 E4 00", "U 01 E4 40");
    let rows: &[(&str, &[&str])] = &[
        ("03 01 00 00 00 00 0003", &["X2 ---- 0 0 -- 0 | 01"]),
        // Lowest unit first, whatever the numbers.
        ("03 00 00 02 00 00 0003", &["X4 ---- 0 0 -- 0 | 00"]),
        ("03 00 00 02 00 00 0002", &["X2 ---- 0 0 -- 0 | 01"]),
        ("0E 00 80 00 00 00 0000", &["X1 ---- 0 0 -- 0 | 00"]),
        ("0E 10 00 00 00 00 0003", &["X2 ---- 0 0 -- 0 | 01"]),
        ("08 01 01 05 00 00 0000", &["X2 ---- 0 0 -- 0 | 01"]),
    ];
    prints(damaged, rows);
    let first = &damaged.replace("U 00 C1 00 00 00", "U 00 C1 00 00 80");
    prints(
        first,
        &[("0E 00 80 00 00 00 0000", &["X2 ---- 0 0 -- 0 | 00"])],
    );
}

/// One board for each way to drive; the last two do not collide.
#[test]
fn two_units_that_would_drive_are_12() {
    let twelve: &[&str] = &["X12 ---- 0 0 -- 0 | --"];
    let board = |one: &str, other: &str| {
        let line =
            |number: &str, mr: &str| format!("U {number} {mr} 00 00 00 00 00 00 00 00 00 00\n");
        format!("B 02\n{}{}", line("00", one), line("01", other))
    };
    for (one, other) in [
        ("C0", "C0"),
        ("80", "C0"),
        ("80", "A7"),
        ("C0", "D0"),
        ("D8", "98"),
    ] {
        let system = one != "D8";
        let cycle = if system {
            "08 01 01 05 00 00 0000"
        } else {
            "08 03 01 05 00 00 0000"
        };
        prints(&board(one, other), &[(cycle, twelve)]);
    }
    // In the other mode, in the other range, and as no memory cycle.
    let read: &[&str] = &["I ---- 0 0 -- 0 | --"];
    prints(&board("D0", "D0"), &[("08 03 01 05 00 00 0000", read)]);
    prints(&board("C0", "C0"), &[("08 01 41 05 00 00 0000", read)]);
    prints(&board("C0", "C0"), &[("0E 01 01 05 00 00 0000", read)]);
}

/// For DMA, for a fetch that one of them aborts, and beside others' refusals.
#[test]
fn aborted_fetches_and_dma_collide_too_and_other_refusals_come_first() {
    let board =
        "B 02\nU 00 C0 00 00 00 00 00 00 00 00 03 00\nU 01 80 00 00 00 00 00 00 00 00 00 00\n";
    let rows: &[(&str, &[&str])] = &[
        ("0D 01 01 05 00 00 0000", &["X12 ---- 0 1 -- 0 | --"]),
        ("08 05 01 05 00 00 0000", &["X12 ---- 0 1 -- 0 | --"]),
        ("08 01 81 05 00 00 0000", &["X1 ---- 0 1 -- 0 | 00"]),
        (
            "08 11 01 05 00 00 0001",
            &[
                "R ---- 0 0 -- 0 | --",
                "00 | 80 00 00 00 00 00 00 00 00 00 00",
                "01 | 00 00 00 00 00 00 00 00 00 00 00",
            ],
        ),
        ("08 01 01 05 00 00 0000", &["P 0105 0 0 -- 0 | 00"]),
    ];
    prints(board, rows);
}

/// Selects past the count are looked at by nothing.
#[test]
fn a_reset_with_several_selects_is_not_refused() {
    let both: &[&str] = &[
        "R ---- 0 0 -- 0 | --",
        "00 | 80 00 00 00 00 00 00 00 00 00 00",
        "01 | 80 00 00 00 00 00 00 00 00 00 00",
    ];
    prints(TWO, &[("03 11 00 00 00 00 FFFF", both)]);
    let one: &[&str] = &[
        "R ---- 0 0 -- 0 | --",
        "00 | 00 00 00 00 00 00 00 00 00 00 00",
        "01 | 80 00 00 00 00 00 00 00 00 00 00",
    ];
    prints(TWO, &[("03 19 00 00 00 00 FFFE", one)]);
}

/// 11 comes first, and shows the trap line off.
#[test]
fn a_count_that_no_board_has_is_11() {
    for count in (0..=0xFF_u8).filter(|count| !(1..=16).contains(count)) {
        let board = format!("B {count:02X}\nU 00 C0 40 00 00 00 00 00 00 00 01 00\n");
        let rows: &[(&str, &[&str])] = &[
            ("08 01 01 05 00 00 0000", &["X11 ---- 0 0 -- 0 | --"]),
            ("03 01 80 12 00 00 FFFF", &["X11 ---- 0 0 -- 0 | --"]),
        ];
        prints(&board, rows);
    }
    for count in 1..=16 {
        let board = format!("B {count:02X}\n");
        prints(
            &board,
            &[("08 01 01 05 00 00 0000", &["I ---- 0 0 -- 0 | --"])],
        );
    }
}

/// Damage past the count is looked at by nothing, and no request there shows.
#[test]
fn units_past_the_count_are_not_looked_at() {
    let past = "U 02 C0 FF 00 00 00 00 00 00 00 FF 00\nU 0F C0 00 00 00 00 00 00 00 00 0F 00\n";
    let board = format!("{TWO}{past}");
    let rows: &[(&str, &[&str])] = &[
        ("07 01 01 05 00 00 FFFF", &["I ---- 0 0 -- 0 | --"]),
        ("03 01 00 00 00 00 8005", &["C ---- 0 0 C1 0 | --"]),
        ("03 01 00 12 00 00 0001", &["X3 ---- 0 0 -- 0 | 00"]),
        ("04 01 00 00 00 00 0000", &["A ---- 0 0 00 0 | --"]),
    ];
    prints(&board, rows);
}

/// The request of such a unit is bit 0 of what was given.
#[test]
fn notes_that_no_unit_has_are_damage() {
    for (notes, request) in [("10", 0), ("11", 1), ("80", 0), ("FF", 1), ("20", 0)] {
        let board = format!("B 02\nU 01 00 00 00 00 00 00 00 00 00 {notes} 00\n");
        let lines = [format!("X2 ---- 0 {request} -- 0 | 01")];
        let lines: Vec<&str> = lines.iter().map(String::as_str).collect();
        prints(&board, &[("08 01 01 05 00 00 0000", &lines)]);
    }
}

#[test]
fn the_trap_line_after_a_refusal_is_any_units() {
    let board =
        "B 03\nU 00 C0 00 00 00 00 00 00 00 00 00 00\nU 01 C0 00 00 00 00 00 00 00 00 00 00\n\
        U 02 00 00 00 00 00 00 00 00 00 01 00\n";
    let rows: &[(&str, &[&str])] = &[
        ("08 01 01 05 00 00 0000", &["X12 ---- 0 1 -- 0 | --"]),
        ("03 01 00 00 00 00 0003", &["X13 ---- 0 1 -- 0 | --"]),
        ("03 01 00 12 00 00 0001", &["X3 ---- 0 1 -- 0 | 00"]),
        ("FF 01 00 12 00 00 0001", &["X1 ---- 0 1 -- 0 | 00"]),
    ];
    prints(board, rows);
}

#[test]
fn lines_of_no_form_print_a_question_mark() {
    let wrong = [
        "B 1",
        "B 001",
        "B",
        "B 0G",
        "B 01 ",
        "b 01",
        "U 10 00 00 00 00 00 00 00 00 00 00 00",
        "U 00 00 00 00 00 00 00 00 00 00 00",
        "U 00 00 00 00 00 00 00 00 00 00 00 00 00",
        "U 00 00 00 00 00 00 00 00 00 00 00 0",
        "D 00 40 0000 00 00",
        "D 10 00 0000 00 00",
        "D 00 00 000 00 00",
        "D 00 00 0000 00",
        "D 00 00 0000 00 00 00",
        "C 08 01 01 05 00 00",
        "C 08 01 01 05 00 00 000",
        "C 08 01 01 05 00 00 00000",
        "C 08 01 01 05 00 00 +000",
        "C  08 01 01 05 00 00 0000",
        "C 08 01 01 05 00 00 0000 ",
        " # no",
        "E",
        "C",
    ];
    for line in wrong {
        assert_eq!(text(&format!("{line}\n")), "?\n", "{line}");
        assert_eq!(text(line), "?\n", "{line}");
    }
    assert_eq!(text("# a\n\n#\nB 03\nd\n"), "# a\n\n#\n?\n");
    assert_eq!(
        text("C 0e 1f 7f Ff fF aB fFfF"),
        "R ---- 0 0 -- 0 | --\n00 | 80 00 00 00 00 00 00 00 00 00 00\n"
    );
    // An echoed line is as it was, whatever its bytes.
    assert_eq!(run::<Document01>(b"#\xFF\n\xFF\n"), b"#\xFF\n?\n");
}

/// Power-on clears what was there, past the new count as well.
#[test]
fn a_board_starts_with_one_unit_at_power_on_and_each_b_line_starts_anew() {
    let cycle = "C 03 00 00 00 00 C0 FFFF\n";
    let one = "C ---- 0 0 -- 0 | --\n00 | C0 00 00 00 00 00 00 00 00 00 00\n";
    assert_eq!(text(cycle), one);
    assert_eq!(
        text(&format!("{cycle}{cycle}B 01\n{cycle}")),
        format!("{one}C ---- 0 0 -- 0 | --\n{one}")
    );
}

#[test]
fn what_is_past_the_longest_script_is_left() {
    let mut script = b"#\n".repeat(LONGEST / 2);
    script.extend(b"#\n");
    assert_eq!(run::<Document01>(&script).len(), LONGEST);
}
