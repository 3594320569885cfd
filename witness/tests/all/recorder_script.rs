//! Recorder scripts: what is echoed, what is printed, what is a wrong line.

use witness::board_script::LONGEST;
use witness::{recorder_script, Document01};

fn run(script: &str) -> String {
    let text = recorder_script::run::<Document01>(script.as_bytes());
    String::from_utf8(text).expect("what is printed is text")
}

#[test]
fn calls_print_what_they_give_the_count_and_what_changed() {
    let script = "B 000B AA\nS\nC 0D 03 05 15 99 00\nC 0D 03 05 15 99 00\nC 10 00 00 00 00 00\nT\n";
    let text = "0 0000000000000000 0000=4D 0001=42 0002=54 0003=00 0004=01 0005=00 0006=00\n\
                0 0000000000000001 0006=01 0007=3D 0008=05 0009=15 000A=00\n\
                10 0000000000000001\n1 0000000000000001\nMBT 1 1\n0 I ---- 0 0 -- 0\n";
    assert_eq!(run(script), text);
}

#[test]
fn a_script_starts_with_no_bytes_and_the_count_0() {
    assert_eq!(
        run("T\nS\nC 00 00 00 00 00 00\nP 0000 4D\nT\n"),
        "X5\n10 0000000000000000\n10 0000000000000000\nX5\n"
    );
}

#[test]
fn counts_have_64_bits_and_the_start_gives_0() {
    let script =
        "B 0007 00\nN FFFFFFFFFFFFFFFF\nC 00 00 00 00 00 00\nT\nS\nN fffffffffffffffe\nT\n";
    let text = "7 FFFFFFFFFFFFFFFF\nX5\n\
                0 0000000000000000 0000=4D 0001=42 0002=54 0004=01\nMBT 1 0\n";
    assert_eq!(run(script), text);
}

/// Bytes put in by the script show as changed only by the call that changes them;
/// one past the buffer's end goes nowhere.
#[test]
fn bytes_are_put_within_the_buffer() {
    let script =
        "B 000C 00\nS\nP 0000 58\nP 000B 77\nP 000C 77\nP FFFF 77\nT\nC 00 00 00 00 00 00\n\
                  N 0000000000000002\nT\n";
    let text = "0 0000000000000000 0000=4D 0001=42 0002=54 0004=01\nX5\n\
                0 0000000000000001 0000=4D 0006=01\nX8\n";
    assert_eq!(run(script), text);
}

/// A buffer makes the count 0, and a trace ends where the count says.
#[test]
fn the_text_is_of_the_trace_alone() {
    let script =
        "B 0014 00\nS\nC 08 00 00 00 00 00\nC 08 00 00 00 00 00\nT\nN 0000000000000001\nT\n\
                  N 0000000000000003\nT\nB 0014 00\nT\n";
    let text = run(script);
    let printed: Vec<&str> = text.lines().filter(|line| !line.contains('=')).collect();
    let record = |number: usize| format!("{number} I ---- 0 0 -- 0");
    let (first, second) = (record(0), record(1));
    assert_eq!(
        printed,
        ["MBT 1 2", &first, &second, "X8", "X8", "X5"],
        "{text}"
    );
}

#[test]
fn comments_and_blanks_are_echoed_and_wrong_lines_marked() {
    let wrong = [
        "B",
        "B 0007",
        "B 007 00",
        "B 0007 0",
        "B 0007 00 ",
        "B 0007  00",
        "B 10000 00",
        "P 0000",
        "P 0000 +1",
        "P 0000 00 00",
        "N",
        "N 0",
        "N 00000000000000000",
        "N 000000000000000G",
        "N +000000000000000",
        "S ",
        " S",
        "s",
        "S S",
        "T ",
        "TT",
        "t",
        "C",
        "C 00 00 00 00 00",
        "C 00 00 00 00 00 00 00",
        "C 00 00 00 00 00 0x",
        "U 00",
        "X",
        "\r",
        "S\r",
    ];
    for line in wrong {
        assert_eq!(run(&format!("# a\n\n{line}\n")), "# a\n\n?\n", "{line:?}");
    }
    let odd = recorder_script::run::<Document01>(b"S\xFF\n\xFF\nS");
    assert_eq!(odd, b"?\n?\n10 0000000000000000\n");
}

#[test]
fn no_more_than_65536_bytes_are_read() {
    let mut script = "#\n".repeat(LONGEST / 2);
    script += "S\n";
    assert_eq!(run(&script).len(), LONGEST);
}
