//! Document 01's sample trace, byte for byte, and the text of refused ones.

use witness::packed;
use witness::text::Text;
use witness::Document01;

pub const SAMPLE: [u8; 43] = [
    0x4D, 0x42, 0x54, 0x00, 0x01, 0x00, 0x09, //
    0x83, 0x00, 0x00, 0xC0, //
    0x83, 0x00, 0x0B, 0x23, //
    0x83, 0x00, 0x0B, 0x11, //
    0x83, 0x00, 0x0B, 0x20, //
    0x83, 0x00, 0x0B, 0x01, //
    0x18, 0x00, 0x15, 0x00, //
    0x28, 0x00, 0x15, 0x00, //
    0x93, 0x00, 0x02, 0x00, //
    0x14, 0x00, 0x00, 0x00,
];

/// Document 01's text with the distances of ticket 5.
const TEXT: &str = "\
MBT 1 9
0 C ---- 0 0 -- 0
1 C ---- 0 0 -- 0
2 C ---- 0 0 -- 0
3 C ---- 0 0 -- 0
4 C ---- 0 0 -- 0
5 T 2326 0 0 -- 11
6 T 2326 1 1 -- 11
7 C ---- 0 1 01 0
8 A ---- 0 0 01 0
";

fn run(trace: &[u8]) -> String {
    String::from_utf8(Document01::run(trace)).unwrap()
}

fn trace(version: u16, count: u16, bytes: usize) -> Vec<u8> {
    let mut trace = b"MBT".to_vec();
    trace.extend(version.to_be_bytes());
    trace.extend(count.to_be_bytes());
    trace.resize(7 + bytes, 0);
    trace
}

#[test]
fn sample_is_byte_for_byte() {
    assert_eq!(run(&SAMPLE), TEXT);
}

/// The same answers as the benchmark has them.
#[test]
fn sample_is_packed_into_seven_bytes_a_record() {
    let write = [b'C', 0, 0, 0, 0, 0, 0];
    let packed = [
        write,
        write,
        write,
        write,
        write,
        [b'T', 0, 0x23, 0x26, 0b0001, 0, 11],
        [b'T', 0, 0x23, 0x26, 0b0111, 0, 11],
        [b'C', 0, 0, 0, 0b1100, 0x01, 0],
        [b'A', 0, 0, 0, 0b1000, 0x01, 0],
    ];
    let mut answers = [0xFF; 9 * packed::BYTES];
    packed::run(&SAMPLE, &mut answers);
    assert_eq!(answers, *packed.as_flattened());
}

#[test]
fn refused_records_leave_the_run_going() {
    let mut capture = trace(1, 3, 0);
    capture.extend([0x83, 0, 0x12, 0, 0x83, 0, 0x02, 0, 0x83, 0, 0x00, 0x80]);
    let text = "MBT 1 3\n0 X3 ---- 0 0 -- 0\n1 X4 ---- 0 0 -- 0\n2 C ---- 0 0 -- 0\n";
    assert_eq!(run(&capture), text);
}

#[test]
fn short_or_unmarked_is_5() {
    assert_eq!(run(b""), "X5\n");
    assert_eq!(run(&trace(1, 0, 0)[..6]), "X5\n");
    assert_eq!(run(b"MBU\0\x01\0\0"), "X5\n");
    assert_eq!(run(b"mbt\0\x02\xFF\xFF"), "X5\n");
}

#[test]
fn version_is_6() {
    assert_eq!(run(&trace(0, 0, 0)), "X6\n");
    assert_eq!(run(&trace(2, 0xFFFF, 3)), "X6\n");
    assert_eq!(run(&trace(0x0100, 0, 0)), "X6\n");
}

#[test]
fn count_is_7() {
    assert_eq!(run(&trace(1, 16_001, 4 * 16_001)), "X7\n");
    assert_eq!(run(&trace(1, 16_001, 0)), "X7\n");
}

#[test]
fn length_is_8() {
    assert_eq!(run(&trace(1, 1, 3)), "X8\n");
    assert_eq!(run(&trace(1, 1, 5)), "X8\n");
    assert_eq!(run(&trace(1, 0, 4)), "X8\n");
    assert_eq!(run(&trace(1, 16_000, 4 * 16_000 + 1)), "X8\n");
}

#[test]
fn empty_and_longest_are_good() {
    assert_eq!(run(&trace(1, 0, 0)), "MBT 1 0\n");
    let text = run(&trace(1, 16_000, 4 * 16_000));
    assert!(text.starts_with("MBT 1 16000\n0 I ---- 0 0 -- 0\n"));
    assert!(text.ends_with("\n15999 I ---- 0 0 -- 0\n"));
}
