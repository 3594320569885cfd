//! Rows of the trace: good ones and refusals 5 to 8.

use crate::trace::{Layout, LONGEST};
use crate::Document01;

use super::{Met, Row};

type Judge = fn(&[u8]) -> bool;

pub fn rows() -> Vec<Row> {
    let rows: [(&str, Judge); 10] = [
        ("trace: good", |trace| Document01::count(trace).is_ok()),
        ("trace: good, fewer than 4 records", |trace| {
            Document01::count(trace).is_ok_and(|count| count < 4)
        }),
        ("trace: X5, shorter than 7 bytes", |trace| trace.len() < 7),
        ("trace: X5, mark", |trace| {
            trace.len() >= 7 && refused(trace, 5)
        }),
        ("trace: X6", |trace| refused(trace, 6)),
        ("trace: X7", |trace| refused(trace, 7)),
        ("trace: X7, count just above the most", |trace| {
            refused(trace, 7) && trace[5..7] == 16_001u16.to_be_bytes()
        }),
        ("trace: X8, too short", |trace| {
            refused(trace, 8) && trace.len() < 7 + 4 * stated(trace)
        }),
        ("trace: X8, too long", |trace| {
            refused(trace, 8) && trace.len() > 7 + 4 * stated(trace)
        }),
        ("trace: longer than any good one", |trace| {
            trace.len() > LONGEST
        }),
    ];
    rows.into_iter()
        .map(|(name, met)| Row::new(name, Met::Trace(met)))
        .collect()
}

fn refused(trace: &[u8], number: u8) -> bool {
    Document01::count(trace) == Err(number)
}

fn stated(trace: &[u8]) -> usize {
    usize::from(u16::from_be_bytes([trace[5], trace[6]]))
}
