//! Recorder scripts: a lent buffer, and calls of the writer on it.
//!
//! `B nnnn bb` lends a buffer of so many bytes, each of them this one, and makes
//! the count 0. `P nnnn bb` puts a byte at this index, if the buffer has it; `N`
//! and sixteen digits set the count that the next call is given. `S` is the
//! start, and `C ss ff gg oo ww bb` a cycle as in a step script; each prints what
//! it gives, the count after it, and every byte that it changed. `T` prints the
//! text of `mmurun` for the trace. Blank lines and lines starting with `#` are
//! echoed; any other line prints `?`. A script starts with a buffer of no bytes
//! and the count 0.

use crate::board_script::{lines, write_line, LONGEST};
use crate::cycle::Cycle;
use crate::recorder::{put, Lent, Recorder};
use crate::script::{byte, cycle, hex, number};
use crate::text::Text;
use crate::trace::{HEAD, RECORD};
use crate::Document01;

/// A call of the writer: the start, or one cycle.
#[derive(Clone, Copy, Debug, PartialEq, Eq)]
pub enum Call {
    Start,
    Cycle(Cycle),
}

impl Call {
    /// What the call gives with a reading.
    pub fn make<R: Recorder>(&self, lent: &mut Lent) -> u8 {
        match self {
            Call::Start => R::record_start(lent),
            Call::Cycle(cycle) => R::record_cycle(lent, cycle),
        }
    }
}

/// Runs a script with a reading and gives the text it prints.
pub fn run<R: Recorder>(script: &[u8]) -> Vec<u8> {
    play(script, &mut |lent, call| call.make::<R>(lent))
}

type Make<'m> = dyn FnMut(&mut Lent, &Call) -> u8 + 'm;

/// The same with any writer, one that looks on among them.
pub fn play(script: &[u8], make: &mut Make) -> Vec<u8> {
    let mut lent = Lent::default();
    let mut text = Vec::new();
    for line in lines(&script[..script.len().min(LONGEST)]) {
        if line.is_empty() || line.starts_with(b"#") {
            text.extend(line);
            text.push(b'\n');
            continue;
        }
        match parse(line) {
            Some(Line::Buffer(new)) => lent = new,
            Some(Line::Put(at, byte)) => put(&mut lent.buffer, at, &[byte]),
            Some(Line::Count(count)) => lent.count = count,
            Some(Line::Call(call)) => call_line(&mut text, &mut lent, &call, make),
            Some(Line::Text) => text.extend(Document01::run(trace(&lent))),
            None => text.extend(b"?\n"),
        }
    }
    text
}

/// What the call gives, the count after it, and each byte that it changed.
fn call_line(text: &mut Vec<u8>, lent: &mut Lent, call: &Call, make: &mut Make) {
    let before = lent.buffer.clone();
    let number = make(lent, call);
    let mut line = format!("{number} {:016X}", lent.count);
    for (at, (byte, old)) in lent.buffer.iter().zip(&before).enumerate() {
        if byte != old {
            line += &format!(" {at:04X}={byte:02X}");
        }
    }
    write_line(text, &line);
}

/// The first 7 + 4 x count bytes of the buffer, or as many as there are.
pub fn trace(lent: &Lent) -> &[u8] {
    let length = HEAD as u128 + RECORD as u128 * u128::from(lent.count);
    let length = usize::try_from(length).unwrap_or(usize::MAX);
    &lent.buffer[..lent.buffer.len().min(length)]
}

enum Line {
    Buffer(Lent),
    Put(usize, u8),
    Count(u64),
    Call(Call),
    Text,
}

fn parse(line: &[u8]) -> Option<Line> {
    let line = std::str::from_utf8(line).ok()?;
    match line.split_once(' ') {
        None => match line {
            "S" => Some(Line::Call(Call::Start)),
            "T" => Some(Line::Text),
            _ => None,
        },
        Some(("B", fields)) => {
            let (length, byte) = word_and_byte(fields)?;
            let buffer = vec![byte; length];
            Some(Line::Buffer(Lent { buffer, count: 0 }))
        }
        Some(("P", fields)) => word_and_byte(fields).map(|(at, byte)| Line::Put(at, byte)),
        Some(("N", count)) => number(count, 16).map(Line::Count),
        Some(("C", fields)) => cycle(fields).map(|cycle| Line::Call(Call::Cycle(cycle))),
        Some(_) => None,
    }
}

fn word_and_byte(fields: &str) -> Option<(usize, u8)> {
    let (word, last) = fields.split_once(' ')?;
    Some((usize::from(hex(word, 4)?), byte(last)?))
}
