//! A capture, where it tells a wrong reading from the right one, and the same
//! capture with fewer records.

use std::ops::Range;

use witness::text::Text;
use witness::trace::{Layout, HEAD, RECORD};
use witness::Document01;

use crate::wrong::{self, Run, Wrong};

/// A wrong reading that some capture tells, and how it runs a trace.
pub struct Reading {
    pub wrong: &'static Wrong,
    run: Run,
}

pub fn readings() -> Vec<Reading> {
    let with_run = |wrong: &'static Wrong| {
        let run = wrong.run_told_by_captures()?;
        Some(Reading { wrong, run })
    };
    wrong::readings().into_iter().filter_map(with_run).collect()
}

/// Where a wrong text first differs from the right one.
#[derive(Clone, Copy, PartialEq, Eq, PartialOrd, Ord)]
pub enum Place {
    FirstLine,
    Record(usize),
    End,
}

/// The same in whole lines; and on the pins alone, which are address, SUP, trap
/// line and data byte of each record: a board has none for kind and distance.
#[derive(Clone, Copy)]
pub struct Places {
    pub line: Option<Place>,
    pub pins: Option<Place>,
}

/// A record's line without its number and kind and without its distance; of any
/// other line nothing.
fn pins(line: &[u8]) -> &[u8] {
    let fields = line.splitn(3, |&byte| byte == b' ').nth(2).unwrap_or(b"");
    let end = fields.iter().rposition(|&byte| byte == b' ');
    &fields[..end.unwrap_or(0)]
}

/// A trace with its right text.
#[derive(Clone)]
pub struct Capture {
    pub trace: Vec<u8>,
    right: Vec<u8>,
}

impl Capture {
    pub fn new(trace: Vec<u8>) -> Capture {
        let right = Document01::run(&trace);
        Capture { trace, right }
    }

    pub fn right(&self) -> &[u8] {
        &self.right
    }

    pub fn refused(&self) -> bool {
        Document01::count(&self.trace).is_err()
    }

    /// How many records, the rest of one among them, stand behind the head.
    pub fn records(&self) -> usize {
        self.trace.len().saturating_sub(HEAD).div_ceil(RECORD)
    }

    pub fn tells(&self, reading: &Reading) -> bool {
        (reading.run)(&self.trace) != self.right
    }

    /// The same on the pins.
    pub fn tells_on_pins(&self, reading: &Reading) -> bool {
        self.on_pins(reading, &(reading.run)(&self.trace)).is_some()
    }

    /// Where it tells the reading.
    pub fn places(&self, reading: &Reading) -> Places {
        let text = (reading.run)(&self.trace);
        let line = self.first(&text, |line| line);
        Places {
            line: line.or((text != self.right).then_some(Place::End)),
            pins: self.on_pins(reading, &text),
        }
    }

    /// A reading of the text alone is of no pin.
    fn on_pins(&self, reading: &Reading, text: &[u8]) -> Option<Place> {
        match reading.wrong.rule {
            "Text::run" => None,
            _ => self.first(text, pins),
        }
    }

    /// Where a part of each line first differs. If the first line does, another
    /// count is read, or none, and no record is the first to differ.
    fn first(&self, text: &[u8], part: fn(&[u8]) -> &[u8]) -> Option<Place> {
        if text == self.right {
            return None;
        }
        let lines = || text.split(|&byte| byte == b'\n');
        let right = || self.right.split(|&byte| byte == b'\n');
        let line = lines()
            .zip(right())
            .position(|(line, right)| part(line) != part(right))?;
        match lines().next() == right().next() {
            true => Some(Place::Record(line - 1)),
            false => Some(Place::FirstLine),
        }
    }

    /// The same without some records. The head of a refused trace stays as it is.
    pub fn without(&self, records: Range<usize>) -> Capture {
        let place = |record: usize| self.trace.len().min(HEAD + RECORD * record);
        let mut trace = self.trace.clone();
        trace.drain(place(records.start)..place(records.end));
        if let Ok(count) = Document01::count(&self.trace) {
            let left = u16::try_from(count - records.len()).expect("a count has 16 bits");
            trace[HEAD - 2..HEAD].copy_from_slice(&left.to_be_bytes());
        }
        Capture::new(trace)
    }
}
