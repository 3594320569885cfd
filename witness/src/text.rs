//! The text of `mmurun`: one line for the header, one for each record, or one
//! for a refused trace.

use std::fmt;
use std::io::Write;

use crate::cycle::{Answer, Kind};
use crate::step::Step;
use crate::trace::Layout;
use crate::unit::Unit;

pub trait Text: Step + Layout {
    /// Runs a trace from power-on and gives the whole text.
    fn run(trace: &[u8]) -> Vec<u8> {
        let mut text = Vec::new();
        match Self::count(trace) {
            Err(number) => line(&mut text, format_args!("X{number}")),
            Ok(count) => {
                line(&mut text, format_args!("MBT 1 {count}"));
                let mut unit = Self::power_on();
                for (number, cycle) in Self::cycles(trace).enumerate() {
                    record_line(&mut text, number, &Self::step(&mut unit, &cycle));
                }
            }
        }
        text
    }

    fn power_on() -> Unit {
        Unit::power_on()
    }
}

fn record_line(text: &mut Vec<u8>, number: usize, answer: &Answer) {
    line(text, format_args!("{number} {answer}"));
}

fn line(text: &mut Vec<u8>, content: fmt::Arguments) {
    writeln!(text, "{content}").expect("a vector takes every byte");
}

impl fmt::Display for Kind {
    fn fmt(&self, out: &mut fmt::Formatter) -> fmt::Result {
        match self {
            Kind::Reset => out.write_str("R"),
            Kind::Acknowledge => out.write_str("A"),
            Kind::Command => out.write_str("C"),
            Kind::AbortedFetch => out.write_str("F"),
            Kind::Translated => out.write_str("T"),
            Kind::Passed => out.write_str("P"),
            Kind::Ignored => out.write_str("I"),
            Kind::Refused(number) => write!(out, "X{number}"),
        }
    }
}

/// Kind, address, SUP, trap line, data and distance, parted by one space; the
/// distance in decimal (ticket 5).
impl fmt::Display for Answer {
    fn fmt(&self, out: &mut fmt::Formatter) -> fmt::Result {
        write!(out, "{} ", self.kind)?;
        match self.address {
            Some(address) => write!(out, "{address:04X}")?,
            None => out.write_str("----")?,
        }
        write!(out, " {} {} ", u8::from(self.sup), u8::from(self.trap))?;
        match self.data {
            Some(data) => write!(out, "{data:02X}")?,
            None => out.write_str("--")?,
        }
        write!(out, " {}", self.distance)
    }
}
