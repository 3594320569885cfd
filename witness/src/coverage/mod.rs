//! Coverage: runs the witness over captures and counts how often each row of
//! document 01 was met.

pub mod command_rows;
pub mod cycle_rows;
pub mod distance_rows;
pub mod event;
pub mod memory_rows;
pub mod recording_rows;
pub mod trace_rows;

use std::fmt;

use crate::step::Step;
use crate::trace::Layout;
use crate::unit::Unit;
use crate::Document01;

use event::Event;

/// How often a row must be met to count as covered.
pub const ENOUGH: u64 = 100;

/// A row is met by a record, by a whole trace, or by none from power-on.
pub enum Met {
    Record(Box<dyn Fn(&Event) -> bool>),
    Trace(fn(&[u8]) -> bool),
    /// With the reason why no capture reaches it.
    Never(&'static str),
}

pub struct Row {
    pub name: String,
    pub met: Met,
    pub count: u64,
}

impl Row {
    pub fn record(name: impl Into<String>, met: impl Fn(&Event) -> bool + 'static) -> Row {
        Row::new(name, Met::Record(Box::new(met)))
    }

    pub fn new(name: impl Into<String>, met: Met) -> Row {
        Row {
            name: name.into(),
            met,
            count: 0,
        }
    }

    pub fn covered(&self) -> bool {
        matches!(self.met, Met::Never(_)) || self.count >= ENOUGH
    }
}

pub struct Table {
    pub rows: Vec<Row>,
}

impl Table {
    pub fn new() -> Table {
        let mut rows = trace_rows::rows();
        rows.extend(cycle_rows::rows());
        rows.extend(command_rows::rows());
        rows.extend(memory_rows::rows());
        rows.extend(distance_rows::rows());
        rows.extend(recording_rows::rows());
        Table { rows }
    }

    /// Runs one file and counts what it meets.
    pub fn add(&mut self, trace: &[u8]) {
        for row in &mut self.rows {
            if let Met::Trace(met) = row.met {
                row.count += u64::from(met(trace));
            }
        }
        if Document01::count(trace).is_err() {
            return;
        }
        let mut unit = Unit::power_on();
        for cycle in Document01::cycles(trace) {
            let before = unit.clone();
            let answer = Document01::step(&mut unit, &cycle);
            self.see(&Event::new(before, cycle, answer, &unit));
        }
    }

    /// Counts what one cycle meets.
    pub fn see(&mut self, event: &Event) {
        for row in &mut self.rows {
            if let Met::Record(met) = &row.met {
                row.count += u64::from(met(event));
            }
        }
    }

    /// The row met least, of those that can be met.
    pub fn least(&self) -> Option<&Row> {
        let reachable = self
            .rows
            .iter()
            .filter(|row| !matches!(row.met, Met::Never(_)));
        reachable.min_by_key(|row| row.count)
    }
}

impl Default for Table {
    fn default() -> Table {
        Table::new()
    }
}

impl fmt::Display for Table {
    fn fmt(&self, out: &mut fmt::Formatter) -> fmt::Result {
        for row in &self.rows {
            match row.met {
                Met::Never(reason) => writeln!(out, "       -  {} ({reason})", row.name)?,
                _ => writeln!(out, "{:8}  {}", row.count, row.name)?,
            }
        }
        if let Some(least) = self.least() {
            writeln!(out, "least: {} times, {}", least.count, least.name)?;
        }
        Ok(())
    }
}
