//! What a unit is given in one cycle, and what it answers.

/// A segment number has seven bits.
pub const LAST_SEGMENT: u8 = 127;

/// One cycle. Status and segment are bytes here, so a caller can give numbers
/// that the bus cannot carry; refusal 1 answers those.
#[derive(Clone, Copy, Debug, Default, PartialEq, Eq)]
pub struct Cycle {
    pub status: u8,
    pub read: bool,
    pub normal: bool,
    pub dma: bool,
    pub select: bool,
    pub segment: u8,
    /// AD8 to AD15 in the address phase: offset high byte or command code.
    pub offset: u8,
    /// The low byte of the address (ticket 8). Nothing reads it but the store
    /// that keeps it.
    pub low: u8,
    pub data: u8,
    pub reset: bool,
}

impl Cycle {
    pub fn write(&self) -> bool {
        !self.read
    }

    /// The cycle in the form of the BCSR.
    pub fn bus_status(&self) -> u8 {
        self.status & 0x0F | u8::from(self.read) << 4 | u8::from(self.normal) << 5
    }

    /// The descriptor's number. VSN and ISN keep the whole segment (ticket 2).
    pub fn entry(&self) -> u8 {
        self.segment % 64
    }
}

#[derive(Clone, Copy, Debug, PartialEq, Eq)]
pub enum Kind {
    Reset,
    Acknowledge,
    Command,
    AbortedFetch,
    Translated,
    Passed,
    Ignored,
    Refused(u8),
}

/// The answer to one cycle; `None` is a byte or address that is not driven.
#[derive(Clone, Copy, Debug, PartialEq, Eq)]
pub struct Answer {
    pub kind: Kind,
    pub address: Option<u16>,
    pub sup: bool,
    pub trap: bool,
    pub data: Option<u8>,
    /// Blocks that remain to the segment's edge, of a translated cycle that is
    /// not an aborted fetch; 0 in every other answer (ticket 5).
    pub distance: u8,
}

impl Answer {
    /// Nothing driven, SUP off, the trap line as given, distance 0.
    pub fn quiet(kind: Kind, trap: bool) -> Answer {
        Answer {
            kind,
            address: None,
            sup: false,
            trap,
            data: None,
            distance: 0,
        }
    }
}
