//! The unit record: 64 descriptors, the registers, the four notes, and the
//! flag masks of the attribute, mode and violation bytes.

/// Attribute byte, from bit 0 up.
pub mod attribute {
    pub const RD: u8 = 0x01;
    pub const SYS: u8 = 0x02;
    pub const CPUI: u8 = 0x04;
    pub const EXC: u8 = 0x08;
    pub const DMAI: u8 = 0x10;
    pub const DIRW: u8 = 0x20;
    pub const CHG: u8 = 0x40;
    pub const REF: u8 = 0x80;
}

/// Violation type register, from bit 0 up.
pub mod violation {
    pub const RDV: u8 = 0x01;
    pub const SYSV: u8 = 0x02;
    pub const SLV: u8 = 0x04;
    pub const CPUIV: u8 = 0x08;
    pub const EXCV: u8 = 0x10;
    pub const PWW: u8 = 0x20;
    pub const SWW: u8 = 0x40;
    pub const FATL: u8 = 0x80;
    /// The first six flags.
    pub const PRIMARY: u8 = 0x3F;
}

/// Mode register: the unit's number in bits 0 to 2, then five flags.
pub mod mode {
    pub const ID: u8 = 0x07;
    pub const NMS: u8 = 0x08;
    pub const MST: u8 = 0x10;
    pub const URS: u8 = 0x20;
    pub const TRNS: u8 = 0x40;
    pub const MSEN: u8 = 0x80;
}

#[derive(Clone, Copy, Debug, Default, PartialEq, Eq)]
pub struct Descriptor {
    pub base: u16,
    pub limit: u8,
    pub attributes: u8,
}

impl Descriptor {
    pub fn has(&self, flag: u8) -> bool {
        self.attributes & flag != 0
    }
}

#[derive(Clone, Debug, PartialEq, Eq)]
pub struct Unit {
    pub table: [Descriptor; 64],
    pub mr: u8,
    pub sar: u8,
    pub dscr: u8,
    pub vtr: u8,
    /// A whole segment number, and so is ISN (ticket 2).
    pub vsn: u8,
    pub voff: u8,
    pub bcsr: u8,
    pub isn: u8,
    pub ioff: u8,
    /// The low byte of the address whose offset byte is in VOFF, any byte. No
    /// command shows it (ticket 8).
    pub low: u8,
    /// The trap line stands.
    pub request: bool,
    /// The aborted fetch of the standing request is still to come.
    pub awaits: bool,
    /// This instruction made the VTR's first entry.
    pub own: bool,
    /// This instruction has had a violation.
    pub hold: bool,
}

impl Unit {
    /// All zero and false; power-on is not a reset.
    pub fn power_on() -> Unit {
        Unit {
            table: [Descriptor::default(); 64],
            mr: 0,
            sar: 0,
            dscr: 0,
            vtr: 0,
            vsn: 0,
            voff: 0,
            bcsr: 0,
            isn: 0,
            ioff: 0,
            low: 0,
            request: false,
            awaits: false,
            own: false,
            hold: false,
        }
    }

    pub fn mode(&self, flag: u8) -> bool {
        self.mr & flag != 0
    }

    pub fn clear_notes(&mut self) {
        self.request = false;
        self.awaits = false;
        self.own = false;
        self.hold = false;
    }
}
