//! Families of wrong readings: one mistake, made for one member of a kind after
//! the other, such as each status, each register or each bit. So a decoding is
//! covered as a whole.

pub mod checks;
pub mod commands;
pub mod memory;
pub mod recorder;
pub mod recording;
pub mod step;
pub mod translation;

use witness::cycle::Cycle;
use witness::unit::Unit;

/// The kinds: for each a trait with one constant, and its members, each a type
/// with the words that name it and the constant.
macro_rules! kinds {
    ($($(#[$why:meta])* $kind:ident $constant:ident: $type:ty {
        $($member:ident $words:literal $value:expr;)*
    })*) => {
        $(
            $(#[$why])*
            pub trait $kind {
                const $constant: $type;
            }
            $(
                pub struct $member;
                impl $kind for $member {
                    const $constant: $type = $value;
                }
            )*
        )*
        macro_rules! words {
            $($(($member) => { $words };)*)*
        }
    };
}

kinds! {
    /// The cycles that a mistake is about.
    Cycles HAS: fn(&Cycle) -> bool {
        At0 "at status %0" |cycle| cycle.status == 0x0;
        At1 "at status %1" |cycle| cycle.status == 0x1;
        At2 "at status %2" |cycle| cycle.status == 0x2;
        At3 "at status %3" |cycle| cycle.status == 0x3;
        At4 "at status %4" |cycle| cycle.status == 0x4;
        At5 "at status %5" |cycle| cycle.status == 0x5;
        At6 "at status %6" |cycle| cycle.status == 0x6;
        At7 "at status %7" |cycle| cycle.status == 0x7;
        At8 "at status %8" |cycle| cycle.status == 0x8;
        At9 "at status %9" |cycle| cycle.status == 0x9;
        AtA "at status %A" |cycle| cycle.status == 0xA;
        AtB "at status %B" |cycle| cycle.status == 0xB;
        AtC "at status %C" |cycle| cycle.status == 0xC;
        AtD "at status %D" |cycle| cycle.status == 0xD;
        AtE "at status %E" |cycle| cycle.status == 0xE;
        AtF "at status %F" |cycle| cycle.status == 0xF;
        Reads "in reads" |cycle| cycle.read;
        Writes "in writes" |cycle| !cycle.read;
        NormalMode "in normal mode" |cycle| cycle.normal;
        SystemMode "in system mode" |cycle| !cycle.normal;
        ForCpu "for the CPU" |cycle| !cycle.dma;
        ForDma "for DMA" |cycle| cycle.dma;
        Selected "with select on" |cycle| cycle.select;
        Unselected "with select off" |cycle| !cycle.select;
        Fetches "in fetches" |cycle| cycle.status == 0xD && cycle.read && !cycle.dma;
    }
    /// A register or a note, which a mistake copies into a unit from another one.
    Registers COPY: fn(&mut Unit, &Unit) {
        Mr "MR" |unit, other| unit.mr = other.mr;
        Sar "SAR" |unit, other| unit.sar = other.sar;
        Dscr "DSCR" |unit, other| unit.dscr = other.dscr;
        Vtr "the VTR" |unit, other| unit.vtr = other.vtr;
        Vsn "VSN" |unit, other| unit.vsn = other.vsn;
        Voff "VOFF" |unit, other| unit.voff = other.voff;
        Bcsr "BCSR" |unit, other| unit.bcsr = other.bcsr;
        Isn "ISN" |unit, other| unit.isn = other.isn;
        Ioff "IOFF" |unit, other| unit.ioff = other.ioff;
        Request "the request" |unit, other| unit.request = other.request;
        Await "await" |unit, other| unit.awaits = other.awaits;
        Own "own" |unit, other| unit.own = other.own;
        Hold "hold" |unit, other| unit.hold = other.hold;
    }
    /// A bit of a byte.
    Bits MASK: u8 {
        Bit0 "bit 0" 0x01;
        Bit1 "bit 1" 0x02;
        Bit2 "bit 2" 0x04;
        Bit3 "bit 3" 0x08;
        Bit4 "bit 4" 0x10;
        Bit5 "bit 5" 0x20;
        Bit6 "bit 6" 0x40;
        Bit7 "bit 7" 0x80;
    }
    /// Two bits of a byte.
    BitPairs MASKS: (u8, u8) {
        Bits01 "bits 0 and 1" (1 << 0, 1 << 1);
        Bits02 "bits 0 and 2" (1 << 0, 1 << 2);
        Bits03 "bits 0 and 3" (1 << 0, 1 << 3);
        Bits04 "bits 0 and 4" (1 << 0, 1 << 4);
        Bits05 "bits 0 and 5" (1 << 0, 1 << 5);
        Bits06 "bits 0 and 6" (1 << 0, 1 << 6);
        Bits07 "bits 0 and 7" (1 << 0, 1 << 7);
        Bits12 "bits 1 and 2" (1 << 1, 1 << 2);
        Bits13 "bits 1 and 3" (1 << 1, 1 << 3);
        Bits14 "bits 1 and 4" (1 << 1, 1 << 4);
        Bits15 "bits 1 and 5" (1 << 1, 1 << 5);
        Bits16 "bits 1 and 6" (1 << 1, 1 << 6);
        Bits17 "bits 1 and 7" (1 << 1, 1 << 7);
        Bits23 "bits 2 and 3" (1 << 2, 1 << 3);
        Bits24 "bits 2 and 4" (1 << 2, 1 << 4);
        Bits25 "bits 2 and 5" (1 << 2, 1 << 5);
        Bits26 "bits 2 and 6" (1 << 2, 1 << 6);
        Bits27 "bits 2 and 7" (1 << 2, 1 << 7);
        Bits34 "bits 3 and 4" (1 << 3, 1 << 4);
        Bits35 "bits 3 and 5" (1 << 3, 1 << 5);
        Bits36 "bits 3 and 6" (1 << 3, 1 << 6);
        Bits37 "bits 3 and 7" (1 << 3, 1 << 7);
        Bits45 "bits 4 and 5" (1 << 4, 1 << 5);
        Bits46 "bits 4 and 6" (1 << 4, 1 << 6);
        Bits47 "bits 4 and 7" (1 << 4, 1 << 7);
        Bits56 "bits 5 and 6" (1 << 5, 1 << 6);
        Bits57 "bits 5 and 7" (1 << 5, 1 << 7);
        Bits67 "bits 6 and 7" (1 << 6, 1 << 7);
    }
    /// Two bytes of a record.
    BytePairs PLACES: (usize, usize) {
        Bytes01 "bytes 0 and 1" (0, 1);
        Bytes02 "bytes 0 and 2" (0, 2);
        Bytes03 "bytes 0 and 3" (0, 3);
        Bytes12 "bytes 1 and 2" (1, 2);
        Bytes13 "bytes 1 and 3" (1, 3);
        Bytes23 "bytes 2 and 3" (2, 3);
    }
    /// A byte of a trace's header, or of a record.
    Bytes PLACE: usize {
        Byte0 "byte 0" 0;
        Byte1 "byte 1" 1;
        Byte2 "byte 2" 2;
        Byte3 "byte 3" 3;
        Byte4 "byte 4" 4;
        Byte5 "byte 5" 5;
        Byte6 "byte 6" 6;
    }
    /// A field of a cycle, which a mistake clears.
    Fields CLEAR: fn(&mut Cycle) {
        Status "status" |cycle| cycle.status = 0;
        Read "read" |cycle| cycle.read = false;
        Normal "normal" |cycle| cycle.normal = false;
        Dma "DMA" |cycle| cycle.dma = false;
        Select "select" |cycle| cycle.select = false;
        Segment "segment" |cycle| cycle.segment = 0;
        Offset "address-phase byte" |cycle| cycle.offset = 0;
        Data "data byte" |cycle| cycle.data = 0;
    }
    /// A number that refuses a call of the recorder.
    Numbers NUMBER: u8 {
        One "1" 1;
        Seven "7" 7;
        Ten "10" 10;
    }
    /// A smaller number of descriptors than 64.
    Sizes SIZE: u8 {
        Two "2" 2;
        Four "4" 4;
        Eight "8" 8;
        Sixteen "16" 16;
        ThirtyTwo "32" 32;
    }
    /// A descriptor command.
    Codes CODE: u8 {
        Base "%08" 0x08;
        Limit "%09" 0x09;
        Attributes "%0A" 0x0A;
        Whole "%0B" 0x0B;
        BaseStepping "%0C" 0x0C;
        LimitStepping "%0D" 0x0D;
        AttributesStepping "%0E" 0x0E;
        WholeStepping "%0F" 0x0F;
    }
    /// A code that is not listed, and a listed one that differs in one bit.
    Neighbours CODES: (u8, u8) {
        Code12 "%12 as %02" (0x12, 0x02);
        Code17 "%17 as %07" (0x17, 0x07);
        Code18 "%18 as %08" (0x18, 0x08);
        Code19 "%19 as %09" (0x19, 0x09);
        Code1A "%1A as %0A" (0x1A, 0x0A);
        Code1B "%1B as %0B" (0x1B, 0x0B);
        Code1C "%1C as %0C" (0x1C, 0x0C);
        Code1D "%1D as %0D" (0x1D, 0x0D);
        Code1E "%1E as %0E" (0x1E, 0x0E);
        Code1F "%1F as %0F" (0x1F, 0x0F);
        Code21 "%21 as %20" (0x21, 0x20);
        Code22 "%22 as %20" (0x22, 0x20);
        Code24 "%24 as %20" (0x24, 0x20);
        Code28 "%28 as %20" (0x28, 0x20);
        Code30 "%30 as %20" (0x30, 0x20);
        Code40 "%40 as %00" (0x40, 0x00);
        Code60 "%60 as %20" (0x60, 0x20);
        Code80 "%80 as %00" (0x80, 0x00);
        CodeA0 "%A0 as %20" (0xA0, 0x20);
        Code12Reset "%12 as %10" (0x12, 0x10);
        Code12SetDmai "%12 as %16" (0x12, 0x16);
        Code17SetCpui "%17 as %15" (0x17, 0x15);
        Code17SetDmai "%17 as %16" (0x17, 0x16);
        Code18Reset "%18 as %10" (0x18, 0x10);
        Code19ClearVtr "%19 as %11" (0x19, 0x11);
        Code1DSetCpui "%1D as %15" (0x1D, 0x15);
        Code1ESetDmai "%1E as %16" (0x1E, 0x16);
    }
}

/// The families of one trait's rules: for each a type over a kind, and for each
/// member that is named a reading, which says the family's words and then the
/// member's.
macro_rules! families {
    ($rules:ident: $(
        $name:ident<$of:ident: $kind:ident> $says:literal [$($member:ident)*] {
            fn $method:ident $($methods:tt)*
        }
    )*) => {
        $(
            struct $name<$of>(std::marker::PhantomData<$of>);
            $crate::wrong::with_paper!($rules $name [$of: $kind] { fn $method $($methods)* });
        )*
        pub const READINGS: &[$crate::wrong::Wrong] = &[$($(
            $crate::wrong::Wrong {
                rule: concat!(stringify!($rules), "::", stringify!($method)),
                says: concat!($says, " ", $crate::wrong::families::words!($member)),
                same: None,
                by_scripts: false,
                prints: $crate::wrong::prints!($rules $name<$crate::wrong::families::$member>),
            },
        )*)*];
    };
}

/// The register or note as at power-on.
fn clear<R: Registers>(unit: &mut Unit) {
    (R::COPY)(unit, &Unit::power_on());
}

/// A change of the unit that leaves the register or note as it was.
fn leaving<R: Registers, T>(unit: &mut Unit, change: impl Fn(&mut Unit) -> T) -> T {
    let before = unit.clone();
    let answer = change(unit);
    (R::COPY)(unit, &before);
    answer
}

use {families, words};
