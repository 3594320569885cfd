//! Families of wrong readings of codes, of the registers that commands clear,
//! and of SAR.

use super::{clear, families, leaving, Bits, Codes, Neighbours, Registers, Sizes};
use witness::commands::{code, Commands, Listing};
use witness::cycle::Cycle;
use witness::unit::Unit;
use witness::Document01;

/// The cycle with another code.
fn coded(cycle: &Cycle, code: fn(u8) -> u8) -> Cycle {
    Cycle {
        offset: code(cycle.offset),
        ..*cycle
    }
}

/// A code that is not listed, with this bit turned round.
fn turned<B: Bits>(code: u8) -> u8 {
    match Document01::listing(code) {
        Listing::NotListed => code ^ B::MASK,
        _ => code,
    }
}

/// A code that is not listed as its neighbour.
fn listed<N: Neighbours>(code: u8) -> u8 {
    let (unlisted, neighbour) = N::CODES;
    if code == unlisted {
        neighbour
    } else {
        code
    }
}

/// A write of a register that clears another one too, if it has this code.
fn write_clearing<R: Registers>(unit: &mut Unit, code: u8, data: u8, clearing: u8) {
    Document01::write_register(unit, code, data);
    if code == clearing {
        clear::<R>(unit);
    }
}

/// A step of SAR that is not made in some cycles.
fn advance_but(unit: &mut Unit, cycle: &Cycle, stays: bool) {
    let sar = unit.sar;
    Document01::advance(unit, cycle);
    if stays {
        unit.sar = sar;
    }
}

families! { Commands:
    WithoutBit<B: Bits> "a code is read without" [Bit0 Bit1 Bit2 Bit3 Bit4 Bit5 Bit6 Bit7] {
        fn command_refusal(cycle: &Cycle) -> Option<u8> {
            Document01::command_refusal(&coded(cycle, |code| code & !B::MASK))
        }
        fn command(unit: &mut Unit, cycle: &Cycle) -> Option<u8> {
            Document01::command(unit, &coded(cycle, |code| code & !B::MASK))
        }
    }
    UnlistedBit<B: Bits> "a code that is not listed is obeyed as the one that differs in"
    [Bit0 Bit1 Bit2 Bit3 Bit4 Bit5 Bit6 Bit7] {
        fn command_refusal(cycle: &Cycle) -> Option<u8> {
            Document01::command_refusal(&coded(cycle, turned::<B>))
        }
        fn command(unit: &mut Unit, cycle: &Cycle) -> Option<u8> {
            Document01::command(unit, &coded(cycle, turned::<B>))
        }
    }
    UnlistedObeyed<N: Neighbours> "a code that is not listed is obeyed:"
    [Code12 Code17 Code18 Code19 Code1A Code1B Code1C Code1D Code1E Code1F
     Code21 Code22 Code24 Code28 Code30 Code40 Code60 Code80 CodeA0
     Code12Reset Code12SetDmai Code17SetCpui Code17SetDmai Code18Reset Code19ClearVtr Code1DSetCpui Code1ESetDmai] {
        fn command_refusal(cycle: &Cycle) -> Option<u8> {
            Document01::command_refusal(&coded(cycle, listed::<N>))
        }
        fn command(unit: &mut Unit, cycle: &Cycle) -> Option<u8> {
            Document01::command(unit, &coded(cycle, listed::<N>))
        }
    }
    ModeWithout<B: Bits> "a write of MR does not keep" [Bit0 Bit1 Bit2 Bit3 Bit4 Bit5 Bit6 Bit7] {
        fn write_register(unit: &mut Unit, code: u8, data: u8) {
            let kept = if code == code::MR { data & !B::MASK } else { data };
            Document01::write_register(unit, code, kept);
        }
    }
    SarWritten<S: Sizes> "SAR keeps the number written modulo" [Two Four Eight Sixteen ThirtyTwo] {
        fn write_register(unit: &mut Unit, code: u8, data: u8) {
            let kept = if code == code::SAR { data % S::SIZE } else { data };
            Document01::write_register(unit, code, kept);
        }
    }
    SoftwareResetClears<R: Registers> "software reset clears" [Sar Vsn Voff Bcsr Isn Ioff] {
        fn software_reset(unit: &mut Unit) {
            Document01::software_reset(unit);
            clear::<R>(unit);
        }
    }
    SoftwareResetLeaves<R: Registers> "software reset leaves" [Mr Vtr Dscr Request Await Hold] {
        fn software_reset(unit: &mut Unit) {
            leaving::<R, _>(unit, Document01::software_reset);
        }
    }
    ClearVtrClears<R: Registers> "clear VTR clears" [Sar Dscr Vsn Voff Bcsr Isn Ioff Request Await Hold] {
        fn write_register(unit: &mut Unit, code: u8, data: u8) {
            write_clearing::<R>(unit, code, data, code::CLEAR_VTR);
        }
    }
    ClearSwwClears<R: Registers> "clear SWW clears" [Request Await Own Hold] {
        fn write_register(unit: &mut Unit, code: u8, data: u8) {
            write_clearing::<R>(unit, code, data, code::CLEAR_SWW);
        }
    }
    ClearFatlClears<R: Registers> "clear FATL clears" [Request Await Own Hold] {
        fn write_register(unit: &mut Unit, code: u8, data: u8) {
            write_clearing::<R>(unit, code, data, code::CLEAR_FATL);
        }
    }
    StepsModulo<S: Sizes> "SAR is stepped modulo" [Two Four Eight Sixteen ThirtyTwo] {
        fn advance(unit: &mut Unit, cycle: &Cycle) {
            let sar = unit.sar;
            Document01::advance(unit, cycle);
            if unit.sar != sar {
                unit.sar %= S::SIZE;
            }
        }
    }
    StepsToo<C: Codes> "SAR is also stepped by" [Base Limit Attributes Whole] {
        fn advance(unit: &mut Unit, cycle: &Cycle) {
            Document01::advance(unit, cycle);
            if cycle.offset == C::CODE && unit.dscr == 0 {
                unit.sar = (unit.sar + 1) % 64;
            }
        }
    }
    StepsNot<C: Codes> "SAR is not stepped by" [BaseStepping LimitStepping AttributesStepping WholeStepping] {
        fn advance(unit: &mut Unit, cycle: &Cycle) {
            advance_but(unit, cycle, cycle.offset == C::CODE);
        }
    }
    StepsNotInReads<C: Codes> "SAR is not stepped by a read with"
    [BaseStepping LimitStepping AttributesStepping WholeStepping] {
        fn advance(unit: &mut Unit, cycle: &Cycle) {
            advance_but(unit, cycle, cycle.offset == C::CODE && cycle.read);
        }
    }
}
