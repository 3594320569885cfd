//! Wrong readings of document 01 and its tickets. Each replaces one rule of the
//! paper and keeps the rest; captures, step scripts or, for those of a board or
//! of the recorder, their own scripts must tell it from the right one.

mod board_joins;
mod board_refusals;
mod board_steps;
mod checks;
mod commands;
mod families;
mod memory;
mod recorder_refusals;
mod recorder_stores;
mod recording;
mod step;
mod text;
mod trace;
mod translation;

use witness::board::Board;
use witness::checks::Checks;
use witness::cycle::{Answer, Cycle, Kind};
use witness::recorder::Recorder;
use witness::text::Text;
use witness::unit::Unit;
use witness::{board_script, recorder_script, script, Document01};

/// How a reading runs a trace.
pub type Run = fn(&[u8]) -> Vec<u8>;

/// How a reading plays a script of a board or of the recorder.
pub type Play = fn(&[u8]) -> Vec<u8>;

/// What a wrong reading prints: that of a unit for a trace and for a step script,
/// that of a board for a board script, that of the recorder for one of its own.
pub enum Prints {
    Unit { run: Run, play: fn(&str) -> String },
    Board(Play),
    Recorder(Play),
}

pub struct Wrong {
    /// The rule that it breaks, as `Trait::method`; the first, if there are two.
    pub rule: &'static str,
    pub says: &'static str,
    /// Why nothing can tell it from the right reading, if nothing can.
    pub same: Option<&'static str>,
    /// Only scripts can tell it: no capture reaches, or shows, what it is about.
    pub by_scripts: bool,
    pub prints: Prints,
}

impl Prints {
    const fn of_unit<R: Text>() -> Prints {
        Prints::Unit {
            run: R::run,
            play: script::run::<R>,
        }
    }

    const fn of_board<R: Board>() -> Prints {
        Prints::Board(board_script::run::<R>)
    }

    const fn of_recorder<R: Recorder>() -> Prints {
        Prints::Recorder(recorder_script::run::<R>)
    }
}

impl Wrong {
    /// How it runs a trace, if some capture tells it from the right reading.
    pub fn run_told_by_captures(&self) -> Option<Run> {
        match self.prints {
            Prints::Unit { run, .. } if self.same.is_none() && !self.by_scripts => Some(run),
            _ => None,
        }
    }
}

/// All wrong readings, in the order of the rules they break.
pub fn readings() -> Vec<&'static Wrong> {
    let subjects = [
        step::READINGS,
        families::step::READINGS,
        commands::READINGS,
        families::commands::READINGS,
        translation::READINGS,
        families::translation::READINGS,
        checks::READINGS,
        families::checks::READINGS,
        recording::READINGS,
        families::recording::READINGS,
        memory::READINGS,
        families::memory::READINGS,
        trace::READINGS,
        text::READINGS,
        board_refusals::READINGS,
        board_steps::READINGS,
        board_joins::READINGS,
        recorder_refusals::READINGS,
        recorder_stores::READINGS,
        families::recorder::READINGS,
    ];
    subjects.into_iter().flatten().collect()
}

/// What a translated cycle would carry, whatever this one is.
fn distance(unit: &Unit, cycle: &Cycle) -> u8 {
    Document01::distance(&unit.table[usize::from(cycle.entry())], cycle)
}

/// The same answer, but one of such a kind carries this distance.
fn carried(distance: u8, answer: Answer, kinds: fn(Kind) -> bool) -> Answer {
    match kinds(answer.kind) {
        true => Answer { distance, ..answer },
        false => answer,
    }
}

/// A list of wrong readings of one trait's rules: for each a type that has the
/// methods given and every other rule as the paper has it. `same` gives the
/// reason why a reading comes out the same as the right one; `by scripts` says
/// that no capture can tell it.
macro_rules! wrong {
    ($rules:ident: $(
        $name:ident $says:literal $(same $same:literal)? $(by $scripts:ident)? {
            fn $method:ident $($methods:tt)*
        }
    )*) => {
        $(
            struct $name;
            $crate::wrong::with_paper!($rules $name [] { fn $method $($methods)* });
        )*
        pub const READINGS: &[$crate::wrong::Wrong] = &[$(
            $crate::wrong::Wrong {
                rule: concat!(stringify!($rules), "::", stringify!($method)),
                says: $says,
                same: $crate::wrong::reason!($($same)?),
                by_scripts: $crate::wrong::by_scripts!($($scripts)?),
                prints: $crate::wrong::prints!($rules $name),
            }
        ),*];
    };
}

macro_rules! prints {
    (Board $name:ty) => {
        $crate::wrong::Prints::of_board::<$name>()
    };
    (Recorder $name:ty) => {
        $crate::wrong::Prints::of_recorder::<$name>()
    };
    ($rules:ident $name:ty) => {
        $crate::wrong::Prints::of_unit::<$name>()
    };
}

macro_rules! reason {
    () => {
        None
    };
    ($same:literal) => {
        Some($same)
    };
}

macro_rules! by_scripts {
    () => {
        false
    };
    (scripts) => {
        true
    };
}

/// The methods go to the named trait; the paper has the others. What stands in
/// brackets is the parameter of a family's type.
macro_rules! with_paper {
    (Board $name:ident [$($of:ident: $kind:ident)?] $methods:tt) => {
        impl<$($of: $kind)?> witness::board::Board for $name<$($of)?> $methods
        $crate::wrong::paper!($name [$($of: $kind)?]: checks::Checks commands::Commands memory::Memory
            recording::Recording step::Step translation::Translation);
    };
    (Checks $name:ident [$($of:ident: $kind:ident)?] $methods:tt) => {
        impl<$($of: $kind)?> witness::checks::Checks for $name<$($of)?> $methods
        $crate::wrong::paper!($name [$($of: $kind)?]: commands::Commands memory::Memory recording::Recording
            step::Step text::Text trace::Layout translation::Translation);
    };
    (Commands $name:ident [$($of:ident: $kind:ident)?] $methods:tt) => {
        impl<$($of: $kind)?> witness::commands::Commands for $name<$($of)?> $methods
        $crate::wrong::paper!($name [$($of: $kind)?]: checks::Checks memory::Memory recording::Recording
            step::Step text::Text trace::Layout translation::Translation);
    };
    (Memory $name:ident [$($of:ident: $kind:ident)?] $methods:tt) => {
        impl<$($of: $kind)?> witness::memory::Memory for $name<$($of)?> $methods
        $crate::wrong::paper!($name [$($of: $kind)?]: checks::Checks commands::Commands recording::Recording
            step::Step text::Text trace::Layout translation::Translation);
    };
    (Recorder $name:ident [$($of:ident: $kind:ident)?] $methods:tt) => {
        impl<$($of: $kind)?> witness::recorder::Recorder for $name<$($of)?> $methods
    };
    (Recording $name:ident [$($of:ident: $kind:ident)?] $methods:tt) => {
        impl<$($of: $kind)?> witness::recording::Recording for $name<$($of)?> $methods
        $crate::wrong::paper!($name [$($of: $kind)?]: checks::Checks commands::Commands memory::Memory
            step::Step text::Text trace::Layout translation::Translation);
    };
    (Step $name:ident [$($of:ident: $kind:ident)?] $methods:tt) => {
        impl<$($of: $kind)?> witness::step::Step for $name<$($of)?> $methods
        $crate::wrong::paper!($name [$($of: $kind)?]: checks::Checks commands::Commands memory::Memory
            recording::Recording text::Text trace::Layout translation::Translation);
    };
    (Text $name:ident [$($of:ident: $kind:ident)?] $methods:tt) => {
        impl<$($of: $kind)?> witness::text::Text for $name<$($of)?> $methods
        $crate::wrong::paper!($name [$($of: $kind)?]: checks::Checks commands::Commands memory::Memory
            recording::Recording step::Step trace::Layout translation::Translation);
    };
    (Layout $name:ident [$($of:ident: $kind:ident)?] $methods:tt) => {
        impl<$($of: $kind)?> witness::trace::Layout for $name<$($of)?> $methods
        $crate::wrong::paper!($name [$($of: $kind)?]: checks::Checks commands::Commands memory::Memory
            recording::Recording step::Step text::Text translation::Translation);
    };
    (Translation $name:ident [$($of:ident: $kind:ident)?] $methods:tt) => {
        impl<$($of: $kind)?> witness::translation::Translation for $name<$($of)?> $methods
        $crate::wrong::paper!($name [$($of: $kind)?]: checks::Checks commands::Commands memory::Memory
            recording::Recording step::Step text::Text trace::Layout);
    };
}

macro_rules! paper {
    ($name:ident []: $($module:ident::$rules:ident)*) => {
        $(impl witness::$module::$rules for $name {})*
    };
    ($name:ident [$of:ident: $kind:ident]: $($module:ident::$rules:ident)*) => {
        $(impl<$of: $kind> witness::$module::$rules for $name<$of> {})*
    };
}

pub(crate) use {by_scripts, paper, prints, reason, with_paper, wrong};
