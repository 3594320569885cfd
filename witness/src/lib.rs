//! A second reading of document 01, the rules of the U8010 memory management
//! unit, transcribed from the text of the paper and its tickets alone and
//! updated in place.
//!
//! Each rule is a method of a small trait with the paper's reading as its
//! default body. `Document01` takes every default; a wrong reading, made to
//! test the tests, replaces one method and leaves the rest.

pub mod board;
pub mod board_script;
pub mod checks;
pub mod commands;
pub mod coverage;
pub mod cycle;
pub mod generate;
pub mod memory;
pub mod packed;
pub mod packed_board;
pub mod recorder;
pub mod recorder_script;
pub mod recording;
pub mod script;
pub mod step;
pub mod text;
pub mod trace;
pub mod translation;
pub mod unit;

/// The paper as it stands.
pub struct Document01;

impl board::Board for Document01 {}
impl checks::Checks for Document01 {}
impl commands::Commands for Document01 {}
impl memory::Memory for Document01 {}
impl recorder::Recorder for Document01 {}
impl recording::Recording for Document01 {}
impl step::Step for Document01 {}
impl text::Text for Document01 {}
impl trace::Layout for Document01 {}
impl translation::Translation for Document01 {}
