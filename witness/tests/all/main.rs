//! The tests of the witness, in one program.

mod board;
mod board_laws;
mod board_packed;
mod board_runs;
mod board_scripts;
mod board_tighter;
mod distance;
mod exchange;
mod generated;
mod low;
mod low_scripts;
mod others;
mod pairs;
mod recorder;
mod recorder_script;
mod recorder_scripts;
mod refusals;
mod rows;
mod sample;
mod script;
mod scripted;
mod segments;
mod tighter;
