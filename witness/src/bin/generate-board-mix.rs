//! `generate-board-mix NAME UNITS SEED`: writes the benchmark's input for a board
//! of 1, 4 or 16 units, 16,000 records of one mix of cycles, to standard output.
//! Without arguments it lists the mixes.

use std::io::{self, Write};
use std::process::ExitCode;

use witness::generate::board_mixes::input;
use witness::generate::mixes::NAMES;

fn main() -> ExitCode {
    let arguments: Vec<String> = std::env::args().skip(1).collect();
    let bytes = match arguments.as_slice() {
        [] => format!("{}\n", NAMES.join("\n")).into_bytes(),
        [name, units, seed] => {
            let mix = NAMES.iter().position(|known| known == name);
            let (Some(mix), Ok(units @ (1 | 4 | 16)), Ok(seed)) =
                (mix, units.parse(), seed.parse())
            else {
                return usage();
            };
            input(mix, units, seed)
        }
        _ => return usage(),
    };
    match io::stdout().write_all(&bytes) {
        Ok(()) => ExitCode::SUCCESS,
        Err(error) => {
            eprintln!("generate-board-mix: {error}");
            ExitCode::FAILURE
        }
    }
}

fn usage() -> ExitCode {
    eprintln!("usage: generate-board-mix [NAME UNITS SEED], UNITS 1, 4 or 16");
    ExitCode::from(2)
}
