//! `generate-mix NAME SEED`: writes a trace of 16,000 records of one mix of
//! cycles to standard output. Without arguments it lists the mixes.

use std::io::{self, Write};
use std::process::ExitCode;

use witness::generate::mixes::{trace, NAMES};

fn main() -> ExitCode {
    let arguments: Vec<String> = std::env::args().skip(1).collect();
    let bytes = match arguments.as_slice() {
        [] => format!("{}\n", NAMES.join("\n")).into_bytes(),
        [name, seed] => {
            let mix = NAMES.iter().position(|known| known == name);
            let (Some(mix), Ok(seed)) = (mix, seed.parse()) else {
                return usage();
            };
            trace(mix, seed)
        }
        _ => return usage(),
    };
    match io::stdout().write_all(&bytes) {
        Ok(()) => ExitCode::SUCCESS,
        Err(error) => {
            eprintln!("generate-mix: {error}");
            ExitCode::FAILURE
        }
    }
}

fn usage() -> ExitCode {
    eprintln!("usage: generate-mix [NAME SEED]");
    ExitCode::from(2)
}
