//! `board-witness`: runs a board script from standard input and prints the
//! answer to each of its cycles and the units that it changed. With `--packed N`
//! it runs the benchmark's input N times from power-on and writes the answers of
//! the last run in eight bytes each.

use std::hint::black_box;
use std::io::{self, Read, Write};
use std::process::ExitCode;

use witness::{board_script, packed_board, Document01};

fn main() -> ExitCode {
    let arguments: Vec<String> = std::env::args().skip(1).collect();
    let runs = match arguments.as_slice() {
        [] => None,
        [mode, runs] if mode == "--packed" => match runs.parse() {
            Ok(runs) => Some(runs),
            Err(_) => return usage(),
        },
        _ => return usage(),
    };
    match answer(runs) {
        Ok(()) => ExitCode::SUCCESS,
        Err(error) => {
            eprintln!("board-witness: {error}");
            ExitCode::FAILURE
        }
    }
}

fn usage() -> ExitCode {
    eprintln!("usage: board-witness < script, board-witness --packed RUNS < input");
    ExitCode::from(2)
}

fn answer(runs: Option<u32>) -> io::Result<()> {
    let mut input = Vec::new();
    io::stdin().read_to_end(&mut input)?;
    let text = match runs {
        Some(runs) => again(&input, runs),
        None => board_script::run::<Document01>(&input),
    };
    io::stdout().write_all(&text)
}

fn again(input: &[u8], runs: u32) -> Vec<u8> {
    let mut answers = vec![0; packed_board::BYTES * packed_board::records(input).len()];
    for _ in 0..runs {
        packed_board::run(black_box(input), &mut answers);
        black_box(&mut answers);
    }
    answers
}
