//! `mmurun-witness`: document 01's `mmurun` on standard input and output.
//! With `--packed N` it runs the trace N times from power-on and writes the
//! answers of the last run in seven bytes each: what the benchmark times.

use std::hint::black_box;
use std::io::{self, Read, Write};
use std::process::ExitCode;

use witness::packed;
use witness::text::Text;
use witness::trace::{Layout, LONGEST};
use witness::Document01;

fn main() -> ExitCode {
    let arguments: Vec<String> = std::env::args().skip(1).collect();
    let runs = match arguments.as_slice() {
        [] => None,
        [mode, runs] if mode == "--packed" => match runs.parse() {
            Ok(runs) => Some(runs),
            Err(_) => return usage(),
        },
        _ => return usage(),
    };
    match answer(runs) {
        Ok(()) => ExitCode::SUCCESS,
        Err(error) => {
            eprintln!("mmurun-witness: {error}");
            ExitCode::FAILURE
        }
    }
}

fn usage() -> ExitCode {
    eprintln!("usage: mmurun-witness [--packed RUNS] < trace");
    ExitCode::from(2)
}

fn answer(runs: Option<u32>) -> io::Result<()> {
    let mut trace = Vec::new();
    // One byte past the longest good trace is enough to know that it is bad.
    io::stdin()
        .take(LONGEST as u64 + 1)
        .read_to_end(&mut trace)?;
    let text = match runs {
        Some(runs) => again(&trace, runs),
        None => Document01::run(&trace),
    };
    io::stdout().write_all(&text)
}

/// A refused trace has no record, and so no answer.
fn again(trace: &[u8], runs: u32) -> Vec<u8> {
    let count = Document01::count(trace).unwrap_or(0);
    let mut answers = vec![0; packed::BYTES * count];
    if count > 0 {
        for _ in 0..runs {
            packed::run(black_box(trace), &mut answers);
            black_box(&mut answers);
        }
    }
    answers
}
