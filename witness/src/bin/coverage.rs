//! `coverage SEED`: runs the witness over the captures of a seed and prints
//! how often each row of document 01 was met. Fails if a row that can be met
//! from power-on was met too seldom.

use std::process::ExitCode;

use witness::coverage::{Row, Table, ENOUGH};
use witness::generate::{file, SET};

fn main() -> ExitCode {
    let arguments: Vec<String> = std::env::args().skip(1).collect();
    let Ok([seed]) = <[String; 1]>::try_from(arguments) else {
        return usage();
    };
    let Ok(seed) = seed.parse() else {
        return usage();
    };
    let mut table = Table::new();
    for number in 0..SET {
        table.add(&file(seed, number));
    }
    print!("{table}");
    for row in table.rows.iter().filter(|row| !row.covered()) {
        eprintln!("coverage: fewer than {ENOUGH}: {}", row.name);
    }
    if table.rows.iter().all(Row::covered) {
        ExitCode::SUCCESS
    } else {
        ExitCode::FAILURE
    }
}

fn usage() -> ExitCode {
    eprintln!("usage: coverage SEED");
    ExitCode::from(2)
}
