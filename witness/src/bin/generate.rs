//! `generate SEED [COUNT] DIR`: writes captures DIR/NNNN.mbt, as many as are
//! compared if no COUNT is given.

use std::fs;
use std::io;
use std::path::Path;
use std::process::ExitCode;

use witness::generate::{file, COMPARED};

fn main() -> ExitCode {
    let arguments: Vec<String> = std::env::args().skip(1).collect();
    let (seed, count, directory) = match arguments.as_slice() {
        [seed, directory] => (seed.parse(), Ok(COMPARED), directory),
        [seed, count, directory] => (seed.parse(), count.parse(), directory),
        _ => return usage(),
    };
    let (Ok(seed), Ok(count)) = (seed, count) else {
        return usage();
    };
    match write_all(seed, count, Path::new(directory)) {
        Ok(()) => ExitCode::SUCCESS,
        Err(error) => {
            eprintln!("generate: {error}");
            ExitCode::FAILURE
        }
    }
}

fn usage() -> ExitCode {
    eprintln!("usage: generate SEED [COUNT] DIR");
    ExitCode::from(2)
}

fn write_all(seed: u64, count: usize, directory: &Path) -> io::Result<()> {
    fs::create_dir_all(directory)?;
    for number in 0..count {
        fs::write(
            directory.join(format!("{number:04}.mbt")),
            file(seed, number),
        )?;
    }
    Ok(())
}
