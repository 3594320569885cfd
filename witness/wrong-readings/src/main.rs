//! `wrong-readings page` prints docs/WRONG-READINGS.md: for each rule, how many
//! wrong readings of it there are, and what tells them from the right one.
//! `wrong-readings list [SEED]` prints them all by name. Both fail if a reading
//! is not as it should be. `wrong-readings told DIR` says how many the captures
//! of a folder tell, `wrong-readings golden DIR` prints the page of a golden set,
//! or fails if it is none, and `wrong-readings cover DIR` chooses one and writes
//! it. What takes long says on standard error how far it is.

mod capture;
mod cover;
mod golden;
mod judged;
mod page;
mod wrong;

use std::io::{self, Write};
use std::path::Path;
use std::process::ExitCode;

use judged::{Judged, Trials};

/// The page and the golden set are of this seed.
const SEED: u64 = 1;
/// So many readings are judged between two lines that say how far it is.
const STRIDE: usize = 50;

fn main() -> ExitCode {
    let arguments: Vec<String> = std::env::args().skip(1).collect();
    let words: Vec<&str> = arguments.iter().map(String::as_str).collect();
    match words.as_slice() {
        ["page"] => answer(&judge(SEED), page::page),
        ["list"] => answer(&judge(SEED), list),
        ["list", seed] => match seed.parse() {
            Ok(seed) => answer(&judge(seed), list),
            Err(_) => usage(),
        },
        ["told", folder] => finish(told(Path::new(folder))),
        ["golden", folder] => finish(golden(Path::new(folder))),
        ["cover", folder] => finish(cover(Path::new(folder))),
        _ => usage(),
    }
}

fn usage() -> ExitCode {
    eprintln!("usage: wrong-readings page | list [SEED] | told DIR | golden DIR | cover DIR");
    ExitCode::from(2)
}

fn judge(seed: u64) -> Vec<Judged> {
    let trials = Trials::new(seed);
    let readings = wrong::readings();
    let mut judged = Vec::with_capacity(readings.len());
    for wrong in &readings {
        judged.push(trials.judge(wrong));
        if judged.len() % STRIDE == 0 {
            eprintln!("wrong-readings: {} of {}", judged.len(), readings.len());
        }
    }
    judged
}

fn answer(judged: &[Judged], text: fn(&[Judged]) -> Result<String, String>) -> ExitCode {
    let faults: Vec<String> = judged.iter().filter_map(Judged::fault).collect();
    for fault in &faults {
        eprintln!("wrong-readings: {fault}");
    }
    match finish(text(judged)) {
        code if faults.is_empty() => code,
        _ => ExitCode::FAILURE,
    }
}

fn list(judged: &[Judged]) -> Result<String, String> {
    let line = |(number, judged): (usize, &Judged)| format!("{:3} {judged}\n", number + 1);
    Ok(judged.iter().enumerate().map(line).collect())
}

fn told(folder: &Path) -> Result<String, String> {
    let (set, readings) = (load(folder)?, capture::readings());
    let told = golden::told(&set, &readings);
    Ok(format!("{told} of the {}\n", readings.len()))
}

fn golden(folder: &Path) -> Result<String, String> {
    golden::page(&load(folder)?, &capture::readings())
}

fn load(folder: &Path) -> Result<golden::Set, String> {
    golden::load(folder).map_err(|error| format!("{}: {error}", folder.display()))
}

fn cover(folder: &Path) -> Result<String, String> {
    let readings = capture::readings();
    let captures = cover::cover(SEED, &readings)?;
    golden::store(folder, captures, &readings)?;
    Ok(String::new())
}

/// Prints the text, or says what there is instead of one.
fn finish(text: Result<String, String>) -> ExitCode {
    let written = text.and_then(|text| {
        let written = io::stdout().write_all(text.as_bytes());
        written.map_err(|error| error.to_string())
    });
    match written {
        Ok(()) => ExitCode::SUCCESS,
        Err(fault) => {
            eprintln!("wrong-readings: {fault}");
            ExitCode::FAILURE
        }
    }
}
